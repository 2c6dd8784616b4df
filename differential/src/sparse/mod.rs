//! The sparse set: its calls by scripts of records (FORMAT.md), compared byte by byte.

mod generate;
mod paper;
mod rust_side;
mod script;
#[cfg(feature = "linked")]
mod speed;

use crate::compare::{self, Fault, Shown, Side};
use crate::ours::Part;
use crate::random::Random;
use crate::script::{Answer, Form, Record, pair};
use crate::tally::{Tally, grouped};
use rust_side::{Lent, RustSide};

#[cfg(feature = "linked")]
unsafe extern "C" {
    fn probe_sparse(script: *const u8, script_len: usize, out: *mut u8, out_len: usize) -> usize;
}

pub const PART: Part = Part {
    program: "replay_sparse",
    room: 65536,
    #[cfg(feature = "linked")]
    linked: probe_sparse,
};

impl Side for RustSide {
    const NAME: &'static str = "sparse";
    const PART: &'static Part = &PART;
    const FORM: Form = script::FORM;

    fn with(fault: Fault) -> Self {
        let mut side = RustSide::new();
        side.fault = fault;
        side
    }

    fn calls(&self) -> &[u64; 256] {
        &self.counts.calls
    }

    fn rules(&self) -> Vec<(&'static str, u64)> {
        self.counts.by_rule(paper::RULES)
    }

    fn frame(&mut self, rnd: &mut Random) -> (Vec<Record>, Vec<u8>) {
        generate::frame(rnd, self)
    }

    fn run(&mut self, r: &Record, out: &mut Vec<u8>) {
        RustSide::run(self, r, out);
    }

    /// Set a with what is seen of its orderings, those cells before and past the lent parts among them; and cursor b.
    fn shows(r: &Record, answer: &Answer) -> [Shown; 2] {
        let [universe, low, high] = answer.left;
        [Some((r.a % 2, [universe, low, high % (1 << 32), answer.hi])), Some((2 + r.b, [high >> 32, 0, 0, 0]))]
    }

    fn fresh() -> Vec<[u64; 4]> {
        let blank = script::seen((0..8).map(|_| pair(script::BLANK, script::BLANK)));
        let mut registers = vec![[0; 4]; 2 + script::REGISTERS];
        (registers[0][3], registers[1][3]) = (blank, blank);
        registers
    }

    /// The cells that are lent beside the orderings: all of them by one number, some of them one by one.
    fn is_blank(r: &Record, answer: &Answer, behind: &[u8]) -> bool {
        let lent = Lent::new(r);
        let mut blank = Vec::new();
        lent.show(&mut blank);
        behind == blank && (!lent.used || answer.lo == lent.seen())
    }
}

pub fn record(frames: u64) -> (Vec<u8>, Vec<u8>) {
    compare::record::<RustSide>(frames)
}

pub fn quick() -> bool {
    compare::finds::<RustSide>(Fault::Answer, "contains", 4, "`contains` at offset 5") && compare::finds_refusals::<RustSide>(4)
}

/// So many calls, crowding the limits.
pub fn compare(calls: u64, seed: u64) -> Tally {
    let more = |side: &RustSide| println!("sparse: calls on universes of more than 1,000 values: {}", grouped(side.wide));
    compare::compare(seed, |side: &RustSide| side.compared() >= calls, more)
}

#[cfg(feature = "linked")]
pub fn speed(bench: &mut crate::bench::Bench) {
    speed::run(bench);
}
