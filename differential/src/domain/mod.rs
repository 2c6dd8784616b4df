//! The bit domain: its calls by scripts of records (FORMAT.md), compared byte by byte.

mod generate;
pub mod paper;
pub mod rust_side;
mod script;
#[cfg(feature = "linked")]
mod speed;

use crate::compare::{self, Fault, Shown, Side};
use crate::ours::Part;
use crate::random::Random;
use crate::script::{Answer, Form, Record};
use crate::tally::Tally;
use rust_side::RustSide;

#[cfg(feature = "linked")]
unsafe extern "C" {
    fn probe_domain(script: *const u8, script_len: usize, out: *mut u8, out_len: usize) -> usize;
}

pub const PART: Part = Part {
    program: "replay_domain",
    room: 65536,
    #[cfg(feature = "linked")]
    linked: probe_domain,
};

impl Side for RustSide {
    const NAME: &'static str = "domain";
    const PART: &'static Part = &PART;
    const FORM: Form = script::FORM;

    fn with(fault: Fault) -> Self {
        let mut side = RustSide::new();
        side.fault = fault;
        side
    }

    fn calls(&self) -> &[u64; 256] {
        &self.counts.calls
    }

    fn rules(&self) -> Vec<(&'static str, u64)> {
        self.counts.by_rule(paper::RULES)
    }

    fn frame(&mut self, rnd: &mut Random) -> (Vec<Record>, Vec<u8>) {
        generate::frame(rnd, self)
    }

    fn run(&mut self, r: &Record, out: &mut Vec<u8>) {
        RustSide::run(self, r, out);
    }

    /// The domains have the first numbers, the cursors those after them.
    fn shows(r: &Record, answer: &Answer) -> [Shown; 2] {
        let register = if (56..60).contains(&r.op) { script::REGISTERS + r.b } else { r.a };
        let [lo, hi, bounds] = answer.left;
        [Some((register, [lo, hi, bounds, 0])), None]
    }

    fn fresh() -> Vec<[u64; 4]> {
        vec![[0; 4]; 2 * script::REGISTERS]
    }

    fn is_blank(r: &Record, _: &Answer, behind: &[u8]) -> bool {
        script::is_blank(r, behind)
    }
}

pub fn record(frames: u64) -> (Vec<u8>, Vec<u8>) {
    compare::record::<RustSide>(frames)
}

pub fn quick() -> bool {
    compare::finds::<RustSide>(Fault::Answer, "contains", 2, "`contains` at offset 64") && compare::finds_refusals::<RustSide>(2)
}

/// So many calls, crowding the limits.
pub fn compare(calls: u64, seed: u64) -> Tally {
    compare::compare::<RustSide>(seed, |side| side.compared() >= calls, |_| {})
}

#[cfg(feature = "linked")]
pub fn speed(bench: &mut crate::bench::Bench) {
    speed::run(bench);
}
