//! The board and trials: their calls by scripts of records (FORMAT.md), compared byte by byte.

mod generate;
pub mod paper;
mod rust_side;
mod script;
#[cfg(feature = "linked")]
mod speed;

use crate::compare::{self, Fault, Shown, Side};
use crate::ours::Part;
use crate::random::Random;
use crate::script::{Answer, Form, Record};
use crate::tally::{Tally, grouped, list};
use generate::Made;
use rust_side::RustSide;

#[cfg(feature = "linked")]
unsafe extern "C" {
    fn probe_board(script: *const u8, script_len: usize, out: *mut u8, out_len: usize) -> usize;
}

pub const PART: Part = Part {
    program: "replay_board",
    room: 65536,
    #[cfg(feature = "linked")]
    linked: probe_board,
};

fn table(side: &RustSide, made: &Made) {
    let c = &side.counts;
    println!("accepted lists by length: {}", list(c.lists.iter().enumerate().map(|(k, n)| (k.to_string(), *n))));
    let [ff, ft, tf, tt] = c.pairs.map(grouped);
    println!("accepted lists by pair: (false, true): {ft}; (true, true): {tt}; (true, false): {tf}; (false, false): {ff}");
    println!("calls within trials: {}; by open marks: {}", grouped(c.tried), list(c.depth.iter().enumerate().map(|(k, n)| (k.to_string(), *n))));
    println!("boards that aren't well formed: {}, with {} calls on them, each refused with 1", grouped(made.broken()), grouped(c.broken));
    println!("  by clause: {}", list(generate::CLAUSES.iter().zip(made.clauses).map(|(k, n)| (k.to_string(), n))));
    let least = script::on_board().iter().flat_map(|op| made.tried.iter().map(|t| t[*op as usize])).min().unwrap();
    println!("  each clause with each of {} calls, {least} times or more", script::on_board().len());
}

/// The Rust's board, and the boards that were made to be tried.
struct Boards {
    side: RustSide,
    made: Made,
}

impl Side for Boards {
    const NAME: &'static str = "board";
    const PART: &'static Part = &PART;
    const FORM: Form = script::FORM;

    fn with(fault: Fault) -> Self {
        let mut side = RustSide::new();
        side.fault = fault;
        Boards { side, made: Made::new() }
    }

    fn calls(&self) -> &[u64; 256] {
        &self.side.counts.calls
    }

    fn rules(&self) -> Vec<(&'static str, u64)> {
        let c = &self.side.counts;
        let by_number = paper::RULES.iter().map(|(number, name)| (*name, c.refused[*number as usize]));
        by_number.chain([("all i32 values", c.all_values), ("the order of `variables`", c.ordered)]).collect()
    }

    fn frame(&mut self, rnd: &mut Random) -> (Vec<Record>, Vec<u8>) {
        generate::frame(rnd, &mut self.side, &mut self.made)
    }

    fn run(&mut self, r: &Record, out: &mut Vec<u8>) {
        self.side.run(r, out);
    }

    /// The board, by the number over all of it, its count, and its marks with the flag.
    fn shows(r: &Record, answer: &Answer) -> [Shown; 2] {
        let [sum, count, marks] = answer.left;
        [(r.op > script::op::VALUES).then_some((0, [sum, count, marks, 0])), None]
    }

    fn fresh() -> Vec<[u64; 4]> {
        let [sum, count, marks] = paper::Plain::new().left();
        vec![[sum, count, marks, 0]]
    }

    fn is_blank(r: &Record, _: &Answer, behind: &[u8]) -> bool {
        script::is_blank(r, behind)
    }
}

/// Whether a sample has every call, every refusal that a board gives, and every pair.
fn is_whole(side: &RustSide) -> bool {
    let c = &side.counts;
    script::CALLS.iter().filter(|call| script::is_call(call.0)).all(|call| c.calls[call.0 as usize] > 0) && [1, 2, 3, 4, 5, 6, 7, 8, 11, 14].iter().all(|k: &usize| c.refused[*k] > 0) && c.pairs.iter().all(|n| *n > 0)
}

/// The first sample that is whole, of the seeds from a fixed one on.
pub fn record(frames: u64) -> (Vec<u8>, Vec<u8>) {
    for seed in compare::RECORDED.. {
        let mut boards = Boards::with(Fault::None);
        let sample = compare::sample(&mut boards, seed, frames);
        if is_whole(&boards.side) {
            table(&boards.side, &boards.made);
            return sample;
        }
    }
    unreachable!("some seed gives a whole sample")
}

pub fn quick() -> bool {
    compare::finds::<Boards>(Fault::Answer, "propagate_alldiff", 10, "(true, false) after a stop in step 2")
        && compare::finds::<Boards>(Fault::State, "restore", 6, "a flag that restoring clears")
        && compare::finds_refusals::<Boards>(6)
}

/// So many calls, a twelfth of them propagations and a sixth within trials at the least, and so many boards that aren't well formed.
pub fn compare(calls: u64, boards: u64, seed: u64) -> Tally {
    let enough = |b: &Boards| {
        let c = &b.side.counts;
        b.compared() >= calls && 12 * c.lists.iter().sum::<u64>() >= calls && 6 * c.tried >= calls && b.made.broken() >= boards
    };
    compare::compare(seed, enough, |b: &Boards| table(&b.side, &b.made))
}

#[cfg(feature = "linked")]
pub fn speed(bench: &mut crate::bench::Bench) {
    speed::run(bench);
}
