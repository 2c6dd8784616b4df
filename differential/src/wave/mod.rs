//! The wave: sheets in, texts out, by a reader of our own over the original's board.

mod compare;
mod generate;
mod guard;
mod program;
mod reader;
mod rust_side;
#[cfg(feature = "linked")]
mod speed;

use crate::compare::Fault;
use crate::ours::{Ours, Part};
use crate::tally::{self, Tally, grouped};
use compare::{Counts, Difference};
use std::time::Instant;

#[cfg(feature = "linked")]
unsafe extern "C" {
    fn probe_wave(script: *const u8, script_len: usize, out: *mut u8, out_len: usize) -> usize;
}

pub const PART: Part = Part {
    program: "wave_pipe",
    room: compare::FRAME,
    #[cfg(feature = "linked")]
    linked: probe_wave,
};

fn table(counts: &Counts) {
    tally::by_call([("random sheets", counts.good), ("damaged sheets", counts.damaged)].into_iter());
    for (kind, text) in generate::DAMAGES.iter().enumerate() {
        println!("{:>11} {text}", grouped(counts.kinds[kind]));
    }
    println!("wave: lists that are conflicts: {}", grouped(counts.conflicts));
    println!("wave: refused by ours, by number, 14 with every lent byte as before: {}", tally::by_number(&counts.refused));
}

/// What differs, or how many more calls were compared: sheets cut at each place, and sheets through the program itself.
fn others(seed: u64, cut: u64, runs: u64, ours: &mut Ours) -> Result<u64, Option<Difference>> {
    let cuts = compare::cuts(cut, seed, ours).map_err(Some)?;
    println!("wave: sheets cut at each of their places: {} cuts", grouped(cuts));
    let ran = program::compare(seed, runs).ok_or(None)?;
    Ok(cuts + ran)
}

/// So many random sheets and as many damaged ones; of some each cut; and a few through the program itself.
pub fn compare(sheets: u64, cut: u64, runs: u64, seed: u64) -> Tally {
    let mut ours = Ours::start(&PART);
    let began = Instant::now();
    println!("wave: seed {seed}, ours {}", ours.place());
    let mut counts = Counts::default();
    let found = match compare::run(seed, sheets, &mut ours, Fault::None, &mut counts) {
        Some(d) => Err(Some(d)),
        None => others(seed, cut, runs, &mut ours),
    };
    table(&counts);
    let seconds = began.elapsed().as_secs_f64();
    let calls = counts.good + counts.damaged + found.as_ref().unwrap_or(&0);
    let r = &counts.refused;
    let rules = vec![("no wave sheet", r[15]), ("an unknown id listed", r[6]), ("an id listed twice", r[7]), ("no room", r[14])];
    match &found {
        Ok(_) => println!("differential: wave: {} sheets compared, 0 differences (seed {seed}, ours {}, {seconds:.1} s)", grouped(calls), ours.place()),
        Err(d) => {
            d.iter().for_each(Difference::print);
            println!("differential: wave: A DIFFERENCE (seed {seed})");
        }
    }
    Tally { part: "wave", seed, calls, refused: counts.refused, rules, differences: found.is_err() as u64, seconds }
}

/// The comparison must find a fault that is made on purpose, and cut the sheet down to a few bytes.
fn finds(fault: Fault, what: &str, is_it: impl Fn(&Difference) -> bool) -> bool {
    let mut ours = Ours::start(&PART);
    let found = compare::run(1, 1_000_000, &mut ours, fault, &mut Counts::default());
    match found {
        Some(d) if d.sheet.len() <= 24 && is_it(&d) => {
            println!("differential: wave: a fault made on purpose, {what}, is found and cut down to {} bytes", d.sheet.len());
            true
        }
        Some(d) => {
            d.print();
            println!("differential: wave: a fault made on purpose, {what}, is found, and NOT CUT DOWN");
            false
        }
        None => {
            println!("differential: wave: A FAULT MADE ON PURPOSE, {what}, IS NOT FOUND");
            false
        }
    }
}

pub fn quick() -> bool {
    finds(Fault::Answer, "`-0` read as 0", |d| d.sheet.windows(2).any(|w| w == b"-0"))
        && finds(Fault::State, "a byte past the lent ones", |d| d.ours.split_last().unwrap().1 == d.rust.split_last().unwrap().1)
        && finds(Fault::Wrote, "a refusal that wrote a lent byte", |d| d.ours == d.rust)
}

#[cfg(feature = "linked")]
pub fn speed(bench: &mut crate::bench::Bench) {
    speed::run(bench);
}
