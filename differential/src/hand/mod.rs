//! The forms through a reference: removal, a batch of closings, by value and lent, and a closing through a
//! reference. Frames of 8,192 bytes (FORMAT.md) go to both sides, and every answer and every state is compared; a refusal must
//! leave the state as it was.

#[cfg(feature = "linked")]
mod speed;

use crate::board::paper::{Plain, Row};
use crate::compare::Fault;
use crate::domain::paper::{BROKEN, well};
use crate::domain::rust_side::domain;
use crate::ours::{Ours, Part};
use crate::random::Random;
use crate::script;
use crate::tally::{self, ByNumber, Tally, grouped};
use selen_oracle::constraints::gac_bitset::BitSetGAC;
use selen_oracle::constraints::gac_hybrid::Variable;
use std::time::Instant;

#[cfg(feature = "linked")]
unsafe extern "C" {
    fn probe_hand(script: *const u8, script_len: usize, out: *mut u8, out_len: usize) -> usize;
}

pub const PART: Part = Part {
    program: "hand_pipe",
    room: 8192,
    #[cfg(feature = "linked")]
    linked: probe_hand,
};

const FRAME: usize = 8192;
const REMOVALS: usize = 200;
const CLOSINGS: usize = 256;

/// A signed number as the frames have it, in a word.
fn bits(v: i32) -> u64 {
    script::bits(v) as u64
}

fn put(frame: &mut [u8], word: usize, w: u64) {
    frame[8 * word..8 * word + 8].copy_from_slice(&w.to_le_bytes());
}

/// Ends of a universe: often at the ends of i32, of 1 to 128 values, and sometimes of too many.
fn universe(rnd: &mut Random) -> (i32, i32) {
    let width = match rnd.below(8) {
        0 => rnd.pick(&[1, 2, 63, 64, 65, 127, 128]),
        1 => 129 + rnd.below(300) as i64,
        _ => 1 + rnd.below(128) as i64,
    };
    let min = match rnd.below(6) {
        0 => i32::MIN as i64,
        1 => i32::MAX as i64 - width + 1,
        _ => rnd.below(400) as i64 - 200,
    };
    (min as i32, (min + width - 1) as i32)
}

/// A value in a universe, at its ends, or a little outside; now and then an end of i32.
fn value(rnd: &mut Random, min: i32, max: i32) -> i32 {
    let v = match rnd.below(12) {
        0 => return i32::MIN,
        1 => return i32::MAX,
        2 => min as i64 - 1,
        3 => max as i64 + 1,
        4 => min as i64 + 64,
        _ => min as i64 + rnd.below((max as i64 - min as i64).clamp(0, 140) as u64 + 1) as i64,
    };
    script::clamp(v)
}

fn random_mask(rnd: &mut Random) -> u128 {
    let m = rnd.wide();
    match rnd.below(4) {
        0 => m & rnd.wide(),
        1 => 1u128 << rnd.below(128),
        2 => u128::MAX,
        _ => m,
    }
}

#[derive(Default)]
pub struct Counts {
    pub removals: u64,
    pub others: u64,
    pub batches: u64,
    pub closings: u64,
    pub unknown: u64,
    /// First closings through a reference, by kind.
    pub alone: [u64; 4],
    pub broken: u64,
    /// Refusals of ours, by number.
    pub refused: ByNumber,
}

/// An answer in a frame's answers: the word at which it stands, from which number on it is a refusal, and the words after it as they are if
/// the call changes nothing.
struct Unit {
    at: usize,
    refused: u64,
    before: Vec<u64>,
}

/// A frame, the Rust's answers to it, and where they stand.
struct Asked {
    frame: Vec<u8>,
    answers: Vec<u64>,
    units: Vec<Unit>,
}

/// A frame of removals.
fn removals(rnd: &mut Random, counts: &mut Counts) -> Asked {
    let mut frame = vec![0u8; FRAME];
    let mut answers = Vec::new();
    let mut units = Vec::new();
    for i in 0..REMOVALS {
        let (mut min, mut max) = universe(rnd);
        let mut mask = random_mask(rnd);
        let wide = max as i64 - min as i64 + 1;
        if wide > 128 && rnd.below(2) == 0 {
            (min, max, mask) = rnd.pick(&[(1, 0, 0), (0, -1, 0)]);
        } else if wide < 128 && !rnd.one_in(10) {
            mask &= (1u128 << wide) - 1;
        }
        let v = value(rnd, min, max);
        let op = if rnd.below(5) < 3 { 0 } else { rnd.below(5) };
        put(&mut frame, 4 + 4 * i, op | bits(v) << 32);
        put(&mut frame, 5 + 4 * i, mask as u64);
        put(&mut frame, 6 + 4 * i, (mask >> 64) as u64);
        put(&mut frame, 7 + 4 * i, bits(min) | bits(max) << 32);
        units.push(Unit { at: answers.len(), refused: 256, before: vec![mask as u64, (mask >> 64) as u64, bits(min) | bits(max) << 32] });
        let mut answer = 256 + BROKEN;
        if op == 0 { counts.removals += 1 } else { counts.others += 1 }
        if well(mask, min, max) {
            let mut d = domain(mask, min, max);
            answer = match op {
                0 => d.remove(v) as u64,
                1 => d.insert(v) as u64,
                2 => { d.remove_all_but(v); 2 }
                3 => { d.remove_below(v); 2 }
                _ => { d.remove_above(v); 2 }
            };
            mask = d.get_mask();
        } else {
            counts.broken += 1;
        }
        answers.extend([answer, mask as u64, (mask >> 64) as u64, bits(min) | bits(max) << 32]);
    }
    Asked { frame, answers, units }
}

/// A destination as it was registered.
struct Registered {
    id: u32,
    min: i32,
    max: i32,
}

/// The board as the original has it: no row past the count was ever in use, and no mark is open. A broken one says that it has 65 rows.
fn plain(gac: &BitSetGAC, rows: &[Registered], broken: bool) -> Plain {
    let mut board = Plain::new();
    for (row, r) in board.rows.iter_mut().zip(rows) {
        let d = &gac.domains[&Variable(r.id as usize)];
        *row = Row { id: r.id, mask: d.get_mask(), min: d.min_universe_value(), max: d.max_universe_value() };
    }
    board.count = if broken { 65 } else { rows.len() as u64 };
    board.changed = gac.domains_changed();
    board
}

/// The flag and all masks of a board; then one number over all of it, and its counts.
fn state(board: Plain) -> Vec<u64> {
    let mut words = vec![board.changed as u64];
    words.extend(board.rows.iter().flat_map(|r| [r.mask as u64, (r.mask >> 64) as u64]));
    words.extend(board.left());
    words
}

fn close(gac: &mut BitSetGAC, kind: u64, id: u32, v: i32) -> bool {
    let var = Variable(id as usize);
    match kind {
        0 => gac.remove_value(var, v),
        1 => gac.assign_variable(var, v),
        2 => gac.remove_below(var, v),
        _ => gac.remove_above(var, v),
    }
}

/// A frame of a batch, by value and lent, and of its first closing alone. With a fault in its answer the Rust's side forgets the eighth yes;
/// with one in its state it has a saved word changed, though no mark is open.
fn batch(rnd: &mut Random, counts: &mut Counts, fault: Fault) -> Asked {
    let mut frame = vec![0u8; FRAME];
    let count = match rnd.below(6) {
        0 => 0,
        1 => 1,
        2 => 64,
        _ => rnd.below(65),
    };
    let n = match rnd.below(6) {
        0 => 0,
        1 => CLOSINGS as u64,
        _ => rnd.below(CLOSINGS as u64 + 1),
    };
    let broken = rnd.one_in(40);
    put(&mut frame, 0, 1);
    put(&mut frame, 1, count | (broken as u64) << 16 | n << 32);
    let spread = rnd.pick(&[1u32, 256, 1024, 7919]);
    let first = if rnd.one_in(3) { u32::MAX - 64 * spread } else { rnd.below(1000) as u32 };
    let mut gac = BitSetGAC::new();
    let mut rows: Vec<Registered> = Vec::new();
    for i in 0..count {
        let (min, max) = universe(rnd);
        let id = first + if rnd.one_in(30) { 0 } else { i as u32 * spread };
        let (a, b) = if rnd.one_in(5) { (max, min) } else { (min, max) };
        put(&mut frame, 2 + 2 * i as usize, id as u64);
        put(&mut frame, 3 + 2 * i as usize, bits(a) | bits(b) << 32);
        gac.add_variable(Variable(id as usize), a, b);
        match rows.iter_mut().find(|r| r.id == id) {
            Some(r) => (r.min, r.max) = (min, max),
            None => rows.push(Registered { id, min, max }),
        }
    }
    gac.reset_changed_flag();
    let before = state(plain(&gac, &rows, broken));
    let mut yes = 0;
    let mut alone = Vec::new();
    for i in 0..CLOSINGS as u64 {
        let known = i < n && !rows.is_empty() && !rnd.one_in(5);
        let row = if known { Some(&rows[rnd.below(rows.len() as u64) as usize]) } else { None };
        let id = row.map_or(first + 64 * spread + rnd.below(3) as u32 % (u32::MAX - first - 64 * spread + 1).max(1), |r| r.id);
        let v = match row {
            Some(r) => value(rnd, r.min, r.max),
            None => value(rnd, 0, 100),
        };
        let kind = if rnd.one_in(2) { 0 } else { rnd.below(4) };
        put(&mut frame, 130 + 2 * i as usize, kind | (id as u64) << 32);
        put(&mut frame, 131 + 2 * i as usize, bits(v));
        // the first one is run alone too, so also where none counts
        if i < n.max(1) && !broken {
            let said = close(&mut gac, kind, id, v);
            yes += said as u64;
            counts.closings += (i < n) as u64;
            counts.unknown += (i < n && row.is_none()) as u64;
            if i == 0 {
                alone.push(said as u64);
            }
        }
        if i == 0 {
            alone.extend(broken.then_some(256 + BROKEN));
            alone.extend(state(plain(&gac, &rows, broken)));
            counts.alone[kind as usize] += 1;
        }
    }
    counts.batches += 1;
    if broken {
        counts.broken += 3;
        yes = 65536 + BROKEN;
    } else if fault == Fault::Answer && yes >= 8 {
        yes -= 1;
    }
    let mut after = plain(&gac, &rows, broken);
    after.saved[1023] = (fault == Fault::State) as u64;
    let mut one = vec![yes];
    one.extend(state(after));
    let units = [65536, 65536, 256].iter().enumerate().map(|(i, refused)| Unit { at: i * one.len(), refused: *refused, before: before.clone() }).collect();
    Asked { frame, answers: [one.clone(), one, alone].concat(), units }
}

/// On both sides alike: a refusal that changed the first word of the state.
fn spoil(asked: &Asked, words: &mut [u64], fault: Fault) {
    for unit in &asked.units {
        if fault == Fault::Changed && words[unit.at] >= unit.refused {
            words[unit.at + 1] ^= 1;
        }
    }
}

/// The first word that differs, or that a refusal of ours left changed, with what it should be. Refusals of ours are counted by number.
fn first(asked: &Asked, ours: &[u64], rust: &[u64], refused: &mut ByNumber) -> Option<(usize, u64, &'static str)> {
    if let Some(at) = (0..rust.len()).find(|k| ours.get(*k) != Some(&rust[*k])) {
        return Some((at, rust[at], "a difference"));
    }
    for unit in asked.units.iter().filter(|u| ours[u.at] >= u.refused) {
        refused[(ours[unit.at] - unit.refused) as usize % 16] += 1;
        if let Some(k) = (0..unit.before.len()).find(|k| ours[unit.at + 1 + k] != unit.before[*k]) {
            return Some((unit.at + 1 + k, unit.before[k], "a refusal that changed the state"));
        }
    }
    None
}

/// The frames of both kinds in turn, until there were so many of each, or one differs: what is wrong there.
fn run(seed: u64, removed: u64, batched: u64, fault: Fault, ours: &mut Ours, counts: &mut Counts) -> Option<String> {
    let mut rnd = Random::new(seed);
    while counts.removals < removed || counts.batches < batched {
        let asked = if counts.batches < batched && (counts.removals >= removed || rnd.one_in(2)) {
            batch(&mut rnd, counts, fault)
        } else {
            removals(&mut rnd, counts)
        };
        let got = ours.run(&asked.frame, 8 * asked.answers.len());
        let mut got: Vec<u64> = got.chunks(8).map(|w| u64::from_le_bytes(w.try_into().unwrap())).collect();
        let mut want = asked.answers.clone();
        spoil(&asked, &mut got, fault);
        spoil(&asked, &mut want, fault);
        if let Some((at, want, what)) = first(&asked, &got, &want, &mut counts.refused) {
            let kind = if asked.frame[0] == 0 { "removals" } else { "a batch" };
            return Some(format!("{what} in a frame of {kind}: word {at} is {:#x}, and should be {want:#x}", got.get(at).copied().unwrap_or_default()));
        }
    }
    None
}

/// So many removals, and so many batches, each by value, lent, and its first closing alone.
pub fn compare(removed: u64, batched: u64, seed: u64) -> Tally {
    let mut ours = Ours::start(&PART);
    let mut counts = Counts::default();
    let began = Instant::now();
    println!("hand: seed {seed}, ours {}", ours.place());
    let found = run(seed, removed, batched, Fault::None, &mut ours, &mut counts);
    let seconds = began.elapsed().as_secs_f64();
    let Counts { removals, others, batches, closings, unknown, alone, broken, refused } = counts;
    let calls = removals + others + 2 * batches + alone.iter().sum::<u64>();
    let forms = [("remove", removals), ("the four others", others), ("a batch by value", batches), ("a batch lent", batches)];
    let boards = ["remove_value", "assign_variable", "remove_below", "remove_above"].into_iter().zip(alone);
    tally::by_call(forms.into_iter().chain(boards));
    println!("hand: the batches have {} closings, {} of them of unknown ids", grouped(closings), grouped(unknown));
    println!("hand: refused by ours, by number, each with the state as before: {}", tally::by_number(&refused));
    match &found {
        None => println!("differential: hand: {} calls compared, 0 differences (seed {seed}, ours {}, {seconds:.1} s)", grouped(calls), ours.place()),
        Some(what) => println!("differential: hand: {what} (seed {seed})"),
    }
    Tally { part: "hand", seed, calls, refused, rules: vec![("not well formed", broken)], differences: found.is_some() as u64, seconds }
}

/// Faults made on purpose, each of which must be found as what it is.
pub fn quick() -> bool {
    let faults = [
        (Fault::Answer, "a yes that isn't counted", "a difference"),
        (Fault::State, "a saved word that a batch changed", "a difference in a frame of a batch: word 130 "),
        (Fault::Changed, "a refusal that changed the state", "a refusal"),
    ];
    faults.into_iter().all(|(fault, what, as_what)| match run(3, 100_000, 10_000, fault, &mut Ours::start(&PART), &mut Counts::default()) {
        Some(found) if found.starts_with(as_what) => {
            println!("differential: hand: a fault made on purpose, {what}, is found: {found}");
            true
        }
        found => {
            println!("differential: hand: A FAULT MADE ON PURPOSE, {what}, IS NOT FOUND ({found:?})");
            false
        }
    })
}

#[cfg(feature = "linked")]
pub fn speed(bench: &mut crate::bench::Bench) {
    speed::run(bench);
}
