//! Times of a board's checked calls and of the original's, in one process, over the same inputs: minima of many runs, per call.
//!
//! Both loops work on 64 destinations with the chutes 0 to 63. Ours (`crates/board_bench`) hands the board to the next turn by
//! value; each propagation starts from the same board.

use super::script::{ANSWER, Answer, RECORD, Record, op};
use crate::bench::{Bench, Least, Limit, time};
use selen_oracle::constraints::gac_bitset::BitSetGAC;
use selen_oracle::constraints::gac_hybrid::Variable;
use std::hint::black_box;
use std::time::Instant;

unsafe extern "C" {
    fn bench_propagate(assigned: usize, turns: usize, list: *const u32, many: usize) -> u64;
    fn bench_close(marks: usize, turns: usize) -> u64;
    fn bench_enter(turns: usize) -> u64;
    fn bench_ask(turns: usize) -> u64;
    fn bench_trial(turns: usize) -> u64;
}

fn board(assigned: usize) -> BitSetGAC {
    let mut g = BitSetGAC::new();
    for i in 0..64 {
        g.add_variable(Variable(i), 0, 63);
        if i < assigned {
            g.assign_variable(Variable(i), i as i32);
        }
    }
    g
}

/// The least times of one call, taken in turns. Ours is what `turns` turns take above what the setting up takes; the Rust's says by itself
/// how long it took.
fn least(runs: usize, turns: usize, ours: &dyn Fn(usize) -> u64, rust: &dyn Fn() -> (f64, u64)) -> Least {
    let (mut all, mut none, mut theirs, mut same) = (f64::MAX, f64::MAX, f64::MAX, true);
    for _ in 0..runs {
        let (x, p) = time(&mut || ours(black_box(turns)));
        let (y, _) = time(&mut || ours(black_box(0)));
        let (z, q) = rust();
        (all, none, theirs, same) = (all.min(x), none.min(y), theirs.min(z), same && p == q);
    }
    Least { ours: (all - none) / turns as f64, rust: theirs, same }
}

fn pair((changed, consistent): (bool, bool)) -> u64 {
    2 * changed as u64 + consistent as u64
}

/// The original's propagation, each time on the same domains: a list of which none is assigned leaves them as they are, so that
/// it can be propagated again and again; otherwise it is timed once on a clone.
fn rust_propagate(start: &BitSetGAC, list: &[Variable], assigned: usize) -> (f64, u64) {
    let turns = if assigned == 0 { 16 } else { 1 };
    let mut g = BitSetGAC::new();
    g.domains = start.domains.clone();
    let mut said = 0;
    let began = Instant::now();
    for _ in 0..turns {
        said = black_box(pair(g.propagate_alldiff(black_box(list))));
    }
    let took = began.elapsed().as_nanos() as f64 / turns as f64;
    (took, said ^ g.domains[&Variable(63)].get_mask() as u64)
}

/// So many turns on a board of the original's, timed without the setting up.
fn rust_turns(turns: usize, turn: impl Fn(&mut BitSetGAC, usize) -> u64) -> (f64, u64) {
    let mut g = board(0);
    let mut sum = 0u64;
    let began = Instant::now();
    for i in 0..turns {
        sum = sum.wrapping_add(turn(black_box(&mut g), i));
    }
    (began.elapsed().as_nanos() as f64 / turns as f64, sum)
}

fn rust_close(g: &mut BitSetGAC, i: usize) -> u64 {
    g.remove_value(Variable(i % 64), (i / 64 % 64) as i32) as u64
}

fn rust_enter(g: &mut BitSetGAC, i: usize) -> u64 {
    g.add_variable(Variable(i % 64), 0, 63);
    1
}

fn rust_ask(g: &mut BitSetGAC, i: usize) -> u64 {
    g.domain_size(Variable(i % 64)) as u64
}

/// The Rust has no marks: what stands for one is a clone of its domains, put back.
fn rust_trial(g: &mut BitSetGAC, _: usize) -> u64 {
    g.domains = black_box(g.domains.clone());
    2
}

/// A propagation of the first so many ids, of which so many are assigned.
fn propagate(many: usize, assigned: usize) -> Least {
    let ids: Vec<u32> = (0..many as u32).collect();
    let list: Vec<Variable> = (0..many).map(Variable).collect();
    let start = board(assigned);
    let ours = |turns| unsafe { bench_propagate(assigned, turns, ids.as_ptr(), ids.len()) };
    let took = least(if (3..7).contains(&many) { 200 } else { 3000 }, 64, &ours, &|| rust_propagate(&start, &list, assigned));
    // one turn answers what the Rust's one call does
    Least { same: ours(1) == rust_propagate(&start, &list, assigned).1, ..took }
}

const RUNS: usize = 3000;
const TURNS: usize = 256;

fn close(marks: usize) -> Least {
    least(RUNS, TURNS, &|turns| unsafe { bench_close(marks, turns) }, &|| rust_turns(TURNS, rust_close))
}

fn ratios(bench: &mut Bench) {
    bench.table("The board: 64 destinations with the chutes 0 to 63, checks included; the least of 3,000 runs, of 200 for propagations of 3 to 6 ids", "call");
    for (many, assigned, limit) in [
        (3, 0, Limit::Faster(10.0)),
        (5, 0, Limit::Faster(50.0)),
        (6, 0, Limit::Faster(50.0)),
        (7, 0, Limit::Times(5.0)),
        (20, 0, Limit::Times(2.0)),
        (64, 0, Limit::Faster(1.0)),
        (6, 3, Limit::Faster(50.0)),
        (20, 10, Limit::Faster(3.0)),
        (64, 32, Limit::Faster(8.0)),
    ] {
        bench.row(&format!("propagate {many} ids, {assigned} assigned"), propagate(many, assigned), limit);
    }
    bench.row("one closing, no mark open", close(0), Limit::Within(600.0));
    bench.row("one closing, 8 marks open", close(8), Limit::None);
    bench.row("registration of a known id", least(RUNS, TURNS, &|n| unsafe { bench_enter(n) }, &|| rust_turns(TURNS, rust_enter)), Limit::None);
    bench.row("domain_size", least(RUNS, TURNS, &|n| unsafe { bench_ask(n) }, &|| rust_turns(TURNS, rust_ask)), Limit::None);
    bench.row("mark and restore; the Rust's: a clone, put back", least(RUNS, TURNS, &|n| unsafe { bench_trial(n) }, &|| rust_turns(TURNS, rust_trial)), Limit::Within(1500.0));
}

fn heads(first: &str, numbers: &[usize]) -> Vec<String> {
    [first.to_string()].into_iter().chain(numbers.iter().map(|n| n.to_string())).collect()
}

fn by_list(bench: &mut Bench) {
    let lengths = [1, 2, 3, 4, 5, 6, 7, 8, 16, 32, 64];
    bench.growth("The board, by the list's length (64 destinations with the chutes 0 to 63): ns", &heads("ids", &lengths));
    for (name, part) in [("none assigned", 0), ("half assigned", 2)] {
        let took: Vec<Least> = lengths.iter().map(|n| propagate(*n, n.checked_div(part).unwrap_or(0))).collect();
        bench.line(&format!("ours, {name}"), &took.iter().map(|l| l.ours).collect::<Vec<_>>());
        bench.line(&format!("the Rust, {name}"), &took.iter().map(|l| l.rust).collect::<Vec<_>>());
    }
}

/// How many calls a script for the clock has.
const CALLS: usize = 64;

/// A script that sets up a board of so many rows and marks, makes so many calls, and shows the board after each record.
fn script(rows: usize, marks: usize, calls: &[Record]) -> Vec<u8> {
    let mut records: Vec<Record> = (0..rows).map(|i| Record { a: i / 8, b: i % 8, w: 63, n: i as u32, lo: u64::MAX, ..Record::new(op::RAW_ROW) }).collect();
    records.push(Record { n: rows as u32, ..Record::new(op::RAW_COUNT) });
    for four in 0..rows.div_ceil(4) {
        let mut ids = Record { n: 4 * four as u32, ..Record::new(op::IDS) };
        ids.set_mask((0..4).fold(0, |m, k| m | ((4 * four + k) as u128) << (32 * k)));
        records.push(ids);
    }
    records.extend(std::iter::repeat_n(Record::new(op::MARK), marks));
    records.extend((0..CALLS).map(|i| calls[i % calls.len()]));
    let mut bytes = Vec::new();
    records.iter().for_each(|r| r.put(&mut bytes));
    bytes
}

/// What a call takes through the script runner above a record that calls nothing, on a board of so many rows and marks; both in turns.
fn through_script(rows: usize, marks: usize, calls: &[Record]) -> f64 {
    let scripts = [calls, &[Record::new(op::RAW_CURSOR)]].map(|calls| script(rows, marks, calls));
    let mut out = vec![0u8; 65536];
    let mut best = [f64::MAX; 2];
    for _ in 0..2000 {
        for (best, bytes) in best.iter_mut().zip(&scripts) {
            let (took, size) = time(&mut || unsafe { super::probe_board(bytes.as_ptr(), bytes.len(), out.as_mut_ptr(), out.len()) as u64 });
            let last = &out[..size as usize][size as usize - ANSWER..];
            assert!(!Answer::read(last).is_refused() && last[0] == bytes[bytes.len() - RECORD], "the call is accepted");
            *best = best.min(took);
        }
    }
    (best[0] - best[1]) / CALLS as f64
}

fn by_rows(bench: &mut Bench) {
    let rows = [1, 8, 16, 32, 64];
    bench.growth("The board, by rows and marks: ours in ns, through the script runner, above a record that calls nothing; the least of 2,000 runs of 64 calls", &heads("rows", &rows));
    let one = |op: u8| vec![Record { v: 200, ..Record::new(op) }];
    let list = |ids: usize| vec![Record { hi: ids as u64, ..Record::new(op::PROPAGATE) }];
    for marks in [0, 4, 8] {
        bench.line(&format!("a closing, {marks} marks open"), &rows.map(|n| through_script(n, marks, &one(op::REMOVE))));
    }
    bench.line("propagation of 6 ids, or of all", &rows.map(|n| through_script(n, 0, &list(n.min(6)))));
    let trial = [Record::new(op::MARK), Record::new(op::RESTORE)];
    bench.line("mark and restore, both", &rows.map(|n| 2.0 * through_script(n, 0, &trial)));
}

fn by_marks(bench: &mut Bench) {
    let marks = [0, 1, 2, 4, 8];
    bench.growth("The board, by marks (64 rows): ns", &heads("marks open", &marks));
    bench.line("a closing", &marks.map(|m| close(m).ours));
}

pub fn run(bench: &mut Bench) {
    ratios(bench);
    by_list(bench);
    by_marks(bench);
    by_rows(bench);
}
