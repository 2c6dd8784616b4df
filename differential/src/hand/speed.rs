//! 256 closings in one checked batch against the original's 256 calls, in one process, over the same board and the same closings.

use crate::bench::{Bench, Limit, least};
use selen_oracle::constraints::gac_bitset::BitSetGAC;
use selen_oracle::constraints::gac_hybrid::Variable;
use std::hint::black_box;

unsafe extern "C" {
    fn bench_many(turns: usize) -> u64;
    fn bench_lent(turns: usize) -> u64;
}

const TURNS: usize = 200;

/// The original's calls, as often, on a board that stands from turn to turn.
#[inline(never)]
fn rust(turns: usize) -> u64 {
    let mut gac = BitSetGAC::new();
    for i in 0..64 {
        gac.add_variable(Variable(i * 7919), 0, 100);
    }
    let closings: Vec<(u32, Variable, i32)> = (0..256u32).map(|i| (i % 4, Variable((i * 37 % 64) as usize * 7919), (i * 29 % 100) as i32)).collect();
    let mut sum = 0;
    for _ in 0..turns {
        let mut yes = 0;
        for &(kind, var, v) in black_box(&closings) {
            yes += match kind {
                1 => gac.remove_below(var, v),
                2 => gac.remove_above(var, v),
                _ => gac.remove_value(var, v),
            } as u64;
        }
        sum ^= yes;
    }
    sum
}

pub fn run(bench: &mut Bench) {
    bench.table("A batch of 256 closings, the board checked once, against the Rust's 256 unchecked calls; the least of 300 runs of 200 turns", "batch");
    type Loop = unsafe extern "C" fn(usize) -> u64;
    for (name, ours) in [("by value", bench_many as Loop), ("lent", bench_lent)] {
        let took = least(300, &mut || unsafe { ours(black_box(TURNS)) }, &mut || rust(black_box(TURNS))).per(TURNS);
        bench.row(name, took, Limit::Faster(1.0));
        bench.row(&format!("{name}, each closing"), took.per(256), Limit::None);
    }
}
