//! Times of the sparse calls and of the original's, in one process, over the same inputs: minima of many runs.

use crate::bench::{Bench, Least, Limit};
use crate::random::Random;
use selen_oracle::variables::domain::sparse_set::SparseSet;
use std::hint::black_box;
use std::time::Instant;

unsafe extern "C" {
    fn bench_sparse_contains(off: i32, n: u32, size: u32, min: u32, max: u32, ind: *const u32, inds: usize, val: *const u32, vals: usize, values: *const i32, many: usize) -> u64;
    fn bench_sparse_remove(off: i32, n: u32, size: u32, min: u32, max: u32, ind: *mut u32, inds: usize, val: *mut u32, vals: usize, values: *const i32, many: usize) -> u64;
    fn bench_sparse_call(op: u64, off: i32, n: u32, size: u32, min: u32, max: u32, ind: *mut u32, inds: usize, val: *mut u32, vals: usize, v: i32) -> u64;
    fn bench_sparse_from_values(values: *const i32, many: usize, ind: *mut u32, inds: usize, val: *mut u32, vals: usize) -> u64;
}

/// A set on both sides.
#[derive(Clone)]
struct Both {
    rust: SparseSet,
    off: i32,
    n: u32,
    size: u32,
    min: u32,
    max: u32,
    ind: Vec<u32>,
    val: Vec<u32>,
}

fn both(rust: SparseSet) -> Both {
    let s = rust.save_state();
    let off = rust.min_universe_value();
    let val: Vec<u32> = rust.iter().chain(rust.complement_iter()).map(|v| v.wrapping_sub(off) as u32).collect();
    let mut ind = vec![0; val.len()];
    for (k, o) in val.iter().enumerate() {
        ind[*o as usize] = k as u32;
    }
    Both { off, n: val.len() as u32, size: s.size, min: s.min, max: s.max, ind, val, rust }
}

fn folded(d: &SparseSet) -> u64 {
    let s = d.save_state();
    s.size as u64 ^ (s.min as u64) << 16 ^ (s.max as u64) << 32
}

impl Both {
    fn call(&mut self, op: u64, v: i32) -> u64 {
        unsafe { bench_sparse_call(op, self.off, self.n, self.size, self.min, self.max, self.ind.as_mut_ptr(), self.ind.len(), self.val.as_mut_ptr(), self.val.len(), v) }
    }

    fn contains(&mut self, values: &[i32]) -> u64 {
        unsafe { bench_sparse_contains(self.off, self.n, self.size, self.min, self.max, self.ind.as_ptr(), self.ind.len(), self.val.as_ptr(), self.val.len(), values.as_ptr(), values.len()) }
    }

    fn remove(&mut self, values: &[i32]) -> u64 {
        unsafe { bench_sparse_remove(self.off, self.n, self.size, self.min, self.max, self.ind.as_mut_ptr(), self.ind.len(), self.val.as_mut_ptr(), self.val.len(), values.as_ptr(), values.len()) }
    }

    fn from_values(&mut self, values: &[i32]) -> u64 {
        unsafe { bench_sparse_from_values(values.as_ptr(), values.len(), self.ind.as_mut_ptr(), self.ind.len(), self.val.as_mut_ptr(), self.val.len()) }
    }
}

/// The least times of both, taken in turns, each run on a copy of the set that is made before its time begins.
fn least(runs: usize, set: &Both, ours: &dyn Fn(&mut Both) -> u64, rust: &dyn Fn(&mut SparseSet) -> u64) -> Least {
    let (mut a, mut b, mut same) = (f64::MAX, f64::MAX, true);
    let mut copy = set.clone();
    for _ in 0..runs {
        copy.ind.copy_from_slice(&set.ind);
        copy.val.copy_from_slice(&set.val);
        let began = Instant::now();
        let p = black_box(ours(black_box(&mut copy)));
        a = a.min(began.elapsed().as_nanos() as f64);
        let mut d = set.rust.clone();
        let began = Instant::now();
        let q = black_box(rust(black_box(&mut d)));
        b = b.min(began.elapsed().as_nanos() as f64);
        same &= p == q;
    }
    Least { ours: a, rust: b, same }
}

/// A set of n values, half of them removed in no order, so that the orderings are in none either.
fn half(n: i32) -> Both {
    let mut rnd = Random::new(n as u64);
    let mut d = SparseSet::new(0, n - 1);
    for _ in 0..n / 2 {
        d.remove(1 + rnd.below(n as u64 - 2) as i32);
    }
    both(d)
}

const N: i32 = 4096;
const RUNS: usize = 3000;

/// The time of the test alone: the same call with no values.
fn test(op: &dyn Fn(&mut Both, &[i32]) -> u64, set: &Both) -> f64 {
    least(RUNS, set, &|s| op(s, &[]), &|_| 0).ours
}

/// The inner work, the set tested once for all values: the price of that one test is taken off.
fn inner(bench: &mut Bench, some: &Both, whole: &Both, about: &[i32]) {
    bench.table("Sparse sets of 4,096 values, the inner work: one test of the set for all values, whose time is taken off; the least of 3,000 runs", "call");
    let taken_off = |test: f64, l: Least, many: usize| Least { ours: l.ours - test, ..l }.per(many);
    let asked = least(RUNS, some, &|s| s.contains(about), &|d| about.iter().fold(0u64, |n, v| n.wrapping_add(d.contains(*v) as u64)));
    bench.row("contains, inner", taken_off(test(&|s, v| s.contains(v), some), asked, about.len()), Limit::Times(1.5));
    let rising: Vec<i32> = (0..N - 1).collect();
    for (name, values) in [("remove, inner, values in any order", &about[..4000]), ("remove, inner, the smallest each time", &rising)] {
        let removed = least(RUNS, whole, &|s| s.remove(values), &|d| {
            for v in values {
                d.remove(*v);
            }
            folded(d)
        });
        bench.row(name, taken_off(test(&|s, v| s.remove(v), whole), removed, values.len()), Limit::Times(1.5));
    }
}

fn thresholds(bench: &mut Bench, some: &Both, whole: &Both) {
    let below = |set: &Both, v: i32| least(RUNS, set, &|s| s.call(36, v), &|d| {
        d.remove_below(v);
        folded(d)
    });
    let above = |set: &Both, v: i32| least(RUNS, set, &|s| s.call(37, v), &|d| {
        d.remove_above(v);
        folded(d)
    });
    for (name, set) in [("all held", whole), ("half held", some)] {
        bench.row(&format!("remove_below at the middle, {name}"), below(set, N / 2), Limit::Faster(1.0));
        bench.row(&format!("remove_below at the last value, {name}"), below(set, N - 1), Limit::Faster(1.0));
        bench.row(&format!("remove_above at the middle, {name}"), above(set, N / 2), Limit::Faster(1.0));
        bench.row(&format!("remove_above at the first value, {name}"), above(set, 0), Limit::Faster(1.0));
    }
    // where nothing is dropped the test is all there is, and the limit is that of a single call
    bench.row("remove_below that drops nothing, all held", below(whole, 0), Limit::Within(10_000.0));
}

fn from_values(bench: &mut Bench, whole: &Both, rnd: &mut Random) {
    for many in [4096usize, 1024, 64] {
        let mut values: Vec<i32> = (0..many).map(|_| rnd.below(N as u64) as i32).collect();
        (values[0], values[1]) = (N - 1, 0);
        let made = least(RUNS / 30, whole, &|s| s.from_values(&values), &|_| folded(&SparseSet::new_from_values(black_box(values.clone()))));
        bench.row(&format!("new_from_values, {many} values"), made, Limit::Faster(1.0));
    }
}

/// How a checked call grows with the universe, and how much of it is the test.
fn growth(bench: &mut Bench) {
    let sizes = [16, 64, 256, 1024, 2048, 4096];
    let sets: Vec<Both> = sizes.iter().map(|n| half(*n)).collect();
    let mut heads = vec!["n".to_string()];
    heads.extend(sizes.iter().map(|n| n.to_string()));
    bench.growth("Sparse sets, half held: ours in ns by how many values the universe has", &heads);
    let all = |f: &dyn Fn(&Both, i32) -> f64| -> Vec<f64> { sets.iter().zip(sizes).map(|(set, n)| f(set, n / 2)).collect() };
    bench.line("the test alone", &all(&|set, _| test(&|s, v| s.contains(v), set)));
    bench.line("contains", &all(&|set, v| least(RUNS, set, &|s| s.call(17, v), &|d| d.contains(v) as u64).ours));
    bench.line("remove", &all(&|set, v| least(RUNS, set, &|s| s.call(33, v), &|_| 0).ours));
    bench.line("remove_below at the middle", &all(&|set, v| least(RUNS, set, &|s| s.call(36, v), &|_| 0).ours));
    bench.line("the Rust's remove_below at the middle", &all(&|set, v| least(RUNS, set, &|_| 0, &|d| {
        d.remove_below(v);
        folded(d)
    }).rust));
}

pub fn run(bench: &mut Bench) {
    let whole = both(SparseSet::new(0, N - 1));
    let some = half(N);
    let mut rnd = Random::new(9);
    let about: Vec<i32> = (0..20_000).map(|_| rnd.below(N as u64 + 200) as i32 - 100).collect();
    inner(bench, &some, &whole, &about);
    bench.table("Sparse sets of 4,096 values, checked calls; the least of 3,000 runs, of 100 for `new_from_values`", "call");
    thresholds(bench, &some, &whole);
    from_values(bench, &whole, &mut rnd);
    let v = N / 2;
    bench.row("contains, half held", least(RUNS, &some, &|s| s.call(17, v), &|d| d.contains(v) as u64), Limit::Within(10_000.0));
    let removed = least(RUNS, &some, &|s| s.call(33, v), &|d| {
        let yes = d.remove(v) as u64;
        folded(d).wrapping_add(yes)
    });
    bench.row("remove, half held", removed, Limit::Within(10_000.0));
    bench.row("min, all held", least(RUNS, &whole, &|s| s.call(22, 0), &|d| (black_box(d.min()) == 0) as u64), Limit::Within(10_000.0));
    growth(bench);
}
