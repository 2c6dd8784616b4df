//! Times of the checked calls and of the original's, in one process, over the same inputs: minima of many runs, per call.

use crate::bench::{Bench, Least, Limit, least};
use crate::random::Random;
use crate::script::bits;
use selen_oracle::variables::domain::bitset_domain::BitSetDomain;
use std::hint::black_box;

macro_rules! on_values {
    ($($name:ident)*) => { unsafe extern "C" { $(fn $name(lo: u64, hi: u64, min: i32, max: i32, values: *const i32, many: usize) -> u64;)* } };
}

macro_rules! on_domains {
    ($($name:ident)*) => { unsafe extern "C" { $(fn $name(lo: *const u64, lo_len: usize, hi: *const u64, hi_len: usize, min: *const i32, min_len: usize, max: *const i32, max_len: usize) -> u64;)* } };
}

on_values!(bench_remove bench_insert bench_contains bench_remove_below bench_remove_above bench_remove_all_but);
on_domains!(bench_size bench_min bench_max bench_is_fixed bench_iter);

unsafe extern "C" {
    fn bench_contains_each(lo: *const u64, lo_len: usize, hi: *const u64, hi_len: usize, min: *const i32, min_len: usize, max: *const i32, max_len: usize, values: *const i32, many: usize) -> u64;
    fn bench_to_vec(lo: *const u64, lo_len: usize, hi: *const u64, hi_len: usize, min: *const i32, min_len: usize, max: *const i32, max_len: usize, cells: *mut i32, cells_len: usize) -> u64;
}

type OnValues = unsafe extern "C" fn(u64, u64, i32, i32, *const i32, usize) -> u64;
type OnDomains = unsafe extern "C" fn(*const u64, usize, *const u64, usize, *const i32, usize, *const i32, usize) -> u64;

fn folded(d: &BitSetDomain) -> u64 {
    let m = d.get_mask();
    m as u64 ^ (m >> 64) as u64
}

/// A value as its distance from the least i32, as the loops of ours have it.
fn distance(v: i32) -> u64 {
    bits(v) as u64
}

#[inline(never)]
fn remove(mut d: BitSetDomain, values: &[i32]) -> u64 {
    let mut sum = 0u64;
    for &v in values {
        sum = sum.wrapping_add(d.remove(v) as u64);
    }
    sum ^ folded(&d)
}

#[inline(never)]
fn insert(mut d: BitSetDomain, values: &[i32]) -> u64 {
    let mut sum = 0u64;
    for &v in values {
        sum = sum.wrapping_add(d.insert(v) as u64);
    }
    sum ^ folded(&d)
}

#[inline(never)]
fn contains(d: BitSetDomain, values: &[i32]) -> u64 {
    let mut sum = 0u64;
    for &v in values {
        sum = sum.wrapping_add(d.contains(v) as u64);
    }
    sum
}

#[inline(never)]
fn contains_each(ds: &[BitSetDomain], values: &[i32]) -> u64 {
    ds.iter().zip(values).fold(0, |sum, (d, v)| sum.wrapping_add(d.contains(*v) as u64))
}

#[inline(never)]
fn remove_below(mut d: BitSetDomain, values: &[i32]) -> u64 {
    for &v in values {
        d.remove_below(v);
    }
    folded(&d)
}

#[inline(never)]
fn remove_above(mut d: BitSetDomain, values: &[i32]) -> u64 {
    for &v in values {
        d.remove_above(v);
    }
    folded(&d)
}

#[inline(never)]
fn remove_all_but(d: BitSetDomain, values: &[i32]) -> u64 {
    let mut sum = 0u64;
    for &v in values {
        let mut e = d.clone();
        e.remove_all_but(v);
        sum ^= folded(&e);
    }
    sum
}

#[inline(never)]
fn size(ds: &[BitSetDomain]) -> u64 {
    ds.iter().fold(0, |sum, d| sum.wrapping_add(d.size() as u64))
}

#[inline(never)]
fn min(ds: &[BitSetDomain]) -> u64 {
    ds.iter().fold(0, |sum, d| sum.wrapping_add(d.min().map_or(1000, distance)))
}

#[inline(never)]
fn max(ds: &[BitSetDomain]) -> u64 {
    ds.iter().fold(0, |sum, d| sum.wrapping_add(d.max().map_or(1000, distance)))
}

#[inline(never)]
fn is_fixed(ds: &[BitSetDomain]) -> u64 {
    ds.iter().fold(0, |sum, d| sum.wrapping_add(d.is_fixed() as u64))
}

#[inline(never)]
fn iter(ds: &[BitSetDomain]) -> u64 {
    let mut sum = 0u64;
    for d in ds {
        for v in d.iter() {
            sum = sum.wrapping_add(distance(v));
        }
    }
    sum
}

#[inline(never)]
fn to_vec(ds: &[BitSetDomain]) -> u64 {
    ds.iter().fold(0, |sum, d| sum.wrapping_add(black_box(d.to_vec()).len() as u64))
}

/// How often each is timed.
const RUNS: usize = 4000;

struct Inputs {
    lo: Vec<u64>,
    hi: Vec<u64>,
    min: Vec<i32>,
    max: Vec<i32>,
    rust: Vec<BitSetDomain>,
}

/// 256 domains, half of them of 128 values, the others of 1 to 128; one in eight fixed, the others half full.
fn inputs() -> Inputs {
    let mut rnd = Random::new(3);
    let mut i = Inputs { lo: vec![], hi: vec![], min: vec![], max: vec![], rust: vec![] };
    for k in 0..256 {
        let width = if k % 2 == 0 { 128 } else { 1 + rnd.below(128) as i32 };
        let min = rnd.below(8) as i32 - 4;
        let mut d = BitSetDomain::new(min, min + width - 1);
        if k % 8 == 7 {
            d.remove_all_but(min + rnd.below(width as u64) as i32);
        } else {
            d.restore_mask(d.get_mask() & rnd.wide());
        }
        i.lo.push(d.get_mask() as u64);
        i.hi.push((d.get_mask() >> 64) as u64);
        i.min.push(min);
        i.max.push(min + width - 1);
        i.rust.push(d);
    }
    i
}

pub fn run(bench: &mut Bench) {
    let i = inputs();
    let mut rnd = Random::new(5);
    let about: Vec<i32> = (0..128).map(|_| rnd.below(136) as i32 - 4).collect();
    let up: Vec<i32> = (0..128).map(|k| k - 4).collect();
    let down: Vec<i32> = up.iter().rev().copied().collect();
    let held: usize = i.rust.iter().map(|d| d.size()).sum();
    bench.table("Bit domains: 256 of them, half over 128 values and the others over 1 to 128; the least of 4,000 runs, per call", "call");
    let mut row = |name: &str, least: Least| bench.row(name, least, Limit::Times(2.0));

    let values = |f: OnValues, g: fn(BitSetDomain, &[i32]) -> u64, values: &[i32]| {
        let all = |one: &dyn Fn(usize) -> u64| (0..i.rust.len()).fold(0u64, |sum, k| sum.rotate_left(1) ^ one(k));
        least(
            RUNS,
            &mut || all(&|k| unsafe { f(i.lo[k], i.hi[k], i.min[k], i.max[k], values.as_ptr(), values.len()) }),
            &mut || all(&|k| g(i.rust[k].clone(), black_box(values))),
        )
        .per(256 * 128)
    };
    row("remove", values(bench_remove, remove, &about));
    row("insert", values(bench_insert, insert, &about));
    row("contains, one domain: one test for all", values(bench_contains, contains, &about));
    row("remove_below, rising thresholds", values(bench_remove_below, remove_below, &up));
    row("remove_below, any", values(bench_remove_below, remove_below, &about));
    row("remove_above, falling thresholds", values(bench_remove_above, remove_above, &down));
    row("remove_above, any", values(bench_remove_above, remove_above, &about));
    row("remove_all_but, one domain: one test for all", values(bench_remove_all_but, remove_all_but, &about));

    // forty times over, so that one time is long enough to take
    let all = |one: &dyn Fn() -> u64| (0..40).fold(0u64, |sum, _| sum.rotate_left(1) ^ one());
    let domains = |f: OnDomains, g: fn(&[BitSetDomain]) -> u64| {
        least(
            RUNS,
            &mut || all(&|| unsafe { f(i.lo.as_ptr(), 256, i.hi.as_ptr(), 256, i.min.as_ptr(), 256, i.max.as_ptr(), 256) }),
            &mut || all(&|| g(black_box(&i.rust))),
        )
    };
    let own: Vec<i32> = (0..256).map(|k| i.min[k] + rnd.below(130) as i32 - 1).collect();
    let each = least(
        RUNS,
        &mut || all(&|| unsafe { bench_contains_each(i.lo.as_ptr(), 256, i.hi.as_ptr(), 256, i.min.as_ptr(), 256, i.max.as_ptr(), 256, own.as_ptr(), 256) }),
        &mut || all(&|| contains_each(black_box(&i.rust), black_box(&own))),
    );
    row("contains, another domain each time", each.per(40 * 256));
    row("size", domains(bench_size, size).per(40 * 256));
    row("min", domains(bench_min, min).per(40 * 256));
    row("max", domains(bench_max, max).per(40 * 256));
    row("is_fixed", domains(bench_is_fixed, is_fixed).per(40 * 256));
    row("iteration, per value", domains(bench_iter, iter).per(40 * held));

    let mut cells = [0i32; 128];
    let vec = least(
        RUNS,
        &mut || unsafe { bench_to_vec(i.lo.as_ptr(), 256, i.hi.as_ptr(), 256, i.min.as_ptr(), 256, i.max.as_ptr(), 256, cells.as_mut_ptr(), 128) },
        &mut || to_vec(black_box(&i.rust)),
    );
    row("to_vec, per value", vec.per(held));
}
