//! Scripts from a seed, crowding the limits: universes of 0, 1, 2, 3, 8, 100, 4,095, 4,096 and 4,097 values, the ends of i32, zero,
//! thresholds about the bounds, values in any order with repeats, pairs over equal, shifted and disjoint universes, states saved earlier and
//! put back, states out by one, cells and numbers that break a set, and lent parts one too short or one too long.

use super::paper::Fields;
use super::rust_side::RustSide;
use super::script::*;
use crate::random::Random;

/// How many values a universe has.
fn width(rnd: &mut Random) -> i64 {
    match rnd.below(600) {
        0..4 => 4096,
        4..7 => 4095,
        7 => 2000 + rnd.below(2000) as i64,
        8..28 => 100,
        28..40 => 60 + rnd.below(80) as i64,
        40..60 => 0,
        60..110 => 1,
        110..180 => 2,
        180..270 => 3,
        270..430 => 8,
        _ => 1 + rnd.below(24) as i64,
    }
}

/// The smallest value of a universe of so many: mostly where sums go wrong.
fn place(rnd: &mut Random, width: i64) -> i32 {
    let last = i32::MAX as i64;
    clamp(match rnd.below(8) {
        0 | 1 => 0,
        2 => i32::MIN as i64,
        3 => last - width + 1,
        4 => -(rnd.below(width.max(1) as u64) as i64),
        5 => last - width - rnd.below(3) as i64,
        6 => rnd.next() as i32 as i64 / 2,
        _ => rnd.pick(&[1, -1, -width, i32::MIN as i64 + 1, 1000]),
    })
}

/// A value about the bounds of a set, about its universe's ends, in it, or far away.
fn value(rnd: &mut Random, f: &Fields) -> i32 {
    let off = f.off as i64;
    let (low, high, end) = (off + f.min as i64, off + f.max as i64, off + f.n as i64);
    clamp(match rnd.below(24) {
        0 => low - 1,
        1 | 2 => low,
        3 => low + 1,
        4 => high - 1,
        5 | 6 => high,
        7 => high + 1,
        8 => off - 1,
        9 => end,
        10 => rnd.pick(&[i32::MIN as i64, i32::MAX as i64, 0, -1]),
        11 => rnd.next() as i32 as i64,
        _ => off + rnd.below(f.n.clamp(1, 5000) as u64) as i64,
    })
}

const WEIGHTED: &[(u8, u64)] = &[
    (2, 3), (3, 3), (8, 5), (17, 12), (18, 3), (19, 3), (20, 4), (22, 6), (23, 6), (24, 4), (25, 4), (26, 3), (27, 3), (28, 3), (29, 4), (30, 4), (31, 2),
    (33, 40), (34, 1), (35, 3), (36, 8), (37, 8), (40, 6), (41, 10), (42, 6), (43, 6), (44, 6), (50, 10), (51, 12), (52, 5),
    (56, 3), (57, 10), (58, 3), (59, 10), (60, 5), (61, 5), (62, 2), (63, 9), (4, 2), (5, 3), (6, 3), (1, 5),
];

fn lend(a: usize, inds: usize, vals: usize) -> Record {
    Record { a, lo: pair(inds as u32, vals as u32), ..Record::new(4) }
}

fn raw(a: usize, f: &Fields) -> Record {
    Record { a, v: f.off, n: f.n, lo: pair(f.size, f.min), hi: f.max as u64, ..Record::new(1) }
}

/// A new set into register a, and the room for it, which now and then is one too short.
fn make(rnd: &mut Random, side: &RustSide, op: u8, a: usize, out: &mut Vec<Record>) {
    let other = side.fields(1 - a);
    let mut many = if rnd.one_in(40) { rnd.pick(&[4097, 4098, 5000, 1 << 31, 1 << 32]) } else { width(rnd) };
    let mut off = place(rnd, many);
    if rnd.one_in(2) && other.n <= 4096 {
        // a universe like the other one's, or shifted, or beside it
        many = (other.n as i64 + rnd.pick(&[0, 0, 0, 1, -1])).max(0);
        off = clamp(other.off as i64 + rnd.pick(&[0, 0, 0, 1, -1, 2, many / 2, -many / 2, many, -many]));
    }
    let last = off as i64 + many - 1;
    if last > i32::MAX as i64 {
        off = clamp(i32::MAX as i64 - many + 1);
    }
    many = many.min(i32::MAX as i64 - off as i64 + 1);
    let fits = many.clamp(0, 4096) as usize;
    if rnd.one_in(12) {
        let short = fits.saturating_sub(1);
        let (inds, vals) = rnd.pick(&[(short, fits), (fits, short), (short, short)]);
        out.push(lend(a, inds, vals));
    } else {
        out.push(lend(a, fits + rnd.below(4) as usize, fits + rnd.below(4) as usize));
    }
    let mut r = Record::new(op);
    r.a = a;
    match op {
        8 => {
            r.b = rnd.below(8) as usize;
            let listed = rnd.pick(&[0, 1, 2, 3, many as u64 / 2, many as u64, many as u64 + 3]).min(if many > 1000 { 1500 } else { 4000 });
            let round = if rnd.one_in(20) { 4097 } else { many.max(1) } as u64;
            let by = rnd.pick(&[1, 2, 3, 7, round / 2, round / 2 + 1, round.wrapping_sub(1), 0x9E37_79B1]) & 0xffff_ffff;
            out.push(Record { v: off, n: (r.b as u64 + listed + 2) as u32, lo: by | (round - 1) << 32, hi: rnd.below(round), ..Record::new(10) });
            r.n = listed as u32;
        }
        2 if many > 0 => {
            (r.v, r.w) = (off, clamp(off as i64 + many - 1));
            if rnd.one_in(3) {
                (r.v, r.w) = (r.w, r.v);
            }
        }
        _ => (r.v, r.w) = (off, clamp(off as i64 + many - 1)),
    }
    if op == 3 && rnd.one_in(8) {
        (r.v, r.w) = (r.w, r.v);
    }
    out.push(r);
}

/// Numbers that are out in one way.
fn altered(rnd: &mut Random, f: &Fields) -> Fields {
    let mut g = *f;
    match rnd.below(10) {
        0 => g.size = g.size.wrapping_add(1),
        1 => g.size = g.size.saturating_sub(1),
        2 => g.min = g.min.wrapping_add(1),
        3 => g.max = g.max.wrapping_add(1),
        4 => g.max = g.max.saturating_sub(1),
        5 => g.n = g.n.wrapping_add(1),
        6 => g.n = rnd.pick(&[4097, 4096, 4104, u32::MAX]),
        7 => g.off = clamp(i32::MAX as i64 - g.n as i64 + rnd.pick(&[1, 2])),
        8 => (g.size, g.min, g.max) = (0, rnd.next() as u32, rnd.next() as u32),
        _ => (g.size, g.min, g.max) = (g.n, 0, g.n.saturating_sub(1)),
    }
    g
}

/// Adds the next records of a script, which the Rust's side runs as they are made, so that they fit where it stands.
fn step(rnd: &mut Random, side: &mut RustSide, out: &mut Vec<Record>) {
    let op = rnd.weighted(WEIGHTED);
    let mut r = Record::new(op);
    r.a = rnd.below(2) as usize;
    r.b = rnd.below(4) as usize;
    let a = r.a;
    let here = side.fields(a);
    r.v = value(rnd, &here);
    match op {
        2 | 3 | 8 => return make(rnd, side, op, a, out),
        1 => {
            let broken = altered(rnd, &here);
            out.push(raw(a, &broken));
            for _ in 0..1 + rnd.below(3) {
                call(rnd, side, a, out);
            }
            if !rnd.one_in(6) {
                out.push(raw(a, &here));
            }
            return;
        }
        4 => {
            let n = here.n.min(4100) as usize;
            let (inds, vals) = rnd.pick(&[(n, n), (n.saturating_sub(1), n), (n, n.saturating_sub(1)), (n + 2, n + 1), (0, 0)]);
            let old = side.lens(a);
            out.push(lend(a, inds, vals));
            call(rnd, side, a, out);
            out.push(lend(a, old.0, old.1));
            return;
        }
        5 | 6 => {
            let at = 1 + rnd.below(here.n.min(4090) as u64 + 6) as usize;
            r.n = at as u32;
            let any = rnd.below(here.n.max(1) as u64);
            r.lo = rnd.pick(&[0, 1, here.n as u64, here.n.wrapping_sub(1) as u64, here.size as u64, 4096, 0xffff_ffff, any]);
            let old = side.cell(a, op, at);
            out.push(r);
            for _ in 0..1 + rnd.below(2) {
                call(rnd, side, a, out);
            }
            out.push(Record { lo: old as u64, ..r });
            return;
        }
        52 => {
            let n = here.n.min(4096) as u64;
            let any = rnd.below(n + 1);
            let size = rnd.pick(&[0, 1, here.size as u64, here.size as u64 + 1, n, n + 1, any]);
            let (min, max) = side.bounds(a, size as usize);
            let (min, max) = rnd.pick(&[(min, max), (min, max), (min, max), (here.min, here.max), (min, max.wrapping_add(1)), (min.wrapping_add(1), max), (max, min)]);
            (r.n, r.lo) = (size as u32, pair(min, max));
        }
        40 | 44 | 60 => {
            let size = here.size.min(4096) as u64;
            r.b = 1 + rnd.below(7) as usize;
            r.n = rnd.pick(&[size.saturating_sub(1), size, size, size, size + 1, size + 3, 0]) as u32;
            r.lo = if rnd.one_in(3) { (r.b as u64 + r.n as u64 + 2).min(60) } else { 0 };
        }
        61 => {
            let (_, size) = side.sizes(a);
            r.b = 1 + rnd.below(7) as usize;
            r.n = rnd.pick(&[size.saturating_sub(1), size, size, size, size + 1, 0]) as u32;
            r.lo = if rnd.one_in(3) { (r.b as u64 + r.n as u64 + 2).min(200) } else { 0 };
        }
        62 => r.n = rnd.pick(&[0, 1, here.size, here.size.wrapping_sub(1), here.n, here.n.wrapping_add(1), u32::MAX]),
        63 => r.n = if here.n > 60 { 12 } else { here.n + 10 },
        _ => {}
    }
    out.push(r);
}

/// A call on register a, which needs nothing set before it.
fn call(rnd: &mut Random, side: &mut RustSide, a: usize, out: &mut Vec<Record>) {
    let f = side.fields(a);
    let op = rnd.pick(&[17, 18, 19, 20, 22, 23, 24, 25, 26, 27, 28, 29, 30, 31, 33, 33, 34, 35, 36, 37, 40, 41, 42, 43, 44, 50, 51, 57, 59, 60, 61]);
    out.push(Record { a: if rnd.one_in(6) { 1 - a } else { a }, b: 1 + rnd.below(3) as usize, v: value(rnd, &f), n: rnd.pick(&[0, f.size, f.n, 4100]).min(4100), ..Record::new(op) });
}

/// How many bytes the answers to a frame may take: the other side keeps room for the largest answer.
const ROOM: usize = 65536 - 1344;

/// A frame of scripts, with the Rust's answers to it.
pub fn frame(rnd: &mut Random, side: &mut RustSide) -> (Vec<Record>, Vec<u8>) {
    let mut records: Vec<Record> = Vec::new();
    let mut answers = Vec::new();
    side.reset();
    let mut ends = 0;
    let mut dirty = 0;
    while records.len() < FRAME {
        let mut more = Vec::new();
        if records.len() >= ends {
            // a new script: two sets, over cells that are blank again
            more.push(Record { n: dirty as u32, ..Record::new(0) });
            ends = records.len() + 24 + rnd.below(64) as usize;
            dirty = 0;
            make(rnd, side, 2, 0, &mut more);
        } else if let Some(a) = (0..2).find(|a| side.fields(*a).size == 0).filter(|_| rnd.one_in(3)) {
            // so that few calls are spent on empty sets
            let op = rnd.pick(&[2, 3, 8]);
            make(rnd, side, op, a, &mut more);
        } else {
            step(rnd, side, &mut more);
        }
        for r in more {
            let left = FRAME - records.len();
            if left == 0 || answers.len() + answer_size(&r) + ANSWER * left > ROOM {
                continue;
            }
            side.run(&r, &mut answers);
            if r.op == 4 {
                dirty = dirty.max((r.lo as u32).max((r.lo >> 32) as u32) as usize + 8);
            }
            records.push(r);
        }
    }
    (records, answers)
}
