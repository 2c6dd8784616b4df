//! Scripts from a seed, crowding the limits: offsets 0, 63, 64 and 127, universes of 1, 2, 63 to 65 and 127 to 129 values, the
//! ends of i32, zero, the invalid pairs, reversed bounds, thresholds about the bounds, masks with one bit too many, and lent
//! parts one too short or one too long.

use super::rust_side::RustSide;
use super::script::*;
use crate::random::Random;

const WIDTHS: [i64; 16] = [1, 2, 3, 9, 40, 62, 63, 64, 65, 66, 100, 126, 127, 128, 128, 129];

/// Bounds of a universe: mostly one that fits, at the places where sums and shifts go wrong.
fn bounds(rnd: &mut Random) -> (i32, i32) {
    let width = if rnd.one_in(4) { 1 + rnd.below(130) as i64 } else { rnd.pick(&WIDTHS) };
    match rnd.below(10) {
        0 | 1 => (0, clamp(width - 1)),
        2 => (i32::MIN, clamp(i32::MIN as i64 + width - 1)),
        3 => (clamp(i32::MAX as i64 - width + 1), i32::MAX),
        4 => {
            // across zero
            let below = rnd.below(width as u64) as i64;
            (clamp(-below), clamp(width - 1 - below))
        }
        5 => (clamp(-width), -1),
        6 => (1, clamp(width)),
        7 => {
            let at = rnd.next() as i32 as i64 / 2;
            (clamp(at), clamp(at + width - 1))
        }
        8 => {
            let at = rnd.pick(&[i32::MIN as i64 + 1, i32::MAX as i64 - 127, i32::MAX as i64 - 128, -128, -127, -64, 63, 64, 1000]);
            (clamp(at), clamp(at + width - 1))
        }
        _ => rnd.pick(&[(i32::MIN, i32::MAX), (i32::MIN, 0), (-1, i32::MAX), (0, i32::MAX), (i32::MIN, i32::MAX - 1), (i32::MIN + 1, i32::MAX), (0, 128), (-64, 64), (7, 7), (i32::MAX, i32::MAX), (i32::MIN, i32::MIN), (0, 0)]),
    }
}

/// A value about the bounds of a domain, about its words, or far away.
fn value(rnd: &mut Random, (min, max): (i32, i32)) -> i32 {
    let (a, b) = (min as i64, max as i64);
    clamp(match rnd.below(16) {
        0 => a - 1,
        1 => a,
        2 => a + 1,
        3 => b - 1,
        4 => b,
        5 => b + 1,
        6 => a + 63,
        7 => a + 64,
        8 => a + rnd.pick(&[62, 65, 126, 127, 128, 129]),
        9 => rnd.pick(&[i32::MIN as i64, i32::MAX as i64, 0, -1, 1]),
        10 => rnd.next() as i32 as i64,
        11 => a + 128 * (1 + rnd.below(3) as i64),
        _ => a + rnd.below((b - a).clamp(0, 200) as u64 + 1) as i64,
    })
}

/// A mask for a universe of so many values: all, none, few bits, and now and then one bit too many.
fn mask(rnd: &mut Random, width: i64) -> u128 {
    let any = rnd.wide();
    let inside = full(width);
    let bit = |k: i64| 1u128 << k.clamp(0, 127);
    match rnd.below(12) {
        0 => 0,
        1 => inside,
        2 => bit(width - 1) & inside,
        3 => bit(rnd.pick(&[0, 63, 64, 127])) & inside,
        4 => (bit(63) | bit(64)) & inside,
        5 => any & (rnd.next() as u128) << 64 & inside,
        6 => any & inside & rnd.next() as u128,
        7 => inside & !bit(rnd.below(128) as i64),
        8 if rnd.one_in(2) => any & inside | bit(width),
        9 if rnd.one_in(3) => any,
        10 => {
            // runs
            let from = rnd.below(128);
            inside & (full(1 + rnd.below(70) as i64) << from | full(1 + rnd.below(9) as i64))
        }
        _ => any & inside,
    }
}

fn width_of((_, min, max): (u128, i32, i32)) -> i64 {
    max as i64 - min as i64 + 1
}

/// Fields that break a domain in one way.
fn broken(rnd: &mut Random) -> (u128, i32, i32) {
    let (min, max) = bounds(rnd);
    let width = max as i64 - min as i64 + 1;
    match rnd.below(6) {
        0 => (1u128 << width.clamp(0, 127), min, max),
        1 => (rnd.pick(&[1, 1 << 64, 1 << 127]), 1, 0),
        2 => (rnd.pick(&[1, 1 << 63]), 0, -1),
        3 => {
            let (a, b) = rnd.pick(&[(2, 1), (1, -1), (0, -2), (-1, -2), (i32::MAX, i32::MIN), (5, 3), (i32::MIN + 1, i32::MIN), (1000, 0)]);
            (0, a, b)
        }
        4 => (mask(rnd, 128), min, clamp(min as i64 + rnd.pick(&[128, 129, 1000, 1 << 32]))),
        _ => (1u128 << 127, min, clamp(min as i64 + rnd.below(127) as i64)),
    }
}

/// Bounds like another domain's: the same, or out by one.
fn near(rnd: &mut Random, (_, min, max): (u128, i32, i32)) -> (i32, i32) {
    match rnd.below(6) {
        0 => (min, clamp(max as i64 + 1)),
        1 => (clamp(min as i64 - 1), max),
        2 => (clamp(min as i64 + 1), clamp(max as i64 + 1)),
        _ => (min, max),
    }
}

const WEIGHTED: &[(u8, u64)] = &[
    (2, 4), (3, 2), (4, 1), (5, 4), (6, 3), (7, 2), (8, 3), (9, 3),
    (16, 3), (17, 12), (18, 6), (19, 3), (20, 5), (21, 5), (22, 6), (23, 6), (24, 2), (25, 2), (26, 3), (27, 3), (28, 3),
    (32, 12), (33, 14), (34, 1), (35, 5), (36, 10), (37, 10),
    (40, 6), (41, 6), (42, 5), (43, 5), (44, 5), (45, 6), (46, 2), (47, 2), (48, 2), (49, 6), (50, 4), (51, 5), (52, 2),
    (56, 5), (57, 18), (58, 5), (59, 3), (60, 4), (61, 4), (1, 8),
];

/// Adds the next records of a script, which the Rust's side runs as they are made, so that they fit where it stands.
fn step(rnd: &mut Random, side: &RustSide, out: &mut Vec<Record>) {
    let op = rnd.weighted(WEIGHTED);
    let mut r = Record::new(op);
    r.a = rnd.below(4) as usize;
    r.b = rnd.below(4) as usize;
    let here = side.fields(r.a);
    let width = width_of(here);
    r.v = value(rnd, (here.1, here.2));
    match op {
        1 => {
            let (m, a, b) = if rnd.one_in(6) {
                broken(rnd)
            } else if rnd.one_in(2) {
                let (a, b) = near(rnd, side.fields(r.b));
                (mask(rnd, b as i64 - a as i64 + 1) & full(b as i64 - a as i64 + 1), a, b)
            } else {
                let (a, b) = bounds(rnd);
                (mask(rnd, b as i64 - a as i64 + 1), a, b)
            };
            r.set_mask(m);
            (r.v, r.w) = (a, b);
        }
        2 | 3 | 5 | 6 => {
            let (a, b) = if rnd.one_in(3) { near(rnd, side.fields(r.b)) } else { bounds(rnd) };
            (r.v, r.w) = if rnd.one_in(4) { (b, a) } else { (a, b) };
        }
        8 | 9 => {
            let many = rnd.pick(&[0u64, 1, 2, 3, 5, 20]);
            let (a, b) = bounds(rnd);
            r.b = rnd.below(8) as usize;
            r.n = many as u32;
            let mut at = 0;
            while at < r.b as u64 + many {
                let mut values = Record::new(10);
                values.n = at as u32;
                let wild = rnd.one_in(12);
                values.set_mask((0..4).fold(0, |m, i| {
                    let v = if wild { value(rnd, (a, b)) } else { value(rnd, (a, b)).clamp(a.min(b), b.max(a)) };
                    m | (bits(v) as u128) << (32 * i)
                }));
                out.push(values);
                at += 4;
            }
        }
        45 | 49 | 52 => {
            r.set_mask(if rnd.one_in(3) { here.0 & mask(rnd, width) } else { mask(rnd, width) });
            r.n = rnd.below(130) as u32;
        }
        59 => {
            r.v = rnd.pick(&[0, -64, i32::MIN, i32::MAX, i32::MAX - 1, i32::MAX - 63, i32::MAX - 64, i32::MAX - 126, i32::MAX - 127, i32::MAX - 128, here.1]);
            let fits = (i32::MAX as i64 - r.v as i64 + 1).min(128);
            r.set_mask(if rnd.one_in(4) { mask(rnd, 128) } else { mask(rnd, fits) });
        }
        60 => {
            let (size, _) = side.sizes(r.a);
            r.b = 1 + rnd.below(7) as usize;
            r.n = rnd.pick(&[size.saturating_sub(1), size, size, size, size + 1, 0, 152]) as u32;
            r.lo = (r.b + r.n as usize + 2).min(CELLS) as u64;
        }
        61 => {
            let (_, size) = side.sizes(r.a);
            r.b = 1 + rnd.below(7) as usize;
            r.n = rnd.pick(&[size.saturating_sub(1), size, size, size, size + 1, 0]) as u32;
            r.lo = (r.b + r.n as usize + 2).min(BYTES) as u64;
        }
        _ => {}
    }
    out.push(r);
}

/// How many bytes the answers to a frame may take: the other side keeps room for the largest answer.
const ROOM: usize = 65536 - 2112;

/// A frame of scripts, with the Rust's answers to it.
pub fn frame(rnd: &mut Random, side: &mut RustSide) -> (Vec<Record>, Vec<u8>) {
    let mut records = Vec::new();
    let mut answers = Vec::new();
    side.reset();
    let mut ends = 0;
    while records.len() < FRAME {
        let mut more = Vec::new();
        if records.len() >= ends {
            // a new script: four domains over universes that are the same or near
            more.push(Record::new(0));
            ends = records.len() + 16 + rnd.below(48) as usize;
            let (a, b) = bounds(rnd);
            for k in 0..4 {
                let mut r = Record::new(1);
                r.a = k;
                let (a, b) = if rnd.one_in(4) { near(rnd, (0, a, b)) } else if rnd.one_in(5) { bounds(rnd) } else { (a, b) };
                let width = b as i64 - a as i64 + 1;
                (r.v, r.w) = (a, b);
                r.set_mask(mask(rnd, width) & full(width));
                if rnd.one_in(8) {
                    (r.lo, r.hi) = (0, 0);
                    (r.v, r.w) = rnd.pick(&[(1, 0), (0, -1)]);
                }
                more.push(r);
            }
        } else {
            step(rnd, side, &mut more);
        }
        for r in more {
            let size = answer_size(&r);
            let left = FRAME - records.len();
            if left == 0 || answers.len() + size + 64 * left > ROOM {
                continue;
            }
            side.run(&r, &mut answers);
            records.push(r);
        }
    }
    (records, answers)
}
