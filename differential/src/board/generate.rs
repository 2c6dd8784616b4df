//! Scripts from a seed, in scenes: small boards whose domains are small and shifted, so that step 2 acts, stops and empties;
//! wide and full boards with long lists; nested marks; the ends of i32, invalid pairs, ids 0 and u32::MAX, universes out by one
//! and by a lot, rows and words that aren't in use filled with anything; and boards that one clause alone keeps from being well
//! formed, tried with every call.

use super::paper::{Row, fits};
use super::rust_side::RustSide;
use super::script::*;
use crate::random::Random;

/// What keeps a board from being well formed.
pub const CLAUSES: [&str; 15] = [
    "an id twice",
    "more than 64 rows",
    "more than 8 marks",
    "more than 128 universe values",
    "a bit beyond the universe",
    "an invalid pair with a bit",
    "reversed bounds that are no invalid pair",
    "a mask saved at mark 0 that doesn't fit",
    "at mark 1",
    "at mark 2",
    "at mark 3",
    "at mark 4",
    "at mark 5",
    "at mark 6",
    "at mark 7",
];

/// How many boards were made that each clause keeps from being well formed, and with which calls they were tried.
pub struct Made {
    pub clauses: [u64; CLAUSES.len()],
    pub tried: [[u64; 256]; CLAUSES.len()],
}

impl Made {
    pub fn new() -> Made {
        Made { clauses: [0; CLAUSES.len()], tried: [[0; 256]; CLAUSES.len()] }
    }

    pub fn broken(&self) -> u64 {
        self.clauses.iter().sum()
    }
}

/// What a scene is made of.
struct Scene {
    /// Where its universes begin, by how much they are shifted, and how wide they are at most.
    base: i64,
    shift: u64,
    width: u64,
    rows: usize,
    ids: Vec<u32>,
    ends: usize,
    /// One in so many steps opens or closes a mark, and one in so many breaks the board; whether marks are mostly opened.
    marks: u64,
    breaks: u64,
    deep: bool,
}

fn scene(rnd: &mut Random, now: usize) -> Scene {
    let wide = rnd.one_in(6);
    let rows = match rnd.below(12) {
        0 => 64,
        1 => rnd.pick(&[62, 63, 64]),
        2 => rnd.below(4) as usize,
        3 | 4 => 8 + rnd.below(24) as usize,
        _ => 2 + rnd.below(7) as usize,
    };
    let (any, any_id) = (rnd.next() as i32 as i64, rnd.next() as u32);
    let base = rnd.pick(&[0, 0, -3, 1, i32::MIN as i64, i32::MIN as i64 + 2, i32::MAX as i64 - 6, i32::MAX as i64 - 127, -64, 1000, any]);
    let mut ids: Vec<u32> = Vec::new();
    let from = rnd.pick(&[0, 0, 7, u32::MAX - 70, any_id]);
    // ids that meet in a table of 1,024 cells now and then
    let apart = rnd.pick(&[1, 1, 1, 3, 1024, 512]);
    while ids.len() < rows + 3 {
        let id = match rnd.below(8) {
            0 => rnd.pick(&[0, 1, u32::MAX, u32::MAX - 1]),
            1 => rnd.next() as u32,
            _ => from.wrapping_add(apart * ids.len() as u32),
        };
        if !ids.contains(&id) {
            ids.push(id);
        }
    }
    Scene {
        base,
        shift: if wide { rnd.pick(&[1, 2, 70]) } else { rnd.pick(&[1, 2, 2, 3, 4]) },
        width: if wide { 128 } else { rnd.pick(&[2, 3, 4, 4, 5, 6, 8]) },
        rows,
        ids,
        ends: now + 60 + rnd.below(200) as usize,
        marks: rnd.pick(&[4, 8, 30]),
        breaks: rnd.pick(&[2, 3, 12]),
        deep: rnd.one_in(3),
    }
}

impl Scene {
    /// The bounds of a universe.
    fn bounds(&self, rnd: &mut Random) -> (i32, i32) {
        let min = self.base + rnd.below(self.shift) as i64;
        let width = 1 + rnd.below(self.width) as i64;
        match rnd.below(40) {
            0 => rnd.pick(&[(i32::MIN, i32::MAX), (0, 128), (0, i32::MAX), (i32::MIN, 0), (i32::MIN, i32::MIN + 127), (i32::MAX - 127, i32::MAX)]),
            1 => (clamp(min), clamp(min + 127)),
            _ => (clamp(min), clamp(min + width - 1)),
        }
    }

    fn value(&self, rnd: &mut Random) -> i32 {
        match rnd.below(24) {
            0 => rnd.pick(&[i32::MIN, i32::MAX, 0, -1]),
            1 => rnd.next() as i32,
            2 => clamp(self.base + rnd.pick(&[63, 64, 127, 128, -1])),
            _ => clamp(self.base - 1 + rnd.below(self.shift + self.width + 1) as i64),
        }
    }

    fn id(&self, rnd: &mut Random) -> u32 {
        if rnd.one_in(12) { rnd.pick(&[0, u32::MAX, self.ids[self.rows], self.ids[self.rows + 1]]) } else { rnd.pick(&self.ids[..self.rows.max(1)]) }
    }

    /// A row whose domain is well formed.
    fn row(&self, rnd: &mut Random, id: u32) -> Row {
        if rnd.one_in(25) {
            let (min, max) = rnd.pick(&[(1, 0), (0, -1)]);
            return Row { id, mask: 0, min, max };
        }
        let (min, max) = loop {
            let (min, max) = self.bounds(rnd);
            if max as i64 - (min as i64) < 128 {
                break (min, max);
            }
        };
        let width = max as i64 - min as i64 + 1;
        let any = rnd.wide();
        let few = any & rnd.wide();
        let one = 1u128 << rnd.below(width as u64);
        let two = one | 1u128 << rnd.below(width as u64);
        let rare = if rnd.one_in(6) { 0 } else { two };
        let mask = rnd.pick(&[full(width), any, few, one, two, two, any, rare]) & full(width);
        Row { id, mask, min, max }
    }
}

fn raw_row(at: usize, row: Row) -> Record {
    Record { a: at / 8, b: at % 8, v: row.min, w: row.max, n: row.id, lo: row.mask as u64, hi: (row.mask >> 64) as u64, ..Record::new(op::RAW_ROW) }
}

fn raw(op: u8, n: u32, lo: u64) -> Record {
    Record { n, lo, ..Record::new(op) }
}

/// The run of ids from place `at` on.
fn put_ids(ids: &[u32], at: usize, out: &mut Vec<Record>) {
    for (k, four) in ids.chunks(4).enumerate() {
        let mask = four.iter().enumerate().fold(0u128, |m, (i, id)| m | (*id as u128) << (32 * i));
        out.push(Record { n: (at + 4 * k) as u32, lo: mask as u64, hi: (mask >> 64) as u64, ..Record::new(op::IDS) });
    }
}

/// A new board: by registrations, or by rows set by hand, with anything past the count and in the words of no mark.
fn open(rnd: &mut Random, s: &Scene, out: &mut Vec<Record>) {
    out.push(Record::new(op::RESET));
    if rnd.one_in(3) {
        for id in &s.ids[..s.rows] {
            let (v, w) = s.bounds(rnd);
            let (v, w) = if rnd.one_in(5) { (w, v) } else { (v, w) };
            out.push(Record { n: *id, v, w, ..Record::new(op::ADD) });
        }
    } else {
        for (i, id) in s.ids[..s.rows].iter().enumerate() {
            out.push(raw_row(i, s.row(rnd, *id)));
        }
        out.push(raw(op::RAW_COUNT, s.rows as u32, 0));
    }
    if s.rows < ROWS && rnd.one_in(2) {
        // a row that isn't in use: an id that stands already, and a domain that isn't well formed
        out.push(raw_row(s.rows, Row { id: s.ids[0], mask: rnd.next() as u128, min: 5, max: 3 }));
    }
    for _ in 0..rnd.below(3) {
        out.push(raw(op::RAW_WORD, rnd.below(WORDS as u64) as u32, rnd.next()));
    }
    put_ids(&s.ids[..s.rows + 1], 0, out);
}

/// The ids of a list, in any order, and a list that begins somewhere in the run.
fn listed(rnd: &mut Random, s: &Scene, r: &mut Record, out: &mut Vec<Record>) {
    if rnd.one_in(2) {
        // ids in the order of the rows, from anywhere on
        let most = s.rows.min(7) as u64;
        let many = match rnd.below(12) {
            0 => s.rows as u64,
            1 => rnd.below(most + 1),
            _ => most.min(2 + rnd.below(6)),
        };
        r.lo = rnd.below((s.rows as u64 - many) + 1);
        r.hi = many;
        return;
    }
    let many = match rnd.below(16) {
        0 => rnd.pick(&[0, 1, 1]),
        1 => rnd.pick(&[s.rows, s.rows, s.rows.saturating_sub(1), 20, 64]),
        2 if rnd.one_in(4) => rnd.pick(&[65, 66, 96]),
        3 => 7,
        _ => 2 + rnd.below(5) as usize,
    };
    let mut ids = s.ids[..s.rows].to_vec();
    for i in (1..ids.len()).rev() {
        ids.swap(i, rnd.below(i as u64 + 1) as usize);
    }
    while ids.len() < many {
        ids.push(s.id(rnd));
    }
    ids.truncate(many);
    if many > 0 && rnd.one_in(10) {
        // an id that is unknown or stands twice
        let at = rnd.below(many as u64) as usize;
        ids[at] = if rnd.one_in(2) { s.id(rnd) } else { rnd.pick(&s.ids[s.rows..]) };
    }
    let start = 96 + rnd.below(24) as usize;
    put_ids(&ids, start, out);
    (r.lo, r.hi) = (start as u64, many as u64);
}

/// Some rows set anew to few of the same few values, in universes of their own where no mark is open; and the list of them.
fn crowded(rnd: &mut Random, s: &Scene, side: &RustSide, out: &mut Vec<Record>) {
    let p = &side.plain;
    let many = (2 + rnd.below(5)).min(p.count);
    let from = rnd.below(p.count - many + 1) as usize;
    let first = s.base + rnd.below(s.shift + 1) as i64;
    let values = 1 + rnd.below(many + 1) as i64;
    for i in from..from + many as usize {
        let old = p.rows[i];
        let (min, max) = if p.marks > 0 { (old.min, old.max) } else { (clamp(first - rnd.below(3) as i64), clamp(first + values + rnd.below(3) as i64)) };
        let mut mask = 0u128;
        for _ in 0..1 + rnd.below(3) {
            let bit = first + rnd.below(values as u64) as i64 - min as i64;
            if min <= max && bit >= 0 && bit <= max as i64 - min as i64 {
                mask |= 1 << bit;
            }
        }
        out.push(raw_row(i, Row { mask, min, max, ..old }));
    }
    let ids: Vec<u32> = p.rows[from..from + many as usize].iter().map(|r| r.id).collect();
    put_ids(&ids, 100, out);
    out.push(Record { lo: 100, hi: many, ..Record::new(op::PROPAGATE) });
}

const WEIGHTED: &[(u8, u64)] = &[
    (op::ADD, 3), (op::ADD_VALUES, 3), (op::REMOVE, 12), (op::ASSIGN, 6), (op::BELOW, 5), (op::ABOVE, 5), (op::RESET_FLAG, 4), (op::CHANGED, 3),
    (op::SIZE, 3), (op::IS_ASSIGNED, 3), (op::ASSIGNED_VALUE, 4), (op::IS_INCONSISTENT, 3), (op::BOUNDS, 4), (op::CHUTES, 2), (op::NEXT_CHUTE, 5),
    (op::CHUTES_INTO, 3), (op::VARIABLES, 2), (op::NEXT_VARIABLE, 4), (op::VARIABLES_INTO, 2), (op::READY, 5), (op::PROPAGATE, 30),
];

/// A call by its number, with what it is given.
fn call(rnd: &mut Random, s: &Scene, side: &RustSide, op: u8, out: &mut Vec<Record>) {
    let mut r = Record { n: s.id(rnd), v: s.value(rnd), b: rnd.below(8) as usize, ..Record::new(op) };
    match op {
        op::ADD => {
            if s.rows == ROWS && rnd.one_in(2) {
                r.n = rnd.pick(&s.ids[s.rows..]);
            }
            (r.v, r.w) = s.bounds(rnd);
            if rnd.one_in(5) {
                (r.v, r.w) = (r.w, r.v);
            }
        }
        op::ADD_VALUES => {
            let many = rnd.pick(&[0u64, 1, 2, 3, 5, 9]);
            r.lo = many;
            for at in (0..r.b as u64 + many).step_by(4) {
                let mask = (0..4).fold(0u128, |m, i| m | (bits(s.value(rnd)) as u128) << (32 * i));
                out.push(Record { n: at as u32, lo: mask as u64, hi: (mask >> 64) as u64, ..Record::new(op::VALUES) });
            }
        }
        op::READY | op::PROPAGATE => listed(rnd, s, &mut r, out),
        op::CHUTES_INTO | op::VARIABLES_INTO => {
            let held = if side.plain.well() { side.held(&r) as u64 } else { 3 };
            // a cell stands before the lent ones
            r.b = r.b.max(1);
            r.lo = rnd.pick(&[held.saturating_sub(1), held, held, held + 1, 0, 152]);
            r.hi = (r.b as u64 + r.lo + 2).min(CELLS as u64);
        }
        op::NEXT_CHUTE | op::CHUTES => r.b %= 2,
        _ => {}
    }
    out.push(r);
}

/// Records that break one clause alone, and those that mend the board again. None where the clause can't be broken here.
fn broken(rnd: &mut Random, side: &RustSide, clause: usize) -> Option<(Record, Record)> {
    let p = &side.plain;
    let (count, marks) = (p.count as usize, p.marks as usize);
    let some_row = |rnd: &mut Random| (count > 0).then(|| rnd.below(count as u64) as usize);
    let changed = |at: usize, row: Row| Some((raw_row(at, row), raw_row(at, p.rows[at])));
    match clause {
        0 => {
            let i = some_row(rnd)?;
            let j = rnd.below(count as u64) as usize;
            (i != j).then(|| (raw_row(i, Row { id: p.rows[j].id, ..p.rows[i] }), raw_row(i, p.rows[i])))
        }
        1 => Some((raw(op::RAW_COUNT, rnd.pick(&[65, 65, 66, 128, 256, 1 << 16, u32::MAX]), 0), raw(op::RAW_COUNT, p.count as u32, 0))),
        2 => Some((raw(op::RAW_MARKS, rnd.pick(&[9, 9, 10, 16, 256, u32::MAX]), 0), raw(op::RAW_MARKS, p.marks as u32, 0))),
        3..=6 => {
            let i = some_row(rnd)?;
            let old = p.rows[i];
            let width = old.max as i64 - old.min as i64 + 1;
            // with a mark open, what it saved must still fit, so that this clause alone is broken
            let saved = (0..marks).fold(0, |m, k| m | p.saved_mask(k, i));
            let next = match clause {
                3 => {
                    let (min, max) = rnd.pick(&[(old.min, clamp(old.min as i64 + 128)), (i32::MIN, i32::MAX), (-64, 64), (0, i32::MAX), (i32::MIN, 0)]);
                    Row { min, max, mask: if rnd.one_in(2) { old.mask } else { 0 }, ..old }
                }
                4 if (1..128).contains(&width) => {
                    let bit = if rnd.one_in(2) { width } else { width + rnd.below(128 - width as u64) as i64 };
                    Row { mask: old.mask | 1 << bit, ..old }
                }
                5 if saved == 0 => {
                    let (min, max) = rnd.pick(&[(1, 0), (0, -1)]);
                    Row { min, max, mask: 1 << rnd.pick(&[0, 1, 63, 64, 127]), ..old }
                }
                6 if saved == 0 => {
                    let (min, max) = rnd.pick(&[(2, 1), (1, -1), (0, -2), (-1, -2), (5, 3), (i32::MAX, i32::MIN), (i32::MIN + 1, i32::MIN), (1000, 0)]);
                    Row { min, max, mask: 0, ..old }
                }
                _ => return None,
            };
            (!fits(next.mask, next.min, next.max)).then_some(())?;
            changed(i, next)
        }
        _ => {
            let m = clause - 7;
            let i = some_row(rnd)?;
            let row = p.rows[i];
            let width = (row.max as i64 - row.min as i64 + 1).max(0);
            (m < marks && width < 128).then_some(())?;
            let bit = width + rnd.below(128 - width as u64) as i64;
            let at = 128 * m + 2 * i + (bit / 64) as usize;
            let word = p.saved[at] | 1 << (bit % 64);
            Some((raw(op::RAW_WORD, at as u32, word), raw(op::RAW_WORD, at as u32, p.saved[at])))
        }
    }
}

/// How many records the longest step takes: a list that is set anew, and a call on it.
const LONGEST: usize = 26;

/// A frame of scripts, with the Rust's answers to it.
pub fn frame(rnd: &mut Random, side: &mut RustSide, made: &mut Made) -> (Vec<Record>, Vec<u8>) {
    let mut records = Vec::new();
    let mut answers = Vec::new();
    let calls = on_board();
    side.reset();
    let mut s = scene(rnd, 0);
    s.ends = 0;
    let mut more = Vec::new();
    while records.len() < FRAME {
        let left = FRAME - records.len();
        if left < LONGEST {
            more.push(Record::new(op::RESET_FLAG));
        } else if records.len() >= s.ends {
            s = scene(rnd, records.len());
            s.rows = s.rows.min(left / 2);
            open(rnd, &s, &mut more);
        } else if rnd.one_in(s.breaks) {
            let clause = rnd.below(CLAUSES.len() as u64) as usize;
            if let Some((breaks, mends)) = broken(rnd, side, clause) {
                more.push(breaks);
                made.clauses[clause] += 1;
                for _ in 0..1 + rnd.below(3) {
                    let op = rnd.pick(&calls);
                    made.tried[clause][op as usize] += 1;
                    let mut one = Vec::new();
                    call(rnd, &s, side, op, &mut one);
                    // what the call is given is set before, so that the board is broken when it is asked
                    let at = more.len() - 1;
                    let asked = one.pop().unwrap();
                    more.splice(at..at, one);
                    more.push(asked);
                }
                more.push(mends);
            }
        } else if rnd.one_in(s.marks) {
            let often = if s.deep { op::MARK } else { rnd.pick(&[op::MARK, op::RESTORE]) };
            more.push(Record::new(rnd.pick(&[op::MARK, op::MARK, often, often, op::RESTORE, op::KEEP])));
        } else if rnd.one_in(12) && side.plain.count > 1 {
            crowded(rnd, &s, side, &mut more);
        } else if rnd.one_in(400) {
            more.push(Record::new(op::DUMP));
        } else if rnd.one_in(150) {
            more.push(raw(op::RAW_CURSOR, rnd.pick(&[0, 1, 63, 64, 65, u32::MAX]), 0));
        } else if rnd.one_in(300) {
            more.push(Record::new(op::NEW));
        } else {
            let op = rnd.weighted(WEIGHTED);
            call(rnd, &s, side, op, &mut more);
        }
        for r in more.drain(..) {
            let left = FRAME - records.len();
            if left == 0 || answers.len() + answer_size(&r) + ANSWER * left > ROOM {
                assert!(r.op == op::DUMP || shown(&r) > 0 || left == 0);
                continue;
            }
            side.run(&r, &mut answers);
            records.push(r);
        }
    }
    (records, answers)
}
