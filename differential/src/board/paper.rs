//! What the paper says of a board, by itself: when it is well formed, and which refusal a call gets, with its place. Said over
//! plain rows and words, not as either side computes it. Where the Rust differs by the paper's will, the rule is here too.

use super::script::*;
pub use crate::domain::paper::well as fits;

pub const BROKEN: u64 = 1;
pub const FULL: u64 = 2;
pub const TRIAL_OPEN: u64 = 3;
pub const TOO_DEEP: u64 = 4;
pub const NO_MARK: u64 = 5;
pub const UNKNOWN: u64 = 6;
pub const REPEATED: u64 = 7;
pub const TOO_LONG: u64 = 8;
pub const EMPTY: u64 = 11;
pub const NO_ROOM: u64 = 14;

/// The refusals that the Rust doesn't know, by the names under which they are counted.
pub const RULES: &[(u64, &str)] = &[
    (BROKEN, "not well formed"),
    (FULL, "a 65th destination"),
    (TRIAL_OPEN, "registration while a mark is open"),
    (TOO_DEEP, "a ninth mark"),
    (NO_MARK, "no mark open"),
    (UNKNOWN, "an unknown id listed"),
    (REPEATED, "an id listed twice"),
    (TOO_LONG, "a list over 64"),
    (NO_ROOM, "no room"),
];

#[derive(Clone, Copy, PartialEq, Eq, Debug)]
pub struct Row {
    pub id: u32,
    pub mask: u128,
    pub min: i32,
    pub max: i32,
}

/// A board as it is handed over: every row and every saved word, in use or not.
#[derive(Clone, PartialEq, Eq)]
pub struct Plain {
    pub rows: [Row; ROWS],
    pub count: u64,
    pub saved: [u64; WORDS],
    pub marks: u64,
    pub changed: bool,
}

impl Plain {
    pub fn new() -> Plain {
        Plain { rows: [Row { id: 0, mask: 0, min: 0, max: 0 }; ROWS], count: 0, saved: [0; WORDS], marks: 0, changed: false }
    }

    pub fn saved_mask(&self, mark: usize, row: usize) -> u128 {
        let at = 128 * mark + 2 * row;
        self.saved[at] as u128 | (self.saved[at + 1] as u128) << 64
    }

    pub fn save_mask(&mut self, mark: usize, row: usize, mask: u128) {
        let at = 128 * mark + 2 * row;
        (self.saved[at], self.saved[at + 1]) = (mask as u64, (mask >> 64) as u64);
    }

    /// Ids differ, counts are within limits, every domain is well formed, and every saved mask fits its destination.
    pub fn well(&self) -> bool {
        if self.count > ROWS as u64 || self.marks > MARKS as u64 {
            return false;
        }
        let used = &self.rows[..self.count as usize];
        let mut ids: Vec<u32> = used.iter().map(|r| r.id).collect();
        ids.sort_unstable();
        ids.windows(2).all(|two| two[0] != two[1])
            && used.iter().all(|r| fits(r.mask, r.min, r.max))
            && (0..self.marks as usize).all(|m| used.iter().enumerate().all(|(i, r)| fits(self.saved_mask(m, i), r.min, r.max)))
    }

    pub fn ids(&self) -> impl Iterator<Item = u32> + '_ {
        self.rows[..self.count as usize].iter().map(|r| r.id)
    }

    /// One number over all of it, as FORMAT.md has it.
    pub fn digest(&self) -> u64 {
        let mut h = 0u64;
        let mut mix = |w: u64| {
            let sum = h.rotate_left(13).wrapping_add(w);
            h = sum ^ sum >> 29;
        };
        for r in &self.rows {
            mix(r.mask as u64);
            mix((r.mask >> 64) as u64);
            mix(bounds_word(r));
            mix(r.id as u64);
        }
        self.saved.iter().for_each(|w| mix(*w));
        mix(self.count);
        mix(self.marks);
        mix(self.changed as u64);
        h
    }

    pub fn dump(&self, out: &mut Vec<u8>) {
        let mut put = |w: u64| out.extend_from_slice(&w.to_le_bytes());
        for r in &self.rows {
            put(r.mask as u64);
            put((r.mask >> 64) as u64);
            put(bounds_word(r));
            put(r.id as u64);
        }
        self.saved.iter().for_each(|w| put(*w));
        put(self.count);
        put(self.marks);
        put(self.changed as u64);
    }

    pub fn left(&self) -> [u64; 3] {
        [self.digest(), self.count, self.marks | (self.changed as u64) << 63]
    }
}

fn bounds_word(r: &Row) -> u64 {
    bits(r.min) as u64 | (bits(r.max) as u64) << 32
}

/// The refusal of a listed call on a well-formed board: too long, else the leftmost id that is unknown or stood earlier.
fn list_refusal(b: &Plain, list: &[u32]) -> Option<(u64, u64)> {
    if list.len() > ROWS {
        return Some((TOO_LONG, 0));
    }
    list.iter().enumerate().find_map(|(p, id)| {
        let number = if !b.ids().any(|x| x == *id) {
            UNKNOWN
        } else if list[..p].contains(id) {
            REPEATED
        } else {
            return None;
        };
        Some((number, p as u64))
    })
}

/// The refusal that the paper gives a call, with its place, where it is one that the Rust doesn't know. `list` is what a call is
/// given, `held` how many cells it would write.
pub fn refusal(r: &Record, b: &Plain, list: &[u32], held: usize) -> Option<(u64, u64)> {
    if !is_call(r.op) || matches!(r.op, op::NEW | op::NEXT_CHUTE) {
        return None;
    }
    if !b.well() {
        return Some((BROKEN, 0));
    }
    match r.op {
        op::ADD | op::ADD_VALUES if b.marks > 0 => Some((TRIAL_OPEN, 0)),
        op::ADD | op::ADD_VALUES if b.count == ROWS as u64 && !b.ids().any(|x| x == r.n) => Some((FULL, 0)),
        op::MARK if b.marks == MARKS as u64 => Some((TOO_DEEP, 0)),
        op::RESTORE | op::KEEP if b.marks == 0 => Some((NO_MARK, 0)),
        op::READY | op::PROPAGATE => list_refusal(b, list),
        op::CHUTES_INTO | op::VARIABLES_INTO if part(r).len() < held => Some((NO_ROOM, 0)),
        _ => None,
    }
}

/// The one deviation that a board's calls can meet: a universe of all i32 values, whose size wraps to 0 in the Rust. Here it
/// is the invalid pair (1, 0).
pub fn all_values(r: &Record, values: &[i32]) -> bool {
    let ends = match r.op {
        op::ADD => (r.v.min(r.w), r.v.max(r.w)),
        op::ADD_VALUES if !values.is_empty() => (*values.iter().min().unwrap(), *values.iter().max().unwrap()),
        _ => return false,
    };
    ends == (i32::MIN, i32::MAX)
}
