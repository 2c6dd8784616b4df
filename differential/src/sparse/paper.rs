//! Where the paper decides and the Rust doesn't: what is well formed, which state fits, the refusals in their order, and every deviation
//! that it names, by rule. Nothing else in the comparison knows of a deviation. Said here over plain cells, not as either side computes it.

pub const BROKEN: u64 = 1;
pub const TOO_WIDE: u64 = 9;
pub const SHORT: u64 = 10;
pub const EMPTY: u64 = 11;
pub const BAD_STATE: u64 = 12;
pub const NO_ROOM: u64 = 14;

pub const WIDEST: u64 = 4096;

/// A set's numbers.
#[derive(Clone, Copy, PartialEq, Eq, Debug)]
pub struct Fields {
    pub off: i32,
    pub n: u32,
    pub size: u32,
    pub min: u32,
    pub max: u32,
}

/// A state doesn't fit if its size exceeds n, or if that isn't 0 and the bounds aren't those of the first `size` cells.
pub fn fits(n: u32, size: u32, min: u32, max: u32, val: &[u32]) -> bool {
    if size > n {
        return false;
    }
    let held = &val[..size as usize];
    size == 0 || (held.iter().min() == Some(&min) && held.iter().max() == Some(&max))
}

/// Well formed: the universe lies within i32, the size is at most n, the orderings are inverse over the first n cells, and, when the
/// size isn't 0, the bounds are the true ones. The orderings have n cells.
fn well(f: &Fields, ind: &[u32], val: &[u32]) -> bool {
    let n = f.n as usize;
    let within = f.off as i64 + f.n as i64 - 1 <= i32::MAX as i64;
    let inverse = (0..n).all(|i| val.get(ind[i] as usize) == Some(&(i as u32)) && (ind[i] as usize) < n)
        && (0..n).all(|i| ind.get(val[i] as usize) == Some(&(i as u32)) && (val[i] as usize) < n);
    within && inverse && fits(f.n, f.size, f.min, f.max, &val[..n])
}

/// The first refusal of those that any call may give, over the lent parts: 9, 10, 1. Of two sets, if either is concerned.
pub fn refusal(sets: &[(&Fields, &[u32], &[u32])]) -> Option<u64> {
    if sets.iter().any(|s| s.0.n as u64 > WIDEST) {
        return Some(TOO_WIDE);
    }
    if sets.iter().any(|s| s.1.len() < s.0.n as usize || s.2.len() < s.0.n as usize) {
        return Some(SHORT);
    }
    sets.iter().any(|s| !well(s.0, s.1, s.2)).then_some(BROKEN)
}

/// The refusal of a call that makes a set of so many values.
pub fn refusal_of_new(values: u64, inds: usize, vals: usize) -> Option<u64> {
    if values > WIDEST {
        return Some(TOO_WIDE);
    }
    ((inds as u64) < values || (vals as u64) < values).then_some(SHORT)
}

/// Where a rule stands in the Rust's place.
#[derive(Clone, Copy, PartialEq, Eq, Debug)]
pub enum Rule {
    /// More than 4,096 values: the Rust takes them.
    TooWide,
    /// Lent orderings that are too short: the Rust has its own.
    Short,
    /// A set that isn't well formed: the Rust's fields are private, so it can't be given one.
    Broken,
    /// Smallest or largest of an empty set, the largest of a universe of none: the Rust gives what is stored.
    Empty,
    /// A state that doesn't fit: the Rust takes it.
    BadState,
    /// Lent cells that don't suffice: the Rust allocates.
    NoRoom,
    /// remove_above(2147483647): the Rust's threshold wraps.
    AboveLast,
    /// remove_above when 2147483647 is held and the threshold isn't under the smallest: the Rust's range wraps.
    LastHeld,
    /// union_with when the universe ends at 2147483647: the Rust's end wraps.
    UnionAtLast,
    /// A universe of none at -2147483648, asked for its smallest value: the Rust can't be given one.
    NoneAtLeast,
}

/// The rules in their order, by the names under which they are counted.
pub const RULES: &[&str] = &[
    "over 4,096 values",
    "an ordering too short",
    "not well formed",
    "smallest or largest of none",
    "a state that doesn't fit",
    "no room",
    "remove_above(M)",
    "remove_above with M held, moved down",
    "union up to M, moved down",
    "a universe of none at the least i32",
];

pub fn of_number(number: u64) -> Rule {
    match number {
        TOO_WIDE => Rule::TooWide,
        SHORT => Rule::Short,
        _ => Rule::Broken,
    }
}
