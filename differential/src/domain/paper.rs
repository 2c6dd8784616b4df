//! Where the paper decides and the Rust doesn't: what is well formed, and every deviation that it names, by rule. Nothing else
//! in the comparison knows of a deviation.

use super::script::Record;

/// A lone domain is well formed if it has 1 to 128 universe values and no mask bit beyond them, or is one of the two invalid
/// pairs with mask zero. Said here in u128 and i64, not as either side computes it.
pub fn well(mask: u128, min: i32, max: i32) -> bool {
    let values = max as i64 - min as i64 + 1;
    match values {
        1..=127 => mask < 1u128 << values,
        128 => true,
        _ => mask == 0 && ((min, max) == (1, 0) || (min, max) == (0, -1)),
    }
}

/// A cursor is well formed if its mask's values lie within i32.
pub fn cursor_well(mask: u128, min: i32) -> bool {
    (0..128).filter(|k| mask >> k & 1 == 1).all(|k| min as i64 + k as i64 <= i32::MAX as i64)
}

pub const BROKEN: u64 = 1;
pub const TOO_WIDE: u64 = 9;
pub const EMPTY: u64 = 11;
pub const BAD_STATE: u64 = 12;
pub const OTHER_UNIVERSE: u64 = 13;
pub const NO_ROOM: u64 = 14;

/// The deviations of the bit domain, and refusals of what the Rust can't hold.
#[derive(Clone, Copy, PartialEq, Eq, Debug)]
pub enum Rule {
    /// A domain or a cursor that isn't well formed is refused; the Rust's fields are private, so it can't be given one.
    Broken,
    /// A universe of all i32 values: the Rust's size wraps to 0; here it is invalid or too wide.
    AllValues,
    /// A mask with a bit outside the universe is BadState; the Rust takes it.
    ForeignBit,
    /// Lent cells or bytes that don't suffice: the Rust allocates.
    NoRoom,
}

/// The rules in their order, by the names under which they are counted.
pub const RULES: &[&str] = &["not well formed", "all i32 values", "a restored bit outside the universe", "no room"];

/// What the rules look at: `domain` is register a, `other` register b, `restored` the mask to be restored, `values` the listed values of
/// a call that is given a list.
pub struct Inputs<'a> {
    pub record: &'a Record,
    pub domain: (u128, i32, i32),
    pub other: (u128, i32, i32),
    pub cursor: (u128, i32),
    pub restored: u128,
    pub values: &'a [i32],
}

/// The rule that stands in the Rust's place, if one does.
pub fn rule(i: &Inputs) -> Option<Rule> {
    let (mask, min, max) = i.domain;
    let (min_given, max_given) = match i.record.op {
        2 | 3 | 5 | 6 => (i.record.v.min(i.record.w), i.record.v.max(i.record.w)),
        8 | 9 => (i.values.iter().copied().min().unwrap_or(0), i.values.iter().copied().max().unwrap_or(0)),
        57 | 58 => return (!cursor_well(i.cursor.0, i.cursor.1)).then_some(Rule::Broken),
        40..=44 if !well(i.other.0, i.other.1, i.other.2) => return Some(Rule::Broken),
        16..=51 | 56 | 60 | 61 if !well(mask, min, max) => return Some(Rule::Broken),
        49 | 51 if !well(i.restored, min, max) => return Some(Rule::ForeignBit),
        _ => return None,
    };
    ((min_given, max_given) == (i32::MIN, i32::MAX)).then_some(Rule::AllValues)
}
