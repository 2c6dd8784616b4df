//! The chute assignment core of a tilt-tray sorter, over the proved library `libpirozhkan.a`.
//!
//! A [`Board`] holds up to 64 destinations and the chutes that each may still use. It lives in [`WORDS`] words that the caller
//! lends, and may keep, copy and store as it likes, on machines of one byte order. Each call looks at all of them first: words that
//! aren't a well-formed board's are refused, and a refused call changes nothing. A [`BitDomain`] and a [`Sparse`] set live in lent words
//! and cells in the same way.
//!
//! ```
//! use pirozhkan::{Board, Pair, Value, Variable, WORDS};
//!
//! let mut words = [0; WORDS];
//! let mut board = Board::new(&mut words)?;
//! let list = [Variable(20), Variable(21), Variable(22)];
//! for id in list {
//!     board.add_variable(id, Value(1), Value(3))?;
//! }
//! board.assign_variable(Variable(20), Value(2))?;
//! assert_eq!(board.propagate_alldiff(&list)?, Pair { changed: true, consistent: true });
//! assert_eq!(board.get_domain_values(Variable(21))?, [Value(1), Value(3)]);
//! # Ok::<(), pirozhkan::Refusal>(())
//! ```

use std::error::Error;
use std::fmt;

mod bit;
mod calls;
mod sparse;

pub use bit::{BitDomain, BIT_TEXT, BIT_WORDS};
pub use sparse::{Sparse, SparseState, SPARSE_CELLS};

/// How many words a board takes.
pub const WORDS: usize = 1283;

/// A destination. No chute can stand in its place.
#[derive(Clone, Copy, Debug, PartialEq, Eq, PartialOrd, Ord, Hash)]
#[repr(transparent)]
pub struct Variable(pub u32);

/// A chute.
#[derive(Clone, Copy, Debug, PartialEq, Eq, PartialOrd, Ord, Hash)]
#[repr(transparent)]
pub struct Value(pub i32);

/// Why a call was refused. A place counts from 0.
#[derive(Clone, Copy, Debug, PartialEq, Eq, Hash)]
pub enum Refusal {
    /// The words aren't a well-formed state's.
    Broken,
    /// A new destination, and 64 are registered.
    Full,
    /// Registration while a mark is open.
    TrialOpen,
    /// A mark, and 8 are open.
    TooDeep,
    /// Restore or keep, and no mark is open.
    NoMark,
    /// A listed destination isn't registered.
    Unknown(usize),
    /// A listed destination stood earlier in the list.
    Repeated(usize),
    /// A list of more than 64, or a batch of more than 256.
    TooLong,
    /// A sparse universe of more than 4,096 values.
    TooWide,
    /// An ordering has fewer cells than its universe has values.
    Short,
    /// Bounds where there is no value; the one value where there isn't just one.
    Empty,
    /// A restored state that doesn't fit the set.
    BadState,
    /// Two bit domains over different bounds. No call here takes two.
    OtherUniverse,
    /// Too few words for a state, or too few cells for an answer.
    NoRoom,
    /// A number in a batch is no kind. No call here gives it: a [`Kind`] is one, and [`wave`] tells of a bad sheet in its text.
    BadSheet(usize),
}

impl Refusal {
    /// The number of the refusal, from 1 to 15.
    pub fn number(self) -> u32 {
        match self {
            Refusal::Broken => 1,
            Refusal::Full => 2,
            Refusal::TrialOpen => 3,
            Refusal::TooDeep => 4,
            Refusal::NoMark => 5,
            Refusal::Unknown(_) => 6,
            Refusal::Repeated(_) => 7,
            Refusal::TooLong => 8,
            Refusal::TooWide => 9,
            Refusal::Short => 10,
            Refusal::Empty => 11,
            Refusal::BadState => 12,
            Refusal::OtherUniverse => 13,
            Refusal::NoRoom => 14,
            Refusal::BadSheet(_) => 15,
        }
    }

    /// The place that it names, and 0 where it names none.
    pub fn place(self) -> usize {
        match self {
            Refusal::Unknown(at) | Refusal::Repeated(at) | Refusal::BadSheet(at) => at,
            _ => 0,
        }
    }

    fn of(number: u64, place: usize) -> Refusal {
        match number {
            2 => Refusal::Full,
            3 => Refusal::TrialOpen,
            4 => Refusal::TooDeep,
            5 => Refusal::NoMark,
            6 => Refusal::Unknown(place),
            7 => Refusal::Repeated(place),
            8 => Refusal::TooLong,
            9 => Refusal::TooWide,
            10 => Refusal::Short,
            11 => Refusal::Empty,
            12 => Refusal::BadState,
            13 => Refusal::OtherUniverse,
            14 => Refusal::NoRoom,
            15 => Refusal::BadSheet(place),
            _ => Refusal::Broken,
        }
    }
}

impl fmt::Display for Refusal {
    fn fmt(&self, out: &mut fmt::Formatter<'_>) -> fmt::Result {
        write!(out, "refused: {} {}", self.number(), self.place())
    }
}

impl Error for Refusal {}

/// The kinds of closing, as a sheet numbers them.
#[derive(Clone, Copy, Debug, PartialEq, Eq, Hash)]
pub enum Kind {
    Remove = 1,
    Assign = 2,
    Below = 3,
    Above = 4,
}

/// A closing of a batch; the threshold is the value.
#[derive(Clone, Copy, Debug, PartialEq, Eq, Hash)]
pub struct Closing {
    pub kind: Kind,
    pub id: Variable,
    pub value: Value,
}

/// How many closings a batch may have.
pub const BATCH: usize = 256;

/// What a propagation answers.
#[derive(Clone, Copy, Debug, PartialEq, Eq, Hash)]
pub struct Pair {
    /// Whether a listed domain changed (after a stop in the second step: whether the first step changed one).
    pub changed: bool,
    /// Whether no domain was emptied.
    pub consistent: bool,
}

/// The smallest and the largest chute of a destination.
#[derive(Clone, Copy, Debug, PartialEq, Eq, Hash)]
pub struct Bounds {
    pub min: Value,
    pub max: Value,
}

// What stands above a code's lowest byte, or the refusal that the byte names.
fn payload(code: u64) -> Result<u64, Refusal> {
    match code & 255 {
        0 => Ok(code >> 8),
        number => Err(Refusal::of(number, (code >> 8) as usize)),
    }
}

fn done(code: u64) -> Result<(), Refusal> {
    payload(code).map(|_| ())
}

fn told(code: u64) -> Result<bool, Refusal> {
    payload(code).map(|n| n == 1)
}

fn counted(code: u64) -> Result<usize, Refusal> {
    payload(code).map(|n| n as usize)
}

// A chute stands in a code as its distance from the least i32.
fn found(code: u64) -> Result<Value, Refusal> {
    payload(code).map(|n| Value((n as i64 + i64::from(i32::MIN)) as i32))
}

/// How many bytes the text of a sheet's board takes at most.
pub const TEXT: usize = 2816;

/// Registers a wave sheet's destinations, applies its closings in order, propagates each of its lists once, and gives the board and what each
/// list was answered as text; of a bad sheet, its refusal as text.
pub fn wave(sheet: &[u8]) -> Result<Vec<u8>, Refusal> {
    let mut out = [0; TEXT];
    let n = wave_into(sheet, &mut out)?;
    Ok(out[..n].to_vec())
}

/// The same into lent bytes, of which later ones stay as they are; [`Refusal::NoRoom`] where they are too few.
pub fn wave_into(sheet: &[u8], out: &mut [u8]) -> Result<usize, Refusal> {
    counted(calls::wave(sheet, out))
}

/// A board in words that the caller lends.
#[derive(Debug)]
pub struct Board<'a> {
    words: &'a mut [u64],
}

impl<'a> Board<'a> {
    /// An empty board, whatever the words were. [`Refusal::NoRoom`] where there are fewer than [`WORDS`].
    pub fn new(words: &'a mut [u64]) -> Result<Board<'a>, Refusal> {
        done(calls::new(words))?;
        Ok(Board { words })
    }

    /// The board that the words already hold: [`Refusal::NoRoom`] where there are fewer than [`WORDS`], [`Refusal::Broken`] where they
    /// aren't a well-formed board's.
    pub fn open(words: &'a mut [u64]) -> Result<Board<'a>, Refusal> {
        told(calls::domains_changed(words))?;
        Ok(Board { words })
    }

    /// The words, the board's own and those past it.
    pub fn words(&self) -> &[u64] {
        self.words
    }

    /// Registers a destination with the chutes from `min` to `max`, exchanged if reversed; a known one gets a new domain. More than
    /// 128 values give a domain of no chutes. [`Refusal::TrialOpen`] while a mark is open; [`Refusal::Full`] for a new destination
    /// where 64 are registered.
    pub fn add_variable(&mut self, id: Variable, min: Value, max: Value) -> Result<(), Refusal> {
        done(calls::add_variable(self.words, id, min, max))
    }

    /// The same with the chutes that are listed.
    pub fn add_variable_with_values(&mut self, id: Variable, values: &[Value]) -> Result<(), Refusal> {
        done(calls::add_variable_with_values(self.words, id, values))
    }

    /// Closes one chute to a destination, and tells whether it was open. Of a destination that isn't registered the answer is no,
    /// here and in the other closings.
    pub fn remove_value(&mut self, id: Variable, value: Value) -> Result<bool, Refusal> {
        told(calls::remove_value(self.words, id, value))
    }

    /// Closes all chutes but one; all, if that one isn't open. Tells whether a chute went.
    pub fn assign_variable(&mut self, id: Variable, value: Value) -> Result<bool, Refusal> {
        told(calls::assign_variable(self.words, id, value))
    }

    /// Closes the chutes below `value`. Tells whether a chute went.
    pub fn remove_below(&mut self, id: Variable, value: Value) -> Result<bool, Refusal> {
        told(calls::remove_below(self.words, id, value))
    }

    /// Closes the chutes above `value`. Tells whether a chute went.
    pub fn remove_above(&mut self, id: Variable, value: Value) -> Result<bool, Refusal> {
        told(calls::remove_above(self.words, id, value))
    }

    /// Applies the closings in order, and tells how many of them took a chute. More than [`BATCH`] are [`Refusal::TooLong`], and none is
    /// applied.
    pub fn batch(&mut self, closings: &[Closing]) -> Result<usize, Refusal> {
        let (mut kinds, mut ids, mut values) = ([0; BATCH + 1], [Variable(0); BATCH + 1], [Value(0); BATCH + 1]);
        let n = closings.len().min(BATCH + 1);
        for (i, closing) in closings[..n].iter().enumerate() {
            (kinds[i], ids[i], values[i]) = (closing.kind as u32, closing.id, closing.value);
        }
        counted(calls::batch(self.words, &kinds[..n], &ids[..n], &values[..n]))
    }

    /// Narrows the listed destinations so that each can have a chute of its own. More than 64 are [`Refusal::TooLong`]; one that isn't
    /// registered is [`Refusal::Unknown`], and one that stood earlier [`Refusal::Repeated`], at the leftmost such place.
    pub fn propagate_alldiff(&mut self, list: &[Variable]) -> Result<Pair, Refusal> {
        payload(calls::propagate_alldiff(self.words, list)).map(|n| Pair { changed: n & 1 == 1, consistent: n >> 1 == 1 })
    }

    /// Whether every listed destination is assigned. Refuses as propagation does.
    pub fn ready(&self, list: &[Variable]) -> Result<bool, Refusal> {
        told(calls::ready(self.words, list))
    }

    /// Saves every domain, for [`Board::restore`]; [`Refusal::TooDeep`] where 8 marks are open.
    pub fn mark(&mut self) -> Result<(), Refusal> {
        done(calls::mark(self.words))
    }

    /// Brings the newest mark's domains back, and closes it; [`Refusal::NoMark`] where none is open.
    pub fn restore(&mut self) -> Result<(), Refusal> {
        done(calls::restore(self.words))
    }

    /// Closes the newest mark, and keeps the domains as they are; [`Refusal::NoMark`] where none is open.
    pub fn keep(&mut self) -> Result<(), Refusal> {
        done(calls::keep(self.words))
    }

    /// How many chutes a destination may still use; 0 where it isn't registered.
    pub fn domain_size(&self, id: Variable) -> Result<usize, Refusal> {
        counted(calls::domain_size(self.words, id))
    }

    /// Whether that is exactly one.
    pub fn is_assigned(&self, id: Variable) -> Result<bool, Refusal> {
        told(calls::is_assigned(self.words, id))
    }

    /// Whether it is none.
    pub fn is_inconsistent(&self, id: Variable) -> Result<bool, Refusal> {
        told(calls::is_inconsistent(self.words, id))
    }

    /// The one chute; [`Refusal::Empty`] where there are none or more.
    pub fn assigned_value(&self, id: Variable) -> Result<Value, Refusal> {
        found(calls::assigned_value(self.words, id))
    }

    /// The smallest and the largest chute; [`Refusal::Empty`] where there is none.
    pub fn get_bounds(&self, id: Variable) -> Result<Bounds, Refusal> {
        let mut ends = [Value(0); 2];
        done(calls::get_bounds(self.words, id, &mut ends))?;
        Ok(Bounds { min: ends[0], max: ends[1] })
    }

    /// The chutes, ascending.
    pub fn get_domain_values(&self, id: Variable) -> Result<Vec<Value>, Refusal> {
        let mut cells = [Value(0); 128];
        let n = self.get_domain_values_into(id, &mut cells)?;
        Ok(cells[..n].to_vec())
    }

    /// The same into lent cells, of which later ones stay as they are; [`Refusal::NoRoom`] where they are too few.
    pub fn get_domain_values_into(&self, id: Variable, cells: &mut [Value]) -> Result<usize, Refusal> {
        counted(calls::get_domain_values(self.words, id, cells))
    }

    /// The destinations, in order of first registration.
    pub fn variables(&self) -> Result<Vec<Variable>, Refusal> {
        let mut cells = [Variable(0); 64];
        let n = counted(calls::variables(self.words, &mut cells))?;
        Ok(cells[..n].to_vec())
    }

    /// Whether a destination was registered, or a closing or the first step of a propagation took a chute, since the flag was reset.
    pub fn domains_changed(&self) -> Result<bool, Refusal> {
        told(calls::domains_changed(self.words))
    }

    /// Resets that flag.
    pub fn reset_changed_flag(&mut self) -> Result<(), Refusal> {
        done(calls::reset_changed_flag(self.words))
    }
}
