use crate::calls::bit as calls;
use crate::{counted, done, found, told, Refusal, Value};

/// How many words a bit domain takes.
pub const BIT_WORDS: usize = 3;

/// How many bytes the text of a bit domain takes at most.
pub const BIT_TEXT: usize = 1538;

/// The values of a universe of at most 128 that are held, in words that the caller lends.
///
/// ```
/// use pirozhkan::{BitDomain, Value, BIT_WORDS};
///
/// let mut words = [0; BIT_WORDS];
/// let mut domain = BitDomain::new(&mut words, Value(0), Value(127))?;
/// domain.remove_below(Value(64))?;
/// assert_eq!(domain.size()?, 64);
/// domain.remove_above(Value(64))?;
/// assert_eq!(domain.fixed_value()?, Value(64));
/// # Ok::<(), pirozhkan::Refusal>(())
/// ```
#[derive(Debug)]
pub struct BitDomain<'a> {
    words: &'a mut [u64],
}

impl<'a> BitDomain<'a> {
    /// The values from `min` to `max` in either order, all held; more than 128 give a domain of no values. [`Refusal::NoRoom`] where there
    /// are fewer words than [`BIT_WORDS`].
    pub fn new(words: &'a mut [u64], min: Value, max: Value) -> Result<BitDomain<'a>, Refusal> {
        done(calls::new(words, min, max))?;
        Ok(BitDomain { words })
    }

    /// The same universe, and nothing held.
    pub fn new_empty(words: &'a mut [u64], min: Value, max: Value) -> Result<BitDomain<'a>, Refusal> {
        done(calls::new_empty(words, min, max))?;
        Ok(BitDomain { words })
    }

    /// The listed values, over the universe from the least to the greatest; more than 128 give a domain of no values.
    pub fn new_from_values(words: &'a mut [u64], values: &[Value]) -> Result<BitDomain<'a>, Refusal> {
        done(calls::new_from_values(words, values))?;
        Ok(BitDomain { words })
    }

    /// The domain that the words already hold: [`Refusal::NoRoom`] where there are fewer than [`BIT_WORDS`], [`Refusal::Broken`] where they
    /// aren't a well-formed domain's.
    pub fn open(words: &'a mut [u64]) -> Result<BitDomain<'a>, Refusal> {
        counted(calls::size(words))?;
        Ok(BitDomain { words })
    }

    /// The words, the domain's own and those past it.
    pub fn words(&self) -> &[u64] {
        self.words
    }

    /// Tells whether the value wasn't held before. One outside the universe is not inserted.
    pub fn insert(&mut self, value: Value) -> Result<bool, Refusal> {
        told(calls::insert(self.words, value))
    }

    /// Tells whether the value was held.
    pub fn remove(&mut self, value: Value) -> Result<bool, Refusal> {
        told(calls::remove(self.words, value))
    }

    /// Drops all.
    pub fn remove_all(&mut self) -> Result<(), Refusal> {
        done(calls::remove_all(self.words))
    }

    /// Drops all but one; all, if that one isn't held.
    pub fn remove_all_but(&mut self, value: Value) -> Result<(), Refusal> {
        done(calls::remove_all_but(self.words, value))
    }

    /// Drops the values less than `value`.
    pub fn remove_below(&mut self, value: Value) -> Result<(), Refusal> {
        done(calls::remove_below(self.words, value))
    }

    /// Drops the values greater than `value`.
    pub fn remove_above(&mut self, value: Value) -> Result<(), Refusal> {
        done(calls::remove_above(self.words, value))
    }

    /// Whether the value is held.
    pub fn contains(&self, value: Value) -> Result<bool, Refusal> {
        told(calls::contains(self.words, value))
    }

    /// How many values are held.
    pub fn size(&self) -> Result<usize, Refusal> {
        counted(calls::size(self.words))
    }

    /// The only value; [`Refusal::Empty`] where there are none or more.
    pub fn fixed_value(&self) -> Result<Value, Refusal> {
        found(calls::fixed_value(self.words))
    }

    /// The smallest value; [`Refusal::Empty`] where there is none.
    pub fn min(&self) -> Result<Value, Refusal> {
        found(calls::min(self.words))
    }

    /// The largest value; [`Refusal::Empty`] where there is none.
    pub fn max(&self) -> Result<Value, Refusal> {
        found(calls::max(self.words))
    }

    /// The values, ascending.
    pub fn values(&self) -> Result<Vec<Value>, Refusal> {
        let mut cells = [Value(0); 128];
        let n = self.values_into(&mut cells)?;
        Ok(cells[..n].to_vec())
    }

    /// The same into lent cells, of which later ones stay as they are; [`Refusal::NoRoom`] where they are too few.
    pub fn values_into(&self, cells: &mut [Value]) -> Result<usize, Refusal> {
        counted(calls::values(self.words, cells))
    }

    /// `[1,2,3|7,9]`: the first run of values without a gap, then the others.
    pub fn text(&self) -> Result<String, Refusal> {
        let mut text = [0; BIT_TEXT];
        let n = counted(calls::text(self.words, &mut text))?;
        Ok(String::from_utf8_lossy(&text[..n]).into_owned())
    }
}
