use crate::calls::sparse as calls;
use crate::{counted, done, found, told, Refusal, Value};

/// How many cells the state of a sparse set takes.
pub const SPARSE_CELLS: usize = 5;

/// What [`Sparse::save_state`] keeps of a set.
#[derive(Clone, Copy, Debug, PartialEq, Eq, Hash)]
pub struct SparseState {
    /// How many values are held.
    pub size: u32,
    /// The smallest held offset.
    pub min: u32,
    /// The largest.
    pub max: u32,
}

/// The values of a universe of at most 4,096 that are held, in an order of their own: [`SPARSE_CELLS`] cells of state and two orderings, which
/// have a cell for each value of the universe. The caller lends the three together.
///
/// Every call refuses fewer cells of state ([`Refusal::NoRoom`]), a universe of more values ([`Refusal::TooWide`]), an ordering of fewer cells
/// than it has values ([`Refusal::Short`]), and then what isn't well formed ([`Refusal::Broken`]).
///
/// ```
/// use pirozhkan::{Sparse, Value, SPARSE_CELLS};
///
/// let (mut state, mut ind, mut val) = ([0; SPARSE_CELLS], [0; 6], [0; 6]);
/// let set = Sparse::new_from_values(&mut state, &mut ind, &mut val, &[Value(1), Value(3), Value(6)])?;
/// assert_eq!(set.text()?, "[1,6,3|5,4,2]");
/// # Ok::<(), pirozhkan::Refusal>(())
/// ```
#[derive(Debug)]
pub struct Sparse<'a> {
    state: &'a mut [u32],
    ind: &'a mut [u32],
    val: &'a mut [u32],
}

impl<'a> Sparse<'a> {
    /// The values from `min` to `max` in either order, all held.
    pub fn new(state: &'a mut [u32], ind: &'a mut [u32], val: &'a mut [u32], min: Value, max: Value) -> Result<Sparse<'a>, Refusal> {
        done(calls::new(state, ind, val, min, max))?;
        Ok(Sparse { state, ind, val })
    }

    /// The listed values, over the universe from the least to the greatest.
    pub fn new_from_values(state: &'a mut [u32], ind: &'a mut [u32], val: &'a mut [u32], values: &[Value]) -> Result<Sparse<'a>, Refusal> {
        done(calls::new_from_values(state, ind, val, values))?;
        Ok(Sparse { state, ind, val })
    }

    /// The set that the cells already hold.
    pub fn open(state: &'a mut [u32], ind: &'a mut [u32], val: &'a mut [u32]) -> Result<Sparse<'a>, Refusal> {
        counted(calls::size(state, ind, val))?;
        Ok(Sparse { state, ind, val })
    }

    // How many values the universe has, which the second cell of the state says.
    fn universe(&self) -> u32 {
        self.state[1]
    }

    /// The state's cells and the two orderings.
    pub fn cells(&self) -> [&[u32]; 3] {
        [self.state, self.ind, self.val]
    }

    /// Tells whether the value was held.
    pub fn remove(&mut self, value: Value) -> Result<bool, Refusal> {
        told(calls::remove(self.state, self.ind, self.val, value))
    }

    /// Drops all.
    pub fn remove_all(&mut self) -> Result<(), Refusal> {
        done(calls::remove_all(self.state, self.ind, self.val))
    }

    /// Drops all but one; all, if that one isn't held.
    pub fn remove_all_but(&mut self, value: Value) -> Result<(), Refusal> {
        done(calls::remove_all_but(self.state, self.ind, self.val, value))
    }

    /// Drops the values less than `value`.
    pub fn remove_below(&mut self, value: Value) -> Result<(), Refusal> {
        done(calls::remove_below(self.state, self.ind, self.val, value))
    }

    /// Drops the values greater than `value`.
    pub fn remove_above(&mut self, value: Value) -> Result<(), Refusal> {
        done(calls::remove_above(self.state, self.ind, self.val, value))
    }

    /// Keeps the values that the other set holds. Those that go are written into the scratch; [`Refusal::NoRoom`] where it has fewer cells than
    /// this set holds values.
    pub fn intersect_with(&mut self, other: &Sparse, scratch: &mut [Value]) -> Result<(), Refusal> {
        done(calls::intersect_with(self.state, self.ind, self.val, other.cells(), scratch))
    }

    /// Drops the values that the other set holds. The scratch is as for [`Sparse::intersect_with`].
    pub fn diff_with(&mut self, other: &Sparse, scratch: &mut [Value]) -> Result<(), Refusal> {
        done(calls::diff_with(self.state, self.ind, self.val, other.cells(), scratch))
    }

    /// Adds the other set's values that are in this universe.
    pub fn union_with(&mut self, other: &Sparse) -> Result<(), Refusal> {
        done(calls::union_with(self.state, self.ind, self.val, other.cells()))
    }

    /// What to restore later, with [`Sparse::restore_state`].
    pub fn save_state(&self) -> Result<SparseState, Refusal> {
        let mut saved = [0; 3];
        done(calls::save_state(self.state, self.ind, self.val, &mut saved))?;
        let [size, min, max] = saved;
        Ok(SparseState { size, min, max })
    }

    /// Gives the saved members and bounds, if since the save there was no union and no restore to a larger size; [`Refusal::BadState`] where the
    /// state doesn't fit.
    pub fn restore_state(&mut self, saved: SparseState) -> Result<(), Refusal> {
        done(calls::restore_state(self.state, self.ind, self.val, [saved.size, saved.min, saved.max]))
    }

    /// Whether the value is held.
    pub fn contains(&self, value: Value) -> Result<bool, Refusal> {
        told(calls::contains(self.state, self.ind, self.val, value))
    }

    /// How many values are held.
    pub fn size(&self) -> Result<usize, Refusal> {
        counted(calls::size(self.state, self.ind, self.val))
    }

    /// The smallest value; [`Refusal::Empty`] where there is none.
    pub fn min(&self) -> Result<Value, Refusal> {
        found(calls::min(self.state, self.ind, self.val))
    }

    /// The largest value; [`Refusal::Empty`] where there is none.
    pub fn max(&self) -> Result<Value, Refusal> {
        found(calls::max(self.state, self.ind, self.val))
    }

    /// The values, in the set's own order, into lent cells; [`Refusal::NoRoom`] where they are too few.
    pub fn values_into(&self, cells: &mut [Value]) -> Result<usize, Refusal> {
        counted(calls::values(self.state, self.ind, self.val, cells))
    }

    /// The values, in the set's own order.
    pub fn values(&self) -> Result<Vec<Value>, Refusal> {
        let mut cells = vec![Value(0); self.size()?];
        self.values_into(&mut cells)?;
        Ok(cells)
    }

    /// The values of the universe that aren't held, in the set's own order.
    pub fn complement(&self) -> Result<Vec<Value>, Refusal> {
        let (size, n) = (self.size()?, self.universe());
        // a copy of the state that holds the whole universe: its values are the held ones, then the others
        let mut state = self.state[..SPARSE_CELLS].to_vec();
        done(calls::restore_state(&mut state, self.ind, self.val, [n, 0, n.saturating_sub(1)]))?;
        let mut cells = vec![Value(0); n as usize];
        counted(calls::values(&state, self.ind, self.val, &mut cells))?;
        Ok(cells[size..].to_vec())
    }

    /// `[1,6,3|5,4,2]`: the held values, and the others of the universe.
    pub fn text(&self) -> Result<String, Refusal> {
        // a value takes at most 11 bytes, and a comma or the bar beside it
        let mut text = vec![0; 12 * self.universe() as usize + 3];
        let n = counted(calls::text(self.state, self.ind, self.val, &mut text))?;
        Ok(String::from_utf8_lossy(&text[..n]).into_owned())
    }
}
