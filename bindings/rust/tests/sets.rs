// The crate and the library together: the paper's cases about bit domains and sparse sets, refusals, damaged states.
use pirozhkan::{BitDomain, Refusal, Sparse, SparseState, Value, BIT_WORDS, SPARSE_CELLS};

fn values(list: &[i32]) -> Vec<Value> {
    list.iter().copied().map(Value).collect()
}

#[test]
fn cases_1_to_3() {
    let mut words = [7; BIT_WORDS + 1];
    let mut domain = BitDomain::new(&mut words, Value(0), Value(127)).unwrap();
    assert_eq!(domain.size(), Ok(128));
    domain.remove_below(Value(64)).unwrap();
    assert_eq!((domain.size(), domain.fixed_value()), (Ok(64), Err(Refusal::Empty)));
    domain.remove_above(Value(64)).unwrap();
    assert_eq!(domain.fixed_value(), Ok(Value(64)));

    let wide = BitDomain::new(&mut words, Value(0), Value(128)).unwrap();
    assert_eq!((wide.size(), wide.min()), (Ok(0), Err(Refusal::Empty)));
    // the universe is (1, 0), and words past the domain's stay
    assert_eq!(words, [0x8000_0000_8000_0001, 0, 0, 7]);
}

#[test]
fn bit_domains() {
    let mut words = [0; BIT_WORDS];
    let mut domain = BitDomain::new_from_values(&mut words, &values(&[9, -3, 9, 124])).unwrap();
    assert_eq!((domain.insert(Value(10)), domain.insert(Value(10)), domain.insert(Value(125))), (Ok(true), Ok(false), Ok(false)));
    assert_eq!((domain.contains(Value(-3)), domain.contains(Value(0))), (Ok(true), Ok(false)));
    assert_eq!((domain.min(), domain.max()), (Ok(Value(-3)), Ok(Value(124))));
    assert_eq!(domain.values(), Ok(values(&[-3, 9, 10, 124])));
    assert_eq!(domain.values_into(&mut [Value(0); 3]), Err(Refusal::NoRoom));
    assert_eq!(domain.text().as_deref(), Ok("[-3|9,10,124]"));
    assert_eq!((domain.remove(Value(9)), domain.remove(Value(9))), (Ok(true), Ok(false)));
    domain.remove_all_but(Value(10)).unwrap();
    assert_eq!(domain.fixed_value(), Ok(Value(10)));
    domain.remove_all().unwrap();
    assert_eq!(domain.size(), Ok(0));
    let empty = BitDomain::new_empty(&mut words, Value(4), Value(5)).unwrap();
    assert_eq!(empty.text().as_deref(), Ok("[|]"));
    assert_eq!(BitDomain::open(&mut words[..2]).err(), Some(Refusal::NoRoom));
    words[2] = 1;
    assert_eq!(BitDomain::open(&mut words).err(), Some(Refusal::Broken));
}

// A set over six values at most, with a cell past each run.
struct Lent {
    state: [u32; SPARSE_CELLS + 1],
    ind: [u32; 7],
    val: [u32; 7],
}

impl Lent {
    fn blank() -> Lent {
        Lent { state: [7; SPARSE_CELLS + 1], ind: [7; 7], val: [7; 7] }
    }

    fn range(&mut self, min: i32, max: i32) -> Sparse<'_> {
        Sparse::new(&mut self.state, &mut self.ind, &mut self.val, Value(min), Value(max)).unwrap()
    }

    fn of(&mut self, list: &[i32]) -> Sparse<'_> {
        Sparse::new_from_values(&mut self.state, &mut self.ind, &mut self.val, &values(list)).unwrap()
    }
}

#[test]
fn cases_4_to_6() {
    let mut lent = Lent::blank();
    let set = lent.of(&[1, 3, 6]);
    assert_eq!(set.text().as_deref(), Ok("[1,6,3|5,4,2]"));
    assert_eq!((set.values(), set.complement()), (Ok(values(&[1, 6, 3])), Ok(values(&[5, 4, 2]))));
    assert_eq!((lent.state[5], lent.ind[6], lent.val[6]), (7, 7, 7));

    let mut set = lent.range(3, 0);
    assert_eq!(set.remove(Value(3)), Ok(true));
    assert_eq!(set.text().as_deref(), Ok("[0,1,2|3]"));
    set.remove_all_but(Value(1)).unwrap();
    assert_eq!(set.text().as_deref(), Ok("[1|0,2,3]"));

    let mut set = lent.range(0, 5);
    let saved = set.save_state().unwrap();
    assert_eq!((set.remove(Value(5)), set.remove(Value(0))), (Ok(true), Ok(true)));
    assert_eq!((set.min(), set.max()), (Ok(Value(1)), Ok(Value(4))));
    set.restore_state(saved).unwrap();
    assert_eq!((set.size(), set.min(), set.max()), (Ok(6), Ok(Value(0)), Ok(Value(5))));
    assert!((0..6).all(|v| set.contains(Value(v)) == Ok(true)));
    assert_eq!(set.restore_state(SparseState { size: 7, ..saved }), Err(Refusal::BadState));
}

#[test]
fn two_sparse_sets() {
    let (mut lent, mut other) = (Lent::blank(), Lent::blank());
    let other = other.of(&[1, 3, 5]);
    let mut set = lent.range(0, 5);
    let mut scratch = [Value(77); 6];
    assert_eq!(set.intersect_with(&other, &mut scratch[..5]), Err(Refusal::NoRoom));
    set.intersect_with(&other, &mut scratch).unwrap();
    assert_eq!((set.size(), &scratch[3..]), (Ok(3), &[Value(77); 3][..]));
    set.diff_with(&other, &mut scratch).unwrap();
    assert_eq!((set.size(), set.min()), (Ok(0), Err(Refusal::Empty)));
    set.union_with(&other).unwrap();
    set.remove_below(Value(2)).unwrap();
    set.remove_above(Value(4)).unwrap();
    assert_eq!(set.values(), Ok(values(&[3])));
    set.remove_all().unwrap();
    assert_eq!(set.size(), Ok(0));
}

#[test]
fn damaged_sparse_sets() {
    let mut lent = Lent::blank();
    assert_eq!(Sparse::new(&mut [0; 5], &mut [0; 3], &mut [0; 4], Value(0), Value(3)).err(), Some(Refusal::Short));
    assert_eq!(Sparse::new(&mut [0; 4], &mut [0; 4], &mut [0; 4], Value(0), Value(3)).err(), Some(Refusal::NoRoom));
    assert_eq!(Sparse::new(&mut [0; 5], &mut [0; 4], &mut [0; 4], Value(0), Value(4096)).err(), Some(Refusal::TooWide));
    lent.range(0, 5).remove(Value(2)).unwrap();
    let good = (lent.state, lent.ind, lent.val);
    let (mut sets, mut refused) = (0, 0);
    for at in 0..32 * (SPARSE_CELLS + 12) {
        (lent.state, lent.ind, lent.val) = good;
        let (cell, bit) = (at / 32, 1 << (at % 32));
        match cell {
            0..=4 => lent.state[cell] ^= bit,
            5..=10 => lent.ind[cell - 5] ^= bit,
            _ => lent.val[cell - 11] ^= bit,
        }
        let bad = (lent.state, lent.ind, lent.val);
        match Sparse::open(&mut lent.state, &mut lent.ind, &mut lent.val) {
            Ok(mut set) => {
                set.remove_above(Value(3)).unwrap();
                sets += 1;
            }
            Err(why) => {
                assert!(matches!(why, Refusal::Broken | Refusal::TooWide | Refusal::Short), "{why}");
                assert_eq!((lent.state, lent.ind, lent.val), bad);
                refused += 1;
            }
        }
    }
    assert!(sets > 0 && refused > 0, "{sets} sets, {refused} refused");
}
