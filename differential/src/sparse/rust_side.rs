//! The Rust: the original's sets in registers, run record by record, with the cells that ours are lent. Where the paper's rule stands in
//! its place, the answer is what the paper says, and the rule is counted.

use super::paper::{self, Fields, Rule};
use super::script::*;
use crate::compare::{Counts, Fault};
use selen_oracle::variables::domain::sparse_set::{SparseSet, SparseSetState};

/// How far down a set is moved where the original wraps at the end of i32.
const MOVED: i32 = 10_000;

/// A set as ours has it: its numbers, and all cells that it may be lent.
#[derive(Clone)]
struct Register {
    fields: Fields,
    inds: usize,
    vals: usize,
    ind: Vec<u32>,
    val: Vec<u32>,
    /// The original's set of the same content, once a call has wanted it; none after a record that set numbers or cells.
    rust: Option<SparseSet>,
}

impl Register {
    fn new() -> Register {
        Register {
            fields: Fields { off: i32::MIN, n: 0, size: 0, min: 0, max: 0 },
            inds: 0,
            vals: 0,
            ind: vec![BLANK; CELLS],
            val: vec![BLANK; CELLS],
            rust: None,
        }
    }

    fn lent_ind(&self) -> &[u32] {
        &self.ind[IND..IND + self.inds.min(MOST_LENT)]
    }

    fn lent_val(&self) -> &[u32] {
        &self.val[VAL..VAL + self.vals.min(MOST_LENT)]
    }

    fn lent(&self) -> (&Fields, &[u32], &[u32]) {
        (&self.fields, self.lent_ind(), self.lent_val())
    }

    /// How many cells go into the number that is seen of them.
    fn seen_cells(&self) -> usize {
        self.inds.min(MOST_LENT).max(self.vals.min(MOST_LENT)) + 8
    }

    fn held(&self) -> &[u32] {
        &self.lent_val()[..self.fields.size as usize]
    }

    /// The original's set with this content, moved up by so much: a well-formed set can be reached by its public calls.
    fn build(&self, by: i32) -> SparseSet {
        let f = &self.fields;
        let n = f.n as usize;
        let off = if n == 0 { f.off.max(i32::MIN + 1) } else { f.off } + by;
        let mut d = if n == 0 { SparseSet::new_unchecked(off, off - 1) } else { SparseSet::new(off, (off as i64 + n as i64 - 1) as i32) };
        let mut now: Vec<u32> = (0..f.n).collect();
        let mut at = now.clone();
        for (k, &want) in self.lent_val()[..n].iter().enumerate() {
            let here = now[k];
            if here != want {
                d.exchange(here, want);
                let p = at[want as usize] as usize;
                (now[k], now[p]) = (want, here);
                (at[want as usize], at[here as usize]) = (k as u32, p as u32);
            }
        }
        d.restore_state(&SparseSetState { size: f.size, min: f.min, max: f.max });
        d
    }

    fn rust(&mut self) -> &mut SparseSet {
        if self.rust.is_none() {
            self.rust = Some(self.build(0));
        }
        self.rust.as_mut().unwrap()
    }

    /// Takes over what the original's set has become, offset by offset: `val` from its two iterators, the numbers from its state; that its
    /// `ind` is the inverse is asked of `contains` under every size.
    fn take(&mut self, d: &mut SparseSet, off: i32) {
        let s = d.save_state();
        let base = d.min_universe_value();
        let n = d.universe_size();
        let val: Vec<u32> = d.iter().chain(d.complement_iter()).map(|v| v.wrapping_sub(base) as u32).collect();
        assert!(val.len() == n && s.size as usize == d.size());
        for (k, &o) in val.iter().enumerate() {
            let v = base.wrapping_add(o as i32);
            d.restore_state(&SparseSetState { size: k as u32, min: s.min, max: s.max });
            assert!(!d.contains(v), "the original's orderings are inverse");
            d.restore_state(&SparseSetState { size: k as u32 + 1, min: s.min, max: s.max });
            assert!(d.contains(v), "the original's orderings are inverse");
            self.ind[IND + o as usize] = k as u32;
        }
        d.restore_state(&s);
        self.val[VAL..VAL + n].copy_from_slice(&val);
        self.fields = Fields { off, n: n as u32, size: s.size, min: s.min, max: s.max };
    }

    /// A call on the original's set.
    fn on(&mut self, call: impl FnOnce(&mut SparseSet) -> Answer) -> Answer {
        let off = self.fields.off;
        self.rust();
        let mut d = self.rust.take().unwrap();
        let answer = call(&mut d);
        self.take(&mut d, off);
        self.rust = Some(d);
        answer
    }

    /// The same, on the set moved down.
    fn on_moved(&mut self, call: impl FnOnce(&mut SparseSet) -> Answer) -> Answer {
        let off = self.fields.off;
        let mut d = self.build(-MOVED);
        let answer = call(&mut d);
        self.take(&mut d, off);
        self.rust = None;
        answer
    }
}

pub struct RustSide {
    sets: [Register; 2],
    cursors: [u32; REGISTERS],
    states: [(u32, u32, u32); REGISTERS],
    list: Vec<i32>,
    pub counts: Counts,
    /// Calls on universes of more than 1,000 values.
    pub wide: u64,
    pub fault: Fault,
}

fn found(v: Option<i32>) -> Answer {
    v.map_or(refused(paper::EMPTY), |v| valued(4, v))
}

impl RustSide {
    pub fn new() -> Self {
        RustSide {
            sets: [Register::new(), Register::new()],
            cursors: [0; REGISTERS],
            states: [(0, 0, 0); REGISTERS],
            list: vec![0; CELLS],
            counts: Counts::new(),
            wide: 0,
            fault: Fault::None,
        }
    }

    /// As a frame begins.
    pub fn reset(&mut self) {
        let new = RustSide::new();
        self.sets = new.sets;
        self.cursors = new.cursors;
        self.states = new.states;
        self.list = new.list;
    }

    pub fn fields(&self, a: usize) -> Fields {
        self.sets[a].fields
    }

    pub fn lens(&self, a: usize) -> (usize, usize) {
        (self.sets[a].inds, self.sets[a].vals)
    }

    pub fn cell(&self, a: usize, op: u8, at: usize) -> u32 {
        if op == 5 { self.sets[a].ind[at] } else { self.sets[a].val[at] }
    }

    /// The bounds of the first so many cells of `val`.
    pub fn bounds(&self, a: usize, size: usize) -> (u32, u32) {
        let val = self.sets[a].lent_val();
        let part = &val[..size.min(val.len())];
        (part.iter().copied().min().unwrap_or(0), part.iter().copied().max().unwrap_or(0))
    }

    pub fn refusal(&self, a: usize) -> Option<u64> {
        paper::refusal(&[self.sets[a].lent()])
    }

    /// How many cells and how many bytes the calls need that are lent some; of a set that they refuse, a few.
    pub fn sizes(&mut self, a: usize) -> (usize, usize) {
        if self.refusal(a).is_some() {
            return (3, 3);
        }
        let text = self.sets[a].rust().to_string().len();
        (self.sets[a].fields.size as usize, text)
    }

    /// Runs a record and writes its answer, with the cells behind it.
    pub fn run(&mut self, r: &Record, out: &mut Vec<u8>) {
        self.counts.calls[r.op as usize] += 1;
        let a = r.a % 2;
        let mut lent = Lent::new(r);
        let mut answer = match self.plain(r) {
            Some(answer) => answer,
            None => self.call(r, &mut lent),
        };
        if self.sets[a].fields.n > 1000 && !name(CALLS, r.op).starts_with('=') {
            self.wide += 1;
        }
        if lent.used {
            answer.lo = lent.seen();
        }
        let s = &self.sets[a];
        let many = s.seen_cells();
        answer.hi = seen(s.ind[..many].iter().zip(&s.val).map(|(i, v)| pair(*i, *v)));
        let f = &s.fields;
        answer.left = [pair(bits(f.off), f.n), pair(f.size, f.min), pair(f.max, self.cursors[r.b])];
        answer.put(r.op, out);
        lent.show(out);
        if r.op == 63 {
            for (i, v) in s.ind[..shown(r)].iter().zip(&s.val) {
                out.extend_from_slice(&pair(*i, *v).to_le_bytes());
            }
        }
    }

    /// The records that only set or show a register.
    fn plain(&mut self, r: &Record) -> Option<Answer> {
        let low = r.lo as u32;
        let high = (r.lo >> 32) as u32;
        let set = &mut self.sets[r.a % 2];
        match r.op {
            0 => {
                let many = (r.n as usize).min(CELLS);
                for s in &mut self.sets {
                    s.ind[..many].fill(BLANK);
                    s.val[..many].fill(BLANK);
                    (s.fields, s.inds, s.vals, s.rust) = (Register::new().fields, 0, 0, None);
                }
                self.cursors = [0; REGISTERS];
                self.states = [(0, 0, 0); REGISTERS];
            }
            1 => {
                set.fields = Fields { off: r.v, n: r.n, size: low, min: high, max: r.hi as u32 };
                set.rust = None;
            }
            4 => (set.inds, set.vals) = (low as usize, high as usize),
            5 | 6 => {
                let cells = if r.op == 5 { &mut set.ind } else { &mut set.val };
                if let Some(cell) = cells.get_mut(r.n as usize) {
                    *cell = low;
                }
                set.rust = None;
            }
            10 => {
                let values = listed(r);
                self.list[..values.len()].copy_from_slice(&values);
            }
            52 => self.states[r.b] = (r.n, low, high),
            56 | 58 => {
                self.cursors[r.b] = 0;
                return Some(Answer { kind: 8, ..Answer::default() });
            }
            62 => self.cursors[r.b] = r.n,
            63 => {}
            _ => return None,
        }
        Some(Answer::default())
    }

    fn by(&mut self, rule: Rule, answer: Answer) -> Answer {
        self.counts.rules[rule as usize] += 1;
        answer
    }

    fn make(&mut self, r: &Record) -> Answer {
        let a = r.a % 2;
        let values = &self.list[r.b..r.b + room(r)];
        let many = match r.op {
            2 => (r.v as i64 - r.w as i64).unsigned_abs() + 1,
            3 => (r.w as i64 - r.v as i64 + 1).max(0) as u64,
            _ if values.is_empty() => 0,
            _ => (*values.iter().max().unwrap() as i64 - *values.iter().min().unwrap() as i64 + 1) as u64,
        };
        let set = &mut self.sets[a];
        if let Some(number) = paper::refusal_of_new(many, set.lent_ind().len(), set.lent_val().len()) {
            return self.by(paper::of_number(number), refused(number));
        }
        let mut d = match r.op {
            2 => SparseSet::new(r.v, r.w),
            3 => SparseSet::new_unchecked(r.v, r.w),
            _ => SparseSet::new_from_values(values.to_vec()),
        };
        let off = d.min_universe_value();
        set.take(&mut d, off);
        set.rust = Some(d);
        Answer { kind: 5, ..Answer::default() }
    }

    fn call(&mut self, r: &Record, lent: &mut Lent) -> Answer {
        let a = r.a % 2;
        if matches!(r.op, 2 | 3 | 8) {
            return self.make(r);
        }
        let two = matches!(r.op, 40..=44);
        let refusal = if two { paper::refusal(&[self.sets[a].lent(), self.sets[1 - a].lent()]) } else { self.refusal(a) };
        if let Some(number) = refusal {
            return self.by(paper::of_number(number), refused(number));
        }
        if two { self.on_two(r, lent) } else { self.on_one(r, lent) }
    }

    fn on_two(&mut self, r: &Record, lent: &mut Lent) -> Answer {
        let a = r.a % 2;
        let mut other = self.sets[1 - a].clone();
        let f = self.sets[a].fields;
        let set = &mut self.sets[a];
        if matches!(r.op, 40 | 44) {
            if room(r) < f.size as usize {
                return self.by(Rule::NoRoom, refused(paper::NO_ROOM));
            }
            // the removed values, in the order held at entry: what the original gathers before it removes
            let other = other.rust();
            let keep = r.op == 40;
            let removed: Vec<i32> = set.rust().iter().filter(|v| other.contains(*v) != keep).collect();
            lent.put_values(&removed);
            return set.on(|d| {
                if keep { d.intersect_with(other) } else { d.diff_with(other) }
                done()
            });
        }
        if r.op == 41 && f.off as i64 + f.n as i64 == 1 << 31 {
            // what stands too low to be moved is outside the universe anyway
            let answer = if other.fields.off < i32::MIN + MOVED {
                done()
            } else {
                let other = other.build(-MOVED);
                set.on_moved(|d| {
                    d.union_with(&other);
                    done()
                })
            };
            return self.by(Rule::UnionAtLast, answer);
        }
        let other = other.rust();
        set.on(|d| match r.op {
            41 => {
                d.union_with(other);
                done()
            }
            42 => told(d.is_subset_of(other)),
            _ => told(d.equals(other)),
        })
    }

    fn on_one(&mut self, r: &Record, lent: &mut Lent) -> Answer {
        let (a, b, v) = (r.a % 2, r.b, r.v);
        let f = self.sets[a].fields;
        let fault = self.fault == Fault::Answer;
        let set = &mut self.sets[a];
        match r.op {
            22 | 23 if f.size == 0 => return self.by(Rule::Empty, refused(paper::EMPTY)),
            28 if f.n == 0 => return self.by(Rule::Empty, refused(paper::EMPTY)),
            27 if f.n == 0 && f.off == i32::MIN => return self.by(Rule::NoneAtLeast, valued(4, i32::MIN)),
            37 if v == i32::MAX => return self.by(Rule::AboveLast, done()),
            37 if f.size > 0 && f.off as i64 + *set.held().iter().max().unwrap() as i64 == i32::MAX as i64 && v as i64 >= f.off as i64 + *set.held().iter().min().unwrap() as i64 => {
                let answer = set.on_moved(|d| {
                    d.remove_above(v - MOVED);
                    done()
                });
                return self.by(Rule::LastHeld, answer);
            }
            51 => {
                let (size, min, max) = self.states[b];
                if !paper::fits(f.n, size, min, max, set.lent_val()) {
                    return self.by(Rule::BadState, refused(paper::BAD_STATE));
                }
                return set.on(|d| {
                    d.restore_state(&SparseSetState { size, min, max });
                    done()
                });
            }
            57 => {
                let at = self.cursors[b];
                let next = set.rust().iter().nth(at as usize);
                if next.is_some() {
                    self.cursors[b] = at + 1;
                }
                return next.map_or(no_more(), |v| valued(9, v));
            }
            59 => {
                // a place below the size stands for the size
                let at = self.cursors[b].max(f.size);
                let next = set.rust().complement_iter().nth((at - f.size) as usize);
                if next.is_some() {
                    self.cursors[b] = at + 1;
                }
                return next.map_or(no_more(), |v| valued(9, v));
            }
            60 => {
                let values = set.rust().to_vec();
                if values.len() > room(r) {
                    return self.by(Rule::NoRoom, refused(paper::NO_ROOM));
                }
                lent.put_values(&values);
                return counted(values.len());
            }
            61 => {
                let text = set.rust().to_string();
                if text.len() > room(r) {
                    return self.by(Rule::NoRoom, refused(paper::NO_ROOM));
                }
                lent.put_bytes(text.as_bytes());
                return counted(text.len());
            }
            50 => {
                let s = set.rust().save_state();
                self.states[b] = (s.size, s.min, s.max);
                return Answer { kind: 7, count: s.size as u64, lo: pair(s.min, s.max), ..Answer::default() };
            }
            _ => {}
        }
        set.on(|d| match r.op {
            17 => told(d.contains(v) != (fault && v as i64 - f.off as i64 == 5)),
            18 => counted(d.size()),
            19 => told(d.is_empty()),
            20 => told(d.is_fixed()),
            22 => valued(4, d.min()),
            23 => valued(4, d.max()),
            24 => found(d.first()),
            25 => found(d.last()),
            26 => counted(d.universe_size()),
            27 => valued(4, d.min_universe_value()),
            28 => valued(4, d.max_universe_value()),
            29 => counted(d.complement_size()),
            30 => told(d.should_use_complement()),
            31 => counted(d.current_size() as usize),
            33 => told(d.remove(v)),
            34 => {
                d.remove_all();
                done()
            }
            35 => {
                d.remove_all_but(v);
                done()
            }
            36 => {
                d.remove_below(v);
                done()
            }
            37 => {
                d.remove_above(v);
                done()
            }
            _ => Answer::default(),
        })
    }
}

/// The cells or bytes that are lent beside the orderings, those before and after the part among them.
pub struct Lent {
    pub used: bool,
    text: bool,
    start: usize,
    many: usize,
    shown: usize,
    put: Vec<u64>,
}

impl Lent {
    pub fn new(r: &Record) -> Lent {
        Lent {
            used: matches!(r.op, 40 | 44 | 60 | 61),
            text: r.op == 61,
            start: r.b,
            many: r.b + room(r) + 4,
            shown: shown(r),
            put: Vec::new(),
        }
    }

    fn put_values(&mut self, values: &[i32]) {
        self.put = values.iter().map(|v| bits(*v) as u64).collect();
    }

    fn put_bytes(&mut self, bytes: &[u8]) {
        self.put = bytes.iter().map(|b| *b as u64).collect();
    }

    fn cell(&self, i: usize) -> u64 {
        let blank = if self.text { BLANK_BYTE as u64 } else { bits(BLANK as i32) as u64 };
        i.checked_sub(self.start).and_then(|k| self.put.get(k).copied()).unwrap_or(blank)
    }

    pub fn seen(&self) -> u64 {
        seen((0..self.many).map(|i| self.cell(i)))
    }

    pub fn show(&self, out: &mut Vec<u8>) {
        for i in 0..if self.used { self.shown } else { 0 } {
            if self.text {
                out.push(self.cell(i) as u8);
            } else {
                out.extend_from_slice(&self.cell(i).to_le_bytes());
            }
        }
    }
}
