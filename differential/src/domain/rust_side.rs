//! The Rust: the original's domains in registers, run record by record. Where the paper's rule stands in its place, the answer
//! is what the paper says, and the rule is counted.

use super::paper::{self, Inputs, Rule};
use super::script::*;
use crate::compare::{Counts, Fault};
use selen_oracle::variables::domain::bitset_domain::{BitSetDomain, BitSetDomainState};

/// A domain of the original with these fields, which are well formed.
pub fn domain(mask: u128, min: i32, max: i32) -> BitSetDomain {
    let mut d = match (min, max) {
        (1, 0) => BitSetDomain::new_invalid(),
        (0, -1) => BitSetDomain::new_from_values(Vec::new()),
        _ => BitSetDomain::new_empty(min, max),
    };
    d.restore_mask(mask);
    assert!((d.get_mask(), d.min_universe_value(), d.max_universe_value()) == (mask, min, max));
    d
}

/// A domain of the original, or fields that it can't hold.
#[derive(Clone)]
enum Held {
    Rust(BitSetDomain),
    Raw(u128, i32, i32),
}

impl Held {
    fn fields(&self) -> (u128, i32, i32) {
        match self {
            Held::Rust(d) => (d.get_mask(), d.min_universe_value(), d.max_universe_value()),
            Held::Raw(m, a, b) => (*m, *a, *b),
        }
    }

    fn of(mask: u128, min: i32, max: i32) -> Held {
        if paper::well(mask, min, max) { Held::Rust(domain(mask, min, max)) } else { Held::Raw(mask, min, max) }
    }

    fn rust(&mut self) -> &mut BitSetDomain {
        match self {
            Held::Rust(d) => d,
            Held::Raw(..) => unreachable!("the paper's rule refuses it"),
        }
    }
}

pub struct RustSide {
    domains: Vec<Held>,
    cursors: [(u128, i32); REGISTERS],
    states: [(u128, u64); REGISTERS],
    list: [i32; LISTED],
    pub counts: Counts,
    pub fault: Fault,
}

fn found(v: Option<i32>) -> Answer {
    v.map_or(refused(paper::EMPTY), |v| valued(4, v))
}

fn no_room(counts: &mut Counts) -> Answer {
    counts.rules[Rule::NoRoom as usize] += 1;
    refused(paper::NO_ROOM)
}

/// A domain that holds a cursor's mask over its smallest value: the original's iterator begins from it.
fn begun(mask: u128, min: i32) -> BitSetDomain {
    let mut d = BitSetDomain::new_empty(min, min.saturating_add(127));
    d.restore_mask(mask);
    d
}

impl RustSide {
    pub fn new() -> Self {
        RustSide {
            domains: vec![Held::of(0, i32::MIN, i32::MIN); REGISTERS],
            cursors: [(0, i32::MIN); REGISTERS],
            states: [(0, 0); REGISTERS],
            list: [i32::MIN; LISTED],
            counts: Counts::new(),
            fault: Fault::None,
        }
    }

    pub fn reset(&mut self) {
        let new = RustSide::new();
        self.domains = new.domains;
        self.cursors = new.cursors;
        self.states = new.states;
        self.list = new.list;
    }

    pub fn fields(&self, a: usize) -> (u128, i32, i32) {
        self.domains[a].fields()
    }

    /// How many cells and how many bytes the calls need that are lent some; of fields that are no domain's, which they refuse, a few.
    pub fn sizes(&self, a: usize) -> (usize, usize) {
        match &self.domains[a] {
            Held::Rust(d) => (d.size(), d.to_string().len()),
            Held::Raw(..) => (3, 3),
        }
    }

    fn listed(&self, r: &Record) -> Vec<i32> {
        self.list[r.b..r.b + (r.n as usize).min(MOST_CELLS)].to_vec()
    }

    /// Runs a record and writes its answer, with the lent cells behind it.
    pub fn run(&mut self, r: &Record, out: &mut Vec<u8>) {
        self.counts.calls[r.op as usize] += 1;
        let values = if matches!(r.op, 8 | 9) { self.listed(r) } else { Vec::new() };
        let restored = if r.op == 51 { self.states[r.b].0 } else { r.mask() };
        let rule = paper::rule(&Inputs {
            record: r,
            domain: self.fields(r.a),
            other: self.fields(r.b),
            cursor: self.cursors[r.b],
            restored,
            values: &values,
        });
        let mut lent = Vec::new();
        let mut answer = match rule {
            Some(rule) => {
                self.counts.rules[rule as usize] += 1;
                self.blank(r, &mut lent);
                self.by_rule(r, rule)
            }
            None => self.by_rust(r, values, restored, &mut lent),
        };
        answer.left = if (56..60).contains(&r.op) {
            let (mask, min) = self.cursors[r.b];
            [mask as u64, (mask >> 64) as u64, bits(min) as u64]
        } else {
            let (mask, min, max) = self.fields(r.a);
            [mask as u64, (mask >> 64) as u64, bits(min) as u64 | (bits(max) as u64) << 32]
        };
        answer.put(r.op, out);
        out.extend_from_slice(&lent);
    }

    /// The lent area as it came.
    fn blank(&self, r: &Record, lent: &mut Vec<u8>) {
        for _ in 0..shown(r) {
            if r.op == 60 {
                lent.extend_from_slice(&(bits(BLANK_CELL) as u64).to_le_bytes());
            } else {
                lent.push(BLANK_BYTE);
            }
        }
    }

    fn by_rule(&mut self, r: &Record, rule: Rule) -> Answer {
        match rule {
            Rule::Broken => refused(paper::BROKEN),
            Rule::ForeignBit => refused(paper::BAD_STATE),
            Rule::NoRoom => refused(paper::NO_ROOM),
            Rule::AllValues => match r.op {
                5 | 6 | 9 => refused(paper::TOO_WIDE),
                _ => {
                    self.domains[r.a] = Held::of(0, 1, 0);
                    Answer::default()
                }
            },
        }
    }

    fn set(&mut self, a: usize, made: Result<BitSetDomain, String>) -> Answer {
        match made {
            Ok(d) => {
                self.domains[a] = Held::Rust(d);
                Answer { kind: 5, ..Answer::default() }
            }
            Err(_) => refused(paper::TOO_WIDE),
        }
    }

    fn put(&mut self, a: usize, d: BitSetDomain) -> Answer {
        self.domains[a] = Held::Rust(d);
        Answer::default()
    }

    fn by_rust(&mut self, r: &Record, values: Vec<i32>, restored: u128, lent: &mut Vec<u8>) -> Answer {
        let (a, b, v) = (r.a, r.b, r.v);
        match r.op {
            0 => {
                self.reset();
                return Answer::default();
            }
            1 => {
                self.domains[a] = Held::of(r.mask(), v, r.w);
                return Answer::default();
            }
            2 => return self.put(a, BitSetDomain::new(v, r.w)),
            3 => return self.put(a, BitSetDomain::new_empty(v, r.w)),
            4 => return self.put(a, BitSetDomain::new_invalid()),
            5 => return self.set(a, BitSetDomain::try_new(v, r.w)),
            6 => return self.set(a, BitSetDomain::try_new_empty(v, r.w)),
            7 => {
                self.domains[a] = self.domains[b].clone();
                return Answer::default();
            }
            8 => return self.put(a, BitSetDomain::new_from_values(values)),
            9 => return self.set(a, BitSetDomain::try_new_from_values(values)),
            10 => {
                let at = r.n as usize;
                if at < LISTED - 3 {
                    self.list[at..at + 4].copy_from_slice(&r.four().map(signed));
                }
                return Answer::default();
            }
            52 => {
                self.states[b] = (r.mask(), r.n as u64);
                return Answer::default();
            }
            57 => return self.next(b),
            58 => {
                let (mask, min) = self.cursors[b];
                return counted(begun(mask, min).iter().size_hint().0);
            }
            59 => {
                self.cursors[b] = (r.mask(), v);
                return Answer::default();
            }
            _ => {}
        }
        let other = match (&self.domains[b], r.op) {
            (Held::Rust(e), 40..=44) => e.clone(),
            _ => BitSetDomain::new_invalid(),
        };
        let fault = self.fault == Fault::Answer;
        let (mask, min, _) = self.fields(a);
        let d = self.domains[a].rust();
        match r.op {
            16 => told(d.is_invalid()),
            17 => told(d.contains(v) != (fault && v as i64 - min as i64 == 64)),
            18 => counted(d.size()),
            19 => told(d.is_empty()),
            20 => told(d.is_fixed()),
            21 => found(d.fixed_value()),
            22 => found(d.min()),
            23 => found(d.max()),
            24 => found(d.first()),
            25 => found(d.last()),
            26 => counted(d.universe_size()),
            27 => valued(4, d.min_universe_value()),
            28 => valued(4, d.max_universe_value()),
            32 => told(d.insert(v)),
            33 => told(d.remove(v)),
            34 => {
                d.remove_all();
                done()
            }
            35 => {
                d.remove_all_but(v);
                done()
            }
            36 => {
                d.remove_below(v);
                done()
            }
            37 => {
                d.remove_above(v);
                done()
            }
            40 => d.intersect_with(&other).map_or(refused(paper::OTHER_UNIVERSE), |_| done()),
            41 => d.union_with(&other).map_or(refused(paper::OTHER_UNIVERSE), |_| done()),
            42 => told(d.is_subset_of(&other)),
            43 => told(d.equals(&other)),
            44 => d.union_mask(&other).map_or(refused(paper::OTHER_UNIVERSE), masked),
            45 => told(d.remove_by_mask(r.mask())),
            46 => masked(d.get_mask()),
            47 => masked(d.current_mask()),
            48 => valued(4, d.get_min_val()),
            49 => {
                d.restore_mask(restored);
                done()
            }
            50 => {
                let s = d.save_state();
                self.states[b] = (s.mask, s.size as u64);
                Answer { kind: 7, count: s.size as u64, ..masked(s.mask) }
            }
            51 => {
                d.restore_state(&BitSetDomainState { mask: restored, size: self.states[b].1 as usize });
                done()
            }
            56 => {
                // What the iterator goes over is all that is seen of it: the domain's values, from its mask and smallest value.
                let held: Vec<i32> = d.iter().collect();
                assert!(mask_over(&held, min) == mask);
                self.cursors[b] = (mask, min);
                cursor(mask, min)
            }
            60 => {
                let values = d.to_vec();
                let mut cells = [BLANK_CELL; CELLS];
                let room = (r.n as usize).min(MOST_CELLS);
                let fits = values.len() <= room;
                if fits {
                    cells[b..b + values.len()].copy_from_slice(&values);
                }
                for c in &cells[..shown(r)] {
                    lent.extend_from_slice(&(bits(*c) as u64).to_le_bytes());
                }
                if fits { counted(values.len()) } else { no_room(&mut self.counts) }
            }
            61 => {
                let text = d.to_string();
                let mut bytes = [BLANK_BYTE; BYTES];
                let room = (r.n as usize).min(MOST_BYTES);
                let fits = text.len() <= room;
                if fits {
                    bytes[b..b + text.len()].copy_from_slice(text.as_bytes());
                }
                lent.extend_from_slice(&bytes[..shown(r)]);
                if fits { counted(text.len()) } else { no_room(&mut self.counts) }
            }
            _ => Answer::default(),
        }
    }

    /// The iterator's own answer, and what it still goes over.
    fn next(&mut self, b: usize) -> Answer {
        let (mask, min) = self.cursors[b];
        let d = begun(mask, min);
        let mut it = d.iter();
        match it.next() {
            None => no_more(),
            Some(v) => {
                let rest: Vec<i32> = it.collect();
                self.cursors[b] = (mask_over(&rest, min), min);
                valued(9, v)
            }
        }
    }
}

fn mask_over(values: &[i32], min: i32) -> u128 {
    values.iter().map(|v| 1u128 << (*v as i64 - min as i64)).fold(0, |m, bit| m | bit)
}
