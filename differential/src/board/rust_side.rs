//! The Rust: the original's board, run record by record, with its marks as saved copies of its domains. Where the paper refuses
//! a call, or names a deviation, its answer stands in; refusals are counted by number.

use super::paper::{self, Plain, Row};
use super::script::*;
use crate::compare::Fault;
use crate::domain::rust_side::domain;
use selen_oracle::constraints::gac_bitset::BitSetGAC;
use selen_oracle::constraints::gac_hybrid::Variable;
use selen_oracle::variables::domain::bitset_domain::BitSetDomain;
use std::collections::HashMap;

#[derive(Clone)]
pub struct Counts {
    pub calls: [u64; 256],
    pub refused: [u64; 16],
    /// Calls on well-formed boards with a mark open, those that close it among them.
    pub tried: u64,
    /// Calls on boards that aren't well formed.
    pub broken: u64,
    pub all_values: u64,
    /// Accepted questions about all ids, which the original gives in no order.
    pub ordered: u64,
    /// Accepted propagations: by the list's length, and by the pair (changed, consistent) as 2 * changed + consistent.
    pub lists: [u64; 65],
    pub pairs: [u64; 4],
    /// Calls on well-formed boards, by how many marks they leave open.
    pub depth: [u64; 9],
}

impl Counts {
    pub fn new() -> Self {
        Counts { calls: [0; 256], refused: [0; 16], tried: 0, broken: 0, all_values: 0, ordered: 0, lists: [0; 65], pairs: [0; 4], depth: [0; 9] }
    }
}

pub struct RustSide {
    pub plain: Plain,
    gac: BitSetGAC,
    /// The domains at each open mark.
    copies: Vec<HashMap<Variable, BitSetDomain>>,
    /// Whether the original holds what `plain` does: not after a part of the board was set by hand.
    same: bool,
    pub ids: [u32; IDS],
    pub values: [i32; LISTED],
    cursors: [(u128, i32); 8],
    at: u64,
    pub counts: Counts,
    pub fault: Fault,
}

fn var(id: u32) -> Variable {
    Variable(id as usize)
}

impl RustSide {
    pub fn new() -> Self {
        RustSide {
            plain: Plain::new(),
            gac: BitSetGAC::new(),
            copies: Vec::new(),
            same: true,
            ids: [0; IDS],
            values: [i32::MIN; LISTED],
            cursors: [(0, i32::MIN); 8],
            at: 0,
            counts: Counts::new(),
            fault: Fault::None,
        }
    }

    pub fn reset(&mut self) {
        *self = RustSide { counts: self.counts.clone(), fault: self.fault, ..RustSide::new() };
    }

    /// The original anew, from the parts of a well-formed board.
    fn load(&mut self) {
        let p = &self.plain;
        let rows = &p.rows[..p.count as usize];
        self.gac = BitSetGAC::new();
        if p.changed {
            // the flag is private: only a registration or a removal sets it
            self.gac.add_variable(Variable(usize::MAX), 0, 0);
            self.gac.domains.clear();
        }
        self.gac.domains.extend(rows.iter().map(|r| (var(r.id), domain(r.mask, r.min, r.max))));
        self.copies = (0..p.marks as usize)
            .map(|m| rows.iter().enumerate().map(|(i, r)| (var(r.id), domain(p.saved_mask(m, i), r.min, r.max))).collect())
            .collect();
        self.same = true;
    }

    /// The board as the original has it now. Rows past the count and words of no open mark are as they were.
    fn store(&mut self) {
        let p = &mut self.plain;
        for row in &mut p.rows[..p.count as usize] {
            let d = &self.gac.domains[&var(row.id)];
            *row = Row { id: row.id, mask: d.get_mask(), min: d.min_universe_value(), max: d.max_universe_value() };
        }
        p.changed = self.gac.domains_changed();
        p.marks = self.copies.len() as u64;
        assert!(self.gac.domains.len() as u64 == p.count);
    }

    /// How many cells a call needs that is lent some.
    pub fn held(&self, r: &Record) -> usize {
        match r.op {
            op::CHUTES_INTO => self.gac.domain_size(var(r.n)),
            op::VARIABLES_INTO => self.plain.count as usize,
            _ => 0,
        }
    }

    /// Runs a record and writes its answer, with what stands behind it.
    pub fn run(&mut self, r: &Record, out: &mut Vec<u8>) {
        self.counts.calls[r.op as usize] += 1;
        if r.op <= op::VALUES {
            self.set_register(r);
            Answer::default().put(r.op, out);
            return;
        }
        let well = !is_call(r.op) || self.plain.well();
        if well && is_call(r.op) && !self.same {
            self.load();
        }
        let list = &self.ids[list(r)].to_vec();
        let held = if well { self.held(r) } else { 0 };
        let mut cells = [BLANK; CELLS];
        let mut answer = match paper::refusal(r, &self.plain, list, held) {
            Some((number, place)) => {
                self.counts.refused[number as usize] += 1;
                if number == paper::BROKEN {
                    self.counts.broken += 1;
                }
                refused_at(number, place)
            }
            None if is_call(r.op) => self.call(r, list, &mut cells),
            None => self.set_part(r),
        };
        if is_call(r.op) && answer.number != paper::BROKEN {
            self.counts.depth[self.plain.marks as usize] += 1;
            if self.plain.marks > 0 || r.op == op::RESTORE || r.op == op::KEEP {
                self.counts.tried += 1;
            }
        }
        answer.left = self.plain.left();
        answer.put(r.op, out);
        for c in &cells[..shown(r)] {
            out.extend_from_slice(&cell(r, *c).to_le_bytes());
        }
        if r.op == op::DUMP {
            self.plain.dump(out);
        }
    }

    fn set_register(&mut self, r: &Record) {
        let at = r.n as usize;
        match r.op {
            op::RESET => self.reset(),
            op::IDS if at < IDS - 3 => self.ids[at..at + 4].copy_from_slice(&r.four()),
            op::VALUES if at < LISTED - 3 => self.values[at..at + 4].copy_from_slice(&r.four().map(signed)),
            _ => {}
        }
    }

    fn set_part(&mut self, r: &Record) -> Answer {
        let p = &mut self.plain;
        match r.op {
            op::RAW_ROW => p.rows[row(r)] = Row { id: r.n, mask: r.mask(), min: r.v, max: r.w },
            op::RAW_WORD => p.saved[r.n as usize % WORDS] = r.lo,
            op::RAW_COUNT => p.count = r.n as u64,
            op::RAW_MARKS => p.marks = r.n as u64,
            op::RAW_FLAG => p.changed = r.n % 2 == 1,
            op::RAW_CURSOR => self.at = r.n as u64,
            _ => {}
        }
        self.same &= matches!(r.op, op::DUMP | op::RAW_CURSOR);
        Answer::default()
    }

    fn register(&mut self, id: u32) {
        let p = &mut self.plain;
        if !p.ids().any(|x| x == id) {
            p.rows[p.count as usize].id = id;
            p.count += 1;
        }
    }

    /// An accepted call, by the original.
    fn call(&mut self, r: &Record, list: &[u32], cells: &mut [u32; CELLS]) -> Answer {
        let answer = self.by_rust(r, list, cells);
        // questions leave the original as it is: the type says so
        if !(op::CHANGED..=op::READY).contains(&r.op) {
            self.store();
        }
        if answer.is_refused() {
            self.counts.refused[answer.number as usize] += 1;
        }
        answer
    }

    fn by_rust(&mut self, r: &Record, list: &[u32], cells: &mut [u32; CELLS]) -> Answer {
        self.counts.ordered += matches!(r.op, op::VARIABLES | op::NEXT_VARIABLE | op::VARIABLES_INTO) as u64;
        let (id, v) = (var(r.n), r.v);
        let empty = refused(paper::EMPTY);
        match r.op {
            op::NEW => {
                self.plain = Plain::new();
                self.gac = BitSetGAC::new();
                self.copies.clear();
                self.same = true;
                Answer::default()
            }
            op::ADD | op::ADD_VALUES => {
                let values = self.values[part(r)].to_vec();
                if paper::all_values(r, &values) {
                    self.counts.all_values += 1;
                    self.gac.add_variable(id, 0, 128);
                } else if r.op == op::ADD {
                    self.gac.add_variable(id, v, r.w);
                } else {
                    self.gac.add_variable_with_values(id, values);
                }
                self.register(r.n);
                done()
            }
            op::REMOVE => told(self.gac.remove_value(id, v)),
            op::ASSIGN => told(self.gac.assign_variable(id, v)),
            op::BELOW => told(self.gac.remove_below(id, v)),
            op::ABOVE => told(self.gac.remove_above(id, v)),
            op::RESET_FLAG => {
                self.gac.reset_changed_flag();
                done()
            }
            op::CHANGED => told(self.gac.domains_changed()),
            op::SIZE => counted(self.gac.domain_size(id)),
            op::IS_ASSIGNED => told(self.gac.is_assigned(id)),
            op::ASSIGNED_VALUE => self.gac.assigned_value(id).map_or(empty, |v| valued(4, v)),
            op::IS_INCONSISTENT => told(self.gac.is_inconsistent(id)),
            op::BOUNDS => self.gac.get_bounds(id).map_or(empty, |(x, y)| Answer { kind: 12, value: bits(x) as u64, lo: bits(y) as u64, ..Answer::default() }),
            op::CHUTES => {
                // an id that isn't registered has no chutes; its cursor is that of the invalid pair
                let (mask, min) = self.gac.domains.get(&id).map_or((0, 1), |d| (d.get_mask(), d.min_universe_value()));
                let held: Vec<i32> = (0..128).filter(|k| mask >> k & 1 == 1).map(|k| (min as i64 + k) as i32).collect();
                assert!(held == self.gac.get_domain_values(id));
                self.cursors[r.b] = (mask, min);
                cursor(mask, min)
            }
            op::NEXT_CHUTE => {
                let (mask, min) = self.cursors[r.b];
                if mask == 0 {
                    return no_more();
                }
                self.cursors[r.b].0 = mask & (mask - 1);
                valued(9, (min as i64 + mask.trailing_zeros() as i64) as i32)
            }
            op::CHUTES_INTO => {
                let held = self.gac.get_domain_values(id);
                for (cell, v) in cells[r.b..].iter_mut().zip(&held) {
                    *cell = *v as u32;
                }
                counted(held.len())
            }
            op::VARIABLES => {
                self.same_ids();
                self.at = 0;
                Answer { kind: 13, ..Answer::default() }
            }
            op::NEXT_VARIABLE => match self.plain.ids().nth(self.at as usize) {
                Some(id) => {
                    self.at += 1;
                    Answer { kind: 14, count: id as u64, ..Answer::default() }
                }
                None => no_more(),
            },
            op::VARIABLES_INTO => {
                self.same_ids();
                let ids: Vec<u32> = self.plain.ids().collect();
                cells[r.b..r.b + ids.len()].copy_from_slice(&ids);
                counted(ids.len())
            }
            op::READY => told(list.iter().all(|id| self.gac.is_assigned(var(*id)))),
            op::PROPAGATE => {
                let list: Vec<Variable> = list.iter().map(|id| var(*id)).collect();
                let (mut changed, consistent) = self.gac.propagate_alldiff(&list);
                self.counts.lists[list.len()] += 1;
                self.counts.pairs[2 * changed as usize + consistent as usize] += 1;
                changed |= self.fault == Fault::Answer && !consistent;
                Answer { kind: 11, value: changed as u64, count: consistent as u64, ..Answer::default() }
            }
            op::MARK => {
                let (m, p) = (self.copies.len(), &mut self.plain);
                self.copies.push(self.gac.domains.clone());
                for i in 0..p.count as usize {
                    let mask = self.gac.domains[&var(p.rows[i].id)].get_mask();
                    p.save_mask(m, i, mask);
                }
                done()
            }
            op::RESTORE => {
                self.gac.domains = self.copies.pop().expect("a mark is open");
                if self.fault == Fault::State {
                    self.gac.reset_changed_flag();
                }
                done()
            }
            op::KEEP => {
                self.copies.pop();
                done()
            }
            _ => Answer::default(),
        }
    }

    /// The original's ids are ours, in whatever order it has them.
    fn same_ids(&self) {
        let mut theirs: Vec<usize> = self.gac.variables().map(|v| v.0).collect();
        let mut ours: Vec<usize> = self.plain.ids().map(|id| id as usize).collect();
        theirs.sort_unstable();
        ours.sort_unstable();
        assert!(theirs == ours);
    }
}
