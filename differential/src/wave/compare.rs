//! The comparison: sheets in frames, every answer and every lent byte, with every refusal of ours held to leave the lent bytes; and on a
//! difference, the shortest sheet that still shows one.
//!
//! A frame is 65,536 bytes of records: the sheet's length and how many bytes are lent for the text, four bytes each, the lowest first; then the
//! sheet. A length of 2^32 - 1 ends it. The answer to a record is how many bytes were written, or 2^64 - 1 for a refusal, in eight bytes, then the
//! lent bytes and eight past them, which were FILL before the call.

use super::generate;
use super::guard;
use super::rust_side;
use crate::compare::Fault;
use crate::ours::Ours;
use crate::random::Random;
use crate::tally::ByNumber;

pub const FRAME: usize = 65536;
const END: u32 = u32::MAX;
const REFUSED: u64 = u64::MAX;
pub const FILL: u8 = 0xA5;
/// How many bytes past the lent ones are seen.
const PAST: usize = 8;

#[derive(Clone)]
pub struct Record {
    pub sheet: Vec<u8>,
    pub room: usize,
}

impl Record {
    fn script_size(&self) -> usize {
        8 + self.sheet.len()
    }

    fn answer_size(&self) -> usize {
        8 + self.room + PAST
    }

    /// The answer that the paper asks for: the text where there is room for it, else nothing written. With a fault in the state, a byte past the
    /// lent ones is written.
    fn answer(&self, text: &str, fault: Fault) -> Vec<u8> {
        let mut cells = vec![FILL; self.room + PAST];
        let mut said = REFUSED;
        if text.len() <= self.room {
            cells[..text.len()].copy_from_slice(text.as_bytes());
            said = text.len() as u64;
        }
        if fault == Fault::State {
            cells[self.room + PAST - 1] = b'\n';
        }
        let mut answer = [said.to_le_bytes().to_vec(), cells].concat();
        spoil(&mut answer, fault);
        answer
    }

    /// The answer to the sheet by the Rust's board.
    fn by_rust(&self, fault: Fault) -> Vec<u8> {
        self.answer(&rust_side::wave(&self.sheet, fault == Fault::Answer), fault)
    }
}

fn is_refused(answer: &[u8]) -> bool {
    answer[..8] == REFUSED.to_le_bytes()
}

/// On both sides alike: a refusal that wrote a lent byte.
fn spoil(answer: &mut [u8], fault: Fault) {
    if fault == Fault::Wrote && answer.len() > 8 && is_refused(answer) {
        answer[8] = b'R';
    }
}

/// Whether an answer of ours that refuses left every lent byte, and those past them.
fn keeps(answer: &[u8]) -> bool {
    !is_refused(answer) || answer[8..].iter().all(|b| *b == FILL)
}

/// A frame of records.
fn frame(records: &[Record]) -> Vec<u8> {
    let mut script = Vec::with_capacity(FRAME);
    for r in records {
        script.extend_from_slice(&(r.sheet.len() as u32).to_le_bytes());
        script.extend_from_slice(&(r.room as u32).to_le_bytes());
        script.extend_from_slice(&r.sheet);
    }
    script.extend_from_slice(&END.to_le_bytes());
    script.resize(FRAME, 0);
    script
}

#[derive(Default)]
pub struct Counts {
    pub good: u64,
    pub damaged: u64,
    pub kinds: [u64; generate::DAMAGES.len()],
    /// Refusals that ours answered or printed, by number.
    pub refused: ByNumber,
    pub conflicts: u64,
}

impl Counts {
    /// Takes note of an answer of ours.
    fn note(&mut self, answer: &[u8]) {
        if is_refused(answer) {
            self.refused[14] += 1;
            return;
        }
        let many = u64::from_le_bytes(answer[..8].try_into().unwrap()) as usize;
        let text = String::from_utf8_lossy(&answer[8..8 + many]);
        self.refused[15] += text.starts_with('R') as u64;
        for line in text.lines().filter(|l| l.starts_with('L')) {
            self.refused[6] += line.contains(" R 6 ") as u64;
            self.refused[7] += line.contains(" R 7 ") as u64;
            self.conflicts += (line.ends_with(" 0") && !line.contains('R')) as u64;
        }
    }
}

pub struct Difference {
    pub sheet: Vec<u8>,
    pub room: usize,
    pub ours: Vec<u8>,
    pub rust: Vec<u8>,
}

fn both(record: &Record, ours: &mut Ours, fault: Fault) -> (Vec<u8>, Vec<u8>) {
    let rust = record.by_rust(fault);
    let mut said = ours.run(&frame(std::slice::from_ref(record)), rust.len());
    spoil(&mut said, fault);
    (said, rust)
}

/// Whether ours is as it should be: the Rust's answer, a refusal that wrote nothing, and no byte before or past the lent ones touched.
fn is_good(record: &Record, ours: &[u8], rust: &[u8]) -> bool {
    ours == rust && keeps(ours) && guard::keeps(record, rust)
}

/// Takes bytes out of the sheet while a difference stays.
fn shrink(mut record: Record, ours: &mut Ours, fault: Fault) -> Difference {
    let mut step = record.sheet.len();
    while step > 0 {
        let mut at = 0;
        while at < record.sheet.len() {
            let mut shorter = record.clone();
            shorter.sheet.drain(at..(at + step).min(shorter.sheet.len()));
            let (a, b) = both(&shorter, ours, fault);
            if !is_good(&shorter, &a, &b) {
                record = shorter;
            } else {
                at += step;
            }
        }
        step /= 2;
    }
    let (a, b) = both(&record, ours, fault);
    Difference { sheet: record.sheet, room: record.room, ours: a, rust: b }
}

impl Difference {
    pub fn print(&self) {
        println!("the shortest sheet found that shows a difference, with {} bytes lent for the text:", self.room);
        println!("    {:?}", String::from_utf8_lossy(&self.sheet));
        for (who, bytes) in [("the Rust", &self.rust), ("ours", &self.ours)] {
            let said = u64::from_le_bytes(bytes[..8].try_into().unwrap());
            println!("  {who}: {said}, {:?}", String::from_utf8_lossy(&bytes[8..]));
        }
    }
}

/// A record with the Rust's answer: every other sheet is damaged. Most have room, some of them none to spare.
fn record(rnd: &mut Random, fault: Fault, counts: &mut Counts) -> (Record, Vec<u8>) {
    let sheet = if rnd.one_in(2) {
        counts.good += 1;
        generate::bytes(&generate::sheet(rnd))
    } else {
        let (text, kind) = generate::damaged(rnd);
        counts.damaged += 1;
        counts.kinds[kind] += 1;
        text
    };
    let text = rust_side::wave(&sheet, fault == Fault::Answer);
    let room = match rnd.below(16) {
        0 => rnd.below(text.len() as u64 + 1) as usize,
        1 => text.len().saturating_sub(1),
        2 => 2816,
        _ => text.len() + rnd.below(3) as usize,
    };
    let record = Record { sheet, room };
    let answer = record.answer(&text, fault);
    (record, answer)
}

/// Compares so many sheets of each kind from a seed on. The counts stay in `counts`.
pub fn run(seed: u64, sheets: u64, ours: &mut Ours, fault: Fault, counts: &mut Counts) -> Option<Difference> {
    let mut rnd = Random::new(seed);
    let mut kept: Option<(Record, Vec<u8>)> = None;
    loop {
        let (mut records, mut rust) = (Vec::new(), Vec::new());
        let (mut script, mut answers) = (4, 0);
        loop {
            let (next, answer) = kept.take().unwrap_or_else(|| record(&mut rnd, fault, counts));
            script += next.script_size();
            answers += next.answer_size();
            if script > FRAME || answers > FRAME {
                kept = Some((next, answer));
                break;
            }
            records.push(next);
            rust.extend_from_slice(&answer);
        }
        let mut said = ours.run(&frame(&records), rust.len());
        let mut at = 0;
        for r in records {
            let end = at + r.answer_size();
            let Some(answer) = said.get_mut(at..end) else { return Some(shrink(r, ours, fault)) };
            spoil(answer, fault);
            counts.note(answer);
            if !is_good(&r, answer, &rust[at..end]) {
                return Some(shrink(r, ours, fault));
            }
            at = end;
        }
        if counts.good >= sheets && counts.damaged >= sheets {
            return None;
        }
    }
}

/// Every place at which a sheet can be cut.
pub fn cuts(sheets: u64, seed: u64, ours: &mut Ours) -> Result<u64, Difference> {
    let mut rnd = Random::new(seed);
    let mut many = 0;
    for _ in 0..sheets {
        let whole = generate::bytes(&generate::sheet(&mut rnd));
        if whole.len() > 600 {
            continue;
        }
        for at in 0..=whole.len() {
            let sheet = whole[..at].to_vec();
            let room = rust_side::wave(&sheet, false).len();
            let record = Record { sheet, room };
            let (said, rust) = both(&record, ours, Fault::None);
            if !is_good(&record, &said, &rust) {
                return Err(shrink(record, ours, Fault::None));
            }
            many += 1;
        }
    }
    Ok(many)
}
