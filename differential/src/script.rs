//! What the parts that go by scripts of records have in common: a record and an answer in bytes and words (FORMAT.md).

pub const RECORD: usize = 32;
pub const ANSWER: usize = 64;

#[derive(Clone, Copy, PartialEq, Eq, Debug)]
pub struct Record {
    pub op: u8,
    pub a: usize,
    pub b: usize,
    pub v: i32,
    pub w: i32,
    pub n: u32,
    pub lo: u64,
    pub hi: u64,
}

/// A signed number as its distance from the least i32.
pub fn bits(v: i32) -> u32 {
    v as u32 ^ 0x8000_0000
}

pub fn signed(bits: u32) -> i32 {
    (bits ^ 0x8000_0000) as i32
}

pub fn pair(low: u32, high: u32) -> u64 {
    low as u64 | (high as u64) << 32
}

/// A mask from its two words: offsets 0 to 63, then 64 to 127.
pub fn mask_of(lo: u64, hi: u64) -> u128 {
    lo as u128 | (hi as u128) << 64
}

pub fn mask_words(mask: u128) -> (u64, u64) {
    (mask as u64, (mask >> 64) as u64)
}

/// The mask of a universe of so many values, all of them held.
pub fn full(width: i64) -> u128 {
    if width >= 128 { u128::MAX } else if width <= 0 { 0 } else { (1u128 << width) - 1 }
}

/// The nearest i32.
pub fn clamp(x: i64) -> i32 {
    x.clamp(i32::MIN as i64, i32::MAX as i64) as i32
}

pub fn mask_text(mask: u128) -> String {
    format!("{:#x}:{:016x}", (mask >> 64) as u64, mask as u64)
}

impl Record {
    pub fn new(op: u8) -> Self {
        Record { op, a: 0, b: 0, v: 0, w: 0, n: 0, lo: 0, hi: 0 }
    }

    pub fn put(&self, out: &mut Vec<u8>) {
        out.extend_from_slice(&[self.op, self.a as u8, self.b as u8, 0]);
        out.extend_from_slice(&bits(self.v).to_le_bytes());
        out.extend_from_slice(&bits(self.w).to_le_bytes());
        out.extend_from_slice(&self.n.to_le_bytes());
        out.extend_from_slice(&self.lo.to_le_bytes());
        out.extend_from_slice(&self.hi.to_le_bytes());
    }

    pub fn mask(&self) -> u128 {
        mask_of(self.lo, self.hi)
    }

    pub fn set_mask(&mut self, mask: u128) {
        (self.lo, self.hi) = mask_words(mask);
    }

    /// Four numbers from the mask's bytes.
    pub fn four(&self) -> [u32; 4] {
        std::array::from_fn(|i| (self.mask() >> (32 * i)) as u32)
    }
}

/// What a part's records and answers look like.
pub struct Form {
    /// How many records a frame has.
    pub frame: usize,
    /// The calls by number, with their names. Those whose name begins with '=' only set or show a register.
    pub calls: &'static [(u8, &'static str)],
    /// How many bytes the answer to a record takes.
    pub answer_size: fn(&Record) -> usize,
    /// A record, and an answer with what stands behind it, in words.
    pub text: fn(&Record) -> String,
    pub said: fn(&Record, &Answer, &[u8]) -> String,
}

/// The name of a call, of those that a part has by number.
pub fn name(calls: &[(u8, &'static str)], op: u8) -> &'static str {
    calls.iter().find(|c| c.0 == op).map_or("?", |c| c.1)
}

/// The bytes of a frame: the records, and as many resets as are wanted to fill it.
pub fn frame(records: &[Record], many: usize) -> Vec<u8> {
    let mut out = Vec::with_capacity(many * RECORD);
    for r in records {
        r.put(&mut out);
    }
    let reset = Record::new(0);
    while out.len() < many * RECORD {
        reset.put(&mut out);
    }
    out
}

/// An answer in words.
#[derive(Clone, Copy, PartialEq, Eq, Default)]
pub struct Answer {
    pub kind: u64,
    pub number: u64,
    pub count: u64,
    pub value: u64,
    pub lo: u64,
    pub hi: u64,
    /// The register that the call leaves, in three words.
    pub left: [u64; 3],
}

/// The kind of an answer that refuses.
const REFUSED: u64 = 255;

impl Answer {
    pub fn put(&self, op: u8, out: &mut Vec<u8>) {
        let head = op as u64 | self.kind << 8 | self.number << 16;
        for w in [head, self.count, self.value, self.lo, self.hi].iter().chain(&self.left) {
            out.extend_from_slice(&w.to_le_bytes());
        }
    }

    pub fn read(bytes: &[u8]) -> Answer {
        let word = |i: usize| u64::from_le_bytes(bytes[8 * i..8 * i + 8].try_into().unwrap());
        Answer {
            kind: word(0) >> 8 & 255,
            number: word(0) >> 16,
            count: word(1),
            value: word(2),
            lo: word(3),
            hi: word(4),
            left: [word(5), word(6), word(7)],
        }
    }

    pub fn is_refused(&self) -> bool {
        self.kind == REFUSED
    }

    pub fn mask(&self) -> u128 {
        mask_of(self.lo, self.hi)
    }

    /// What is said in every part in the same way; a part's own kinds come first.
    pub fn said(&self) -> String {
        let value = signed(self.value as u32);
        match self.kind {
            0 => "nothing to tell".into(),
            1 => "done".into(),
            2 => if self.value == 1 { "yes".into() } else { "no".into() },
            3 => format!("count {}", self.count),
            4 => format!("value {value}"),
            5 => "made".into(),
            6 => format!("mask {}", mask_text(self.mask())),
            7 => format!("state {} of size {}", mask_text(self.mask()), self.count),
            8 => format!("cursor {} over {value}", mask_text(self.mask())),
            9 => format!("next {value}"),
            10 => "no more".into(),
            11 => format!("({}, {})", self.value == 1, self.count == 1),
            12 => format!("from {value} to {}", signed(self.lo as u32)),
            13 => format!("a cursor at {}", self.count),
            14 => format!("id {}", self.count),
            REFUSED => format!("refused {} at {}", self.number, self.count),
            k => format!("kind {k}"),
        }
    }
}

pub fn refused_at(number: u64, place: u64) -> Answer {
    Answer { kind: REFUSED, number, count: place, ..Answer::default() }
}

pub fn refused(number: u64) -> Answer {
    refused_at(number, 0)
}

pub fn done() -> Answer {
    Answer { kind: 1, ..Answer::default() }
}

pub fn told(yes: bool) -> Answer {
    Answer { kind: 2, value: yes as u64, ..Answer::default() }
}

pub fn counted(n: usize) -> Answer {
    Answer { kind: 3, count: n as u64, ..Answer::default() }
}

pub fn valued(kind: u64, v: i32) -> Answer {
    Answer { kind, value: bits(v) as u64, ..Answer::default() }
}

pub fn masked(mask: u128) -> Answer {
    let (lo, hi) = mask_words(mask);
    Answer { kind: 6, lo, hi, ..Answer::default() }
}

/// A cursor over a mask's values.
pub fn cursor(mask: u128, min: i32) -> Answer {
    Answer { kind: 8, value: bits(min) as u64, ..masked(mask) }
}

pub fn no_more() -> Answer {
    Answer { kind: 10, ..Answer::default() }
}
