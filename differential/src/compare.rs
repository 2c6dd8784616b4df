//! The comparison of a part that goes by scripts: frame by frame, byte by byte, with every refusal of ours held to leave all as it was; and
//! on a difference, the shortest script that still shows one.

use crate::ours::{Ours, Part};
use crate::random::Random;
use crate::script::{ANSWER, Answer, Form, Record, frame, name};
use crate::tally::{self, ByNumber, Tally, grouped, some};
use std::time::Instant;

/// A fault made on purpose, to see that the comparison finds one.
#[derive(Clone, Copy, PartialEq, Eq, Debug)]
pub enum Fault {
    None,
    /// The Rust's side answers one call wrongly.
    Answer,
    /// The Rust's side leaves a wrong state.
    State,
    /// On both sides alike, so that their answers agree: a refusal that wrote a lent cell.
    Wrote,
    /// On both sides alike: a refusal that changed the state.
    Changed,
}

/// How often each call was run, and how often each rule of the paper stood in the Rust's place.
#[derive(Clone)]
pub struct Counts {
    pub calls: [u64; 256],
    pub rules: [u64; 16],
}

impl Counts {
    pub fn new() -> Self {
        Counts { calls: [0; 256], rules: [0; 16] }
    }

    pub fn by_rule(&self, names: &[&'static str]) -> Vec<(&'static str, u64)> {
        names.iter().copied().zip(self.rules).collect()
    }
}

/// A register that an answer shows: its number, and what it holds.
pub type Shown = Option<(usize, [u64; 4])>;

/// The Rust's side of a part, which also makes the scripts, and knows what the records and answers are.
pub trait Side: Sized {
    const NAME: &'static str;
    const PART: &'static Part;
    const FORM: Form;

    fn with(fault: Fault) -> Self;
    /// How often each call was run.
    fn calls(&self) -> &[u64; 256];
    /// How often each rule of the paper stood in the Rust's place, by its name.
    fn rules(&self) -> Vec<(&'static str, u64)>;
    /// A frame of scripts, with the Rust's answers to it.
    fn frame(&mut self, rnd: &mut Random) -> (Vec<Record>, Vec<u8>);
    /// Runs a record and writes its answer, with what stands behind it.
    fn run(&mut self, r: &Record, out: &mut Vec<u8>);
    /// The registers that an answer shows.
    fn shows(r: &Record, answer: &Answer) -> [Shown; 2];
    /// All registers that answers show, as a reset leaves them.
    fn fresh() -> Vec<[u64; 4]>;
    /// Whether the lent cells, those before and past the lent part among them, are as they were lent.
    fn is_blank(r: &Record, answer: &Answer, behind: &[u8]) -> bool;

    fn answer_size(r: &Record) -> usize {
        (Self::FORM.answer_size)(r)
    }

    fn by_call(&self) -> impl Iterator<Item = (&'static str, u64)> {
        Self::FORM.calls.iter().filter(|c| !c.1.starts_with('=')).map(|c| (c.1, self.calls()[c.0 as usize]))
    }

    /// How many calls were compared: what only sets or shows a register is none.
    fn compared(&self) -> u64 {
        self.by_call().map(|c| c.1).sum()
    }
}

/// What ours showed last of each register. A refused call must show the same again, and every lent cell as it was lent: this is the one
/// place where refusals are held to that, by the bytes that ours wrote and nothing else.
struct Watch {
    held: Vec<[u64; 4]>,
    refused: ByNumber,
}

impl Watch {
    fn new<S: Side>() -> Watch {
        Watch { held: S::fresh(), refused: ByNumber::default() }
    }

    /// Takes note of what ours answered to a record: false if it is a refusal that left something else than it was given.
    fn keeps<S: Side>(&mut self, r: &Record, bytes: &[u8]) -> bool {
        let answer = Answer::read(bytes);
        if r.op == 0 {
            self.held = S::fresh();
        }
        let mut same = true;
        for (register, words) in S::shows(r, &answer).into_iter().flatten() {
            same &= self.held[register] == words;
            self.held[register] = words;
        }
        if !answer.is_refused() {
            return true;
        }
        self.refused[answer.number as usize % 16] += 1;
        same && S::is_blank(r, &answer, &bytes[ANSWER..])
    }
}

#[derive(Clone, Copy, PartialEq, Eq, Debug)]
pub enum Why {
    Answers,
    Refusal,
}

/// The first record whose answers differ, or whose refusal left something changed.
fn first<S: Side>(script: &[Record], ours: &[u8], rust: &[u8], watch: &mut Watch) -> Option<(usize, Why)> {
    let mut at = 0;
    for (i, r) in script.iter().enumerate() {
        let end = at + S::answer_size(r);
        if ours.get(at..end) != rust.get(at..end) {
            return Some((i, Why::Answers));
        }
        if !watch.keeps::<S>(r, &ours[at..end]) {
            return Some((i, Why::Refusal));
        }
        at = end;
    }
    (ours.len() != rust.len()).then_some((script.len().saturating_sub(1), Why::Answers))
}

/// The faults that both sides have alike.
fn spoil<S: Side>(script: &[Record], answers: &mut [u8], fault: Fault) {
    if !matches!(fault, Fault::Wrote | Fault::Changed) {
        return;
    }
    let mut at = 0;
    for r in script {
        let end = at + S::answer_size(r);
        if Answer::read(&answers[at..end]).is_refused() {
            let behind = at + ANSWER;
            match fault {
                Fault::Changed => answers[at + 40] ^= 1,
                _ if behind < end => answers[(behind + end) / 2] ^= 1,
                _ => {}
            }
        }
        at = end;
    }
}

/// The answers of both sides to one script, which is run in a frame of its own.
fn both<S: Side>(script: &[Record], ours: &mut Ours, fault: Fault) -> (Vec<u8>, Vec<u8>) {
    let mut side = S::with(fault);
    let mut rust = Vec::new();
    for r in script {
        side.run(r, &mut rust);
    }
    let size = rust.len() + ANSWER * (S::FORM.frame - script.len());
    let mut said = ours.run(&frame(script, S::FORM.frame), size);
    said.truncate(rust.len());
    spoil::<S>(script, &mut said, fault);
    spoil::<S>(script, &mut rust, fault);
    (said, rust)
}

/// The script up to the record that shows a difference, if one does.
fn up_to<S: Side>(mut script: Vec<Record>, ours: &mut Ours, fault: Fault) -> Option<Vec<Record>> {
    let (a, b) = both::<S>(&script, ours, fault);
    let (at, _) = first::<S>(&script, &a, &b, &mut Watch::new::<S>())?;
    script.truncate(at + 1);
    Some(script)
}

/// Drops records while a difference stays, the later ones first.
fn dropped<S: Side>(mut script: Vec<Record>, ours: &mut Ours, fault: Fault) -> Vec<Record> {
    let mut step = script.len() / 2;
    while step > 0 {
        let mut at = script.len();
        while at > 0 {
            let from = at.saturating_sub(step);
            let mut shorter = script.clone();
            shorter.drain(from..at.min(script.len()));
            if let Some(shorter) = up_to::<S>(shorter, ours, fault) {
                script = shorter;
            }
            at = from.min(script.len());
        }
        step /= 2;
    }
    script
}

/// What makes a record plainer.
const PLAINER: &[fn(&mut Record)] = &[
    |r| r.hi = r.hi.saturating_sub(1),
    |r| (r.lo, r.hi) = (0, 0),
    |r| r.v = 0,
    |r| r.w = 0,
    |r| (r.v, r.w) = (0, r.w.wrapping_sub(r.v)),
    |r| r.n = 0,
    |r| r.a = 0,
    |r| r.b = 0,
];

/// Makes the numbers plain while a difference stays.
fn plainer<S: Side>(mut script: Vec<Record>, ours: &mut Ours, fault: Fault) -> Vec<Record> {
    for i in (0..script.len()).rev() {
        for plain in PLAINER {
            let Some(now) = script.get(i) else { continue };
            let mut simpler = *now;
            plain(&mut simpler);
            if simpler != *now {
                let mut other = script.clone();
                other[i] = simpler;
                script = up_to::<S>(other, ours, fault).unwrap_or(script);
            }
        }
    }
    script
}

fn shrink<S: Side>(mut script: Vec<Record>, ours: &mut Ours, fault: Fault) -> Vec<Record> {
    loop {
        let shorter = plainer::<S>(dropped::<S>(script.clone(), ours, fault), ours, fault);
        if shorter.len() == script.len() {
            return shorter;
        }
        script = shorter;
    }
}

/// The shortest script found that shows a difference, and both answers to its record that does.
pub struct Difference {
    pub script: Vec<Record>,
    pub at: usize,
    pub why: Why,
    ours: Vec<u8>,
    rust: Vec<u8>,
}

fn explain<S: Side>(script: Vec<Record>, ours: &mut Ours, fault: Fault) -> Difference {
    let script = shrink::<S>(script, ours, fault);
    let (a, b) = both::<S>(&script, ours, fault);
    let (at, why) = first::<S>(&script, &a, &b, &mut Watch::new::<S>()).expect("a difference that stays");
    let start: usize = script[..at].iter().map(|r| S::answer_size(r)).sum();
    let end = start + S::answer_size(&script[at]);
    Difference { at, why, ours: a[start..end.min(a.len())].to_vec(), rust: b[start..end].to_vec(), script }
}

impl Difference {
    fn print<S: Side>(&self) {
        match self.why {
            Why::Answers => println!("the shortest script found that shows a difference:"),
            Why::Refusal => println!("the shortest script found with a refusal that left a cell or the state changed:"),
        }
        for r in &self.script {
            println!("    {}", (S::FORM.text)(r));
        }
        let r = &self.script[self.at];
        for (who, bytes) in [("the Rust", &self.rust), ("ours", &self.ours)] {
            if bytes.len() < ANSWER {
                println!("  {who}: no whole answer");
            } else {
                println!("  {who}: {}", (S::FORM.said)(r, &Answer::read(bytes), &bytes[ANSWER..]));
            }
        }
    }
}

/// Compares frames from a seed on until it is enough. The counts stay in `side`; refusals of ours are counted by number.
fn run<S: Side>(seed: u64, fault: Fault, ours: &mut Ours, side: &mut S, enough: impl Fn(&S) -> bool) -> (Option<Difference>, ByNumber) {
    let mut rnd = Random::new(seed);
    let mut refused = ByNumber::default();
    loop {
        let (records, mut rust) = side.frame(&mut rnd);
        let mut said = ours.run(&frame(&records, S::FORM.frame), rust.len());
        spoil::<S>(&records, &mut said, fault);
        spoil::<S>(&records, &mut rust, fault);
        let mut watch = Watch::new::<S>();
        let bad = first::<S>(&records, &said, &rust, &mut watch);
        refused.iter_mut().zip(watch.refused).for_each(|(sum, n)| *sum += n);
        if let Some((bad, _)) = bad {
            let from = records[..=bad].iter().rposition(|r| r.op == 0).unwrap_or(0);
            return (Some(explain::<S>(records[from..=bad].to_vec(), ours, fault)), refused);
        }
        if enough(side) {
            return (None, refused);
        }
    }
}

/// Compares from a seed on until it is enough, and prints what was compared; `more` prints what a part has besides.
pub fn compare<S: Side>(seed: u64, enough: impl Fn(&S) -> bool, more: impl Fn(&S)) -> Tally {
    let mut ours = Ours::start(S::PART);
    let mut side = S::with(Fault::None);
    let began = Instant::now();
    println!("{}: seed {seed}, ours {}", S::NAME, ours.place());
    let (found, refused) = run(seed, Fault::None, &mut ours, &mut side, enough);
    let seconds = began.elapsed().as_secs_f64();
    let (calls, rules) = (side.compared(), side.rules());
    tally::by_call(side.by_call());
    for (name, many) in &rules {
        println!("{}: by the paper and not by the Rust: {name}: {} calls", S::NAME, grouped(*many));
    }
    println!("{}: refused by ours, by number, each with every cell and the state as before: {}", S::NAME, tally::by_number(&refused));
    more(&side);
    match &found {
        None => println!("differential: {}: {} calls compared, 0 differences (seed {seed}, ours {}, {seconds:.1} s)", S::NAME, grouped(calls), ours.place()),
        Some(d) => {
            d.print::<S>();
            println!("differential: {}: A DIFFERENCE after {} calls (seed {seed})", S::NAME, grouped(calls));
        }
    }
    Tally { part: S::NAME, seed, calls, refused, rules, differences: found.is_some() as u64, seconds }
}

/// So many frames of scripts from a seed, in bytes, and the Rust's answers to them.
pub fn sample<S: Side>(side: &mut S, seed: u64, frames: u64) -> (Vec<u8>, Vec<u8>) {
    let mut rnd = Random::new(seed);
    let (mut scripts, mut answers) = (Vec::new(), Vec::new());
    for _ in 0..frames {
        let (records, rust) = side.frame(&mut rnd);
        scripts.extend_from_slice(&frame(&records, S::FORM.frame));
        answers.extend_from_slice(&rust);
    }
    (scripts, answers)
}

/// The seed from which samples are recorded.
pub const RECORDED: u64 = 20261115;

/// A sample to record.
pub fn record<S: Side>(frames: u64) -> (Vec<u8>, Vec<u8>) {
    sample(&mut S::with(Fault::None), RECORDED, frames)
}

/// The comparison must find a fault that is made on purpose, and cut it down to a few records, of which the one that shows it makes this call,
/// where one is named.
pub fn finds<S: Side>(fault: Fault, call: &str, most: usize, what: &str) -> bool {
    let why = if matches!(fault, Fault::Wrote | Fault::Changed) { Why::Refusal } else { Why::Answers };
    let mut ours = Ours::start(S::PART);
    let (found, _) = run(1, fault, &mut ours, &mut S::with(fault), |side| side.compared() >= 1_000_000);
    match found {
        Some(d) if d.script.len() <= most && d.why == why && [name(S::FORM.calls, d.script[d.at].op), ""].contains(&call) => {
            println!("differential: {}: a fault made on purpose, {what}, is found and cut down to {}", S::NAME, some(d.script.len(), "record"));
            true
        }
        Some(d) => {
            d.print::<S>();
            println!("differential: {}: a fault made on purpose, {what}, is found, and NOT CUT DOWN", S::NAME);
            false
        }
        None => {
            println!("differential: {}: A FAULT MADE ON PURPOSE, {what}, IS NOT FOUND", S::NAME);
            false
        }
    }
}

/// The two faults that no answer of the Rust's shows: a refusal that wrote, and one that changed what it was given.
pub fn finds_refusals<S: Side>(most: usize) -> bool {
    finds::<S>(Fault::Wrote, "", most, "a refusal that wrote a lent cell") && finds::<S>(Fault::Changed, "", most, "a refusal that changed the state")
}
