//! Tables of times: each line with the limit that is set for it, and whether that holds.

use std::hint::black_box;
use std::time::Instant;

/// What is asked of a line.
#[derive(Clone, Copy)]
pub enum Limit {
    None,
    /// At most so many times the Rust's time.
    Times(f64),
    /// At least so many times faster than the Rust.
    Faster(f64),
    /// At most so many nanoseconds.
    Within(f64),
}

/// Both sides' least times in nanoseconds, and whether they answered the same.
#[derive(Clone, Copy)]
pub struct Least {
    pub ours: f64,
    pub rust: f64,
    pub same: bool,
}

impl Least {
    /// The times of one of so many calls.
    pub fn per(self, many: usize) -> Least {
        Least { ours: self.ours / many as f64, rust: self.rust / many as f64, ..self }
    }
}

impl Limit {
    fn text(self) -> String {
        match self {
            Limit::None => "".into(),
            Limit::Times(x) => format!("at most {x} times the Rust's"),
            Limit::Faster(1.0) => "not slower".into(),
            Limit::Faster(x) => format!("{x} times faster"),
            Limit::Within(ns) => format!("at most {} ns", number(ns)),
        }
    }

    fn holds(self, ours: f64, rust: f64) -> Option<bool> {
        match self {
            Limit::None => None,
            Limit::Times(x) => Some(ours <= x * rust),
            Limit::Faster(x) => Some(x * ours <= rust),
            Limit::Within(ns) => Some(ours <= ns),
        }
    }
}

/// Three digits or so of a time.
pub fn number(ns: f64) -> String {
    if ns < 0.0 {
        format!("-{}", number(-ns))
    } else if ns < 100.0 {
        format!("{}", (ns * 100.0).round() / 100.0)
    } else {
        crate::tally::grouped(ns.round() as u64)
    }
}

/// The lines of all tables so far: ours by name, how many have a limit, how many of those hold, and whether both sides always answered the same.
pub struct Bench {
    ours: Vec<(String, f64)>,
    limits: u32,
    held: u32,
    same: bool,
}

/// Calls that are tested each time, and the same work where one test serves for many.
const PRICES: [(&str, &str, &str); 3] = [
    ("`contains` of a bit domain", "contains, another domain each time", "contains, one domain: one test for all"),
    ("a closing on 64 rows; once for a batch of 256", "one closing, no mark open", "by value, each closing"),
    ("`contains` of a sparse set of 4,096; inner work", "contains, half held", "contains, inner"),
];

impl Bench {
    pub fn new() -> Bench {
        Bench { ours: Vec::new(), limits: 0, held: 0, same: true }
    }

    /// Begins a table of both sides' times.
    pub fn table(&self, title: &str, what: &str) {
        println!();
        println!("{title}");
        println!();
        println!("| {what} | ours, ns | the Rust, ns | ours / the Rust | limit | holds |");
        println!("|---|---|---|---|---|---|");
    }

    pub fn row(&mut self, name: &str, least: Least, limit: Limit) {
        let Least { ours, rust, same } = least;
        let holds = limit.holds(ours, rust);
        self.limits += holds.is_some() as u32;
        self.held += (holds == Some(true)) as u32;
        self.same &= same;
        self.ours.push((name.to_string(), ours));
        let holds = holds.map_or("", |yes| if yes { "yes" } else { "**no**" });
        let differ = if same { "" } else { " THE ANSWERS DIFFER" };
        println!("| {name} | {} | {} | {} | {} | {holds}{differ} |", number(ours), number(rust), ratio(ours / rust), limit.text());
    }

    /// Begins a table of how a time grows: a column for each of the heads.
    pub fn growth(&self, title: &str, heads: &[String]) {
        println!();
        println!("{title}");
        println!();
        println!("| {} |", heads.join(" | "));
        println!("|{}", "---|".repeat(heads.len()));
    }

    pub fn line(&self, name: &str, times: &[f64]) {
        println!("| {name} | {} |", times.iter().map(|ns| number(*ns)).collect::<Vec<_>>().join(" | "));
    }

    /// The price of the checks, where the lines for it were printed.
    fn prices(&self) {
        let find = |name: &str| self.ours.iter().find(|line| line.0 == name).map(|line| line.1);
        let lines: Vec<(&str, [f64; 2])> = PRICES.iter().filter_map(|(what, each, once)| Some((*what, [find(each)?, find(once)?]))).collect();
        if !lines.is_empty() {
            self.growth("The price of the checks: ours in ns", &["call".into(), "checked each time".into(), "checked once for many".into()]);
            lines.iter().for_each(|(what, times)| self.line(what, times));
        }
    }

    pub fn end(self) -> bool {
        self.prices();
        println!();
        println!("differential: {} of {} limits hold; the sides {}", self.held, self.limits, if self.same { "answered the same" } else { "ANSWERED DIFFERENTLY" });
        self.same && self.held == self.limits
    }
}

fn ratio(r: f64) -> String {
    if r < 0.1 { format!("{r:.4}") } else { format!("{r:.2}") }
}

/// How long a call takes in nanoseconds, and what it answers.
pub fn time(f: &mut dyn FnMut() -> u64) -> (f64, u64) {
    let began = Instant::now();
    let said = black_box(f());
    (began.elapsed().as_nanos() as f64, said)
}

/// The least time of so many runs, and what the last one answered.
pub fn least_of(runs: usize, f: &mut dyn FnMut() -> u64) -> (f64, u64) {
    let (mut best, mut said) = (f64::MAX, 0);
    for _ in 0..runs {
        let (took, answer) = time(f);
        (best, said) = (best.min(took), answer);
    }
    (best, said)
}

/// The least times of both, taken in turns.
pub fn least(runs: usize, ours: &mut dyn FnMut() -> u64, rust: &mut dyn FnMut() -> u64) -> Least {
    let mut all = Least { ours: f64::MAX, rust: f64::MAX, same: true };
    for _ in 0..runs {
        let (x, p) = time(ours);
        let (y, q) = time(rust);
        all = Least { ours: all.ours.min(x), rust: all.rust.min(y), same: all.same && p == q };
    }
    all
}
