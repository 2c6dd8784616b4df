//! What a comparison came to, and the one table that a run of them ends in.

/// The paper's refusals have the numbers 1 to 15.
pub type ByNumber = [u64; 16];

/// What became of one part.
pub struct Tally {
    pub part: &'static str,
    pub seed: u64,
    pub calls: u64,
    /// Refusals that ours answered, by number. Each of them was held to leave every cell and the state as they were.
    pub refused: ByNumber,
    /// How often a rule of the paper stood in the Rust's place, by the rule's name.
    pub rules: Vec<(&'static str, u64)>,
    pub differences: u64,
    pub seconds: f64,
}

impl Tally {
    pub fn is_good(&self) -> bool {
        self.differences == 0
    }
}

/// A number in groups of three digits.
pub fn grouped(n: u64) -> String {
    let digits = n.to_string();
    let mut out = String::new();
    for (i, d) in digits.chars().enumerate() {
        if i > 0 && (digits.len() - i) % 3 == 0 {
            out.push(',');
        }
        out.push(d);
    }
    out
}

/// So many of something, in words.
pub fn some(many: usize, what: &str) -> String {
    format!("{many} {what}{}", if many == 1 { "" } else { "s" })
}

/// Those of the counts that aren't 0, each behind its name.
pub fn list(counts: impl Iterator<Item = (String, u64)>) -> String {
    let said: Vec<String> = counts.filter(|c| c.1 > 0).map(|(name, many)| format!("{name}: {}", grouped(many))).collect();
    if said.is_empty() { "none".into() } else { said.join("; ") }
}

pub fn by_number(refused: &ByNumber) -> String {
    list(refused.iter().enumerate().map(|(k, n)| (k.to_string(), *n)))
}

/// The counts by call, some to a line.
pub fn by_call(counts: impl Iterator<Item = (&'static str, u64)>) {
    for row in counts.collect::<Vec<_>>().chunks(4) {
        println!("{}", row.iter().map(|(name, many)| format!("{name:>25} {:>11}", grouped(*many))).collect::<String>());
    }
}

/// The result table, as docs/DIFFERENCES.md has it.
pub fn print(tallies: &[Tally]) {
    println!();
    println!("| part | seed | calls | refused by ours, by number | the paper in the Rust's place, by rule | differences | seconds |");
    println!("|---|---|---|---|---|---|---|");
    for t in tallies {
        let rules = list(t.rules.iter().map(|(name, many)| (name.to_string(), *many)));
        println!("| {} | {} | {} | {} | {rules} | {} | {:.0} |", t.part, t.seed, grouped(t.calls), by_number(&t.refused), t.differences, t.seconds);
    }
    let mut refused = ByNumber::default();
    for t in tallies {
        refused.iter_mut().zip(t.refused).for_each(|(sum, n)| *sum += n);
    }
    let calls = tallies.iter().map(|t| t.calls).sum();
    let rules = tallies.iter().flat_map(|t| &t.rules).map(|r| r.1).sum();
    let differences: u64 = tallies.iter().map(|t| t.differences).sum();
    let seconds: f64 = tallies.iter().map(|t| t.seconds).sum();
    if tallies.len() > 1 {
        println!("| all | | {} | {} | {} | {differences} | {seconds:.0} |", grouped(calls), by_number(&refused), grouped(rules));
    }
    println!();
    println!("differential: {} calls, {} of them refused, {differences} differences, {seconds:.0} s", grouped(calls), grouped(refused.iter().sum()));
}
