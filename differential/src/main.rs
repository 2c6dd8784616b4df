//! Compares the proved calls with the original, and measures them against it, part by part.
//!
//! differential quick [PART]                     a minute's comparison, and the comparison tried on faults made on purpose
//! differential long [PART [CALLS [SEED]]]       the long one
//! differential record PART FOLDER [FRAMES]      a sample for a replaying program: its scripts to FOLDER/stdin, the Rust's answers to FOLDER/stdout
//! differential speed [PART]                     times of both sides (built with the feature `linked`)

#[cfg(feature = "linked")]
mod bench;
mod board;
mod compare;
mod domain;
mod hand;
mod ours;
mod random;
mod script;
mod sparse;
mod tally;
mod wave;

use tally::Tally;

const PARTS: [&str; 5] = ["domain", "board", "sparse", "hand", "wave"];

fn number(word: Option<&String>) -> Option<u64> {
    word.map(|w| w.replace(['_', ','], "").parse().expect("a number"))
}

fn usage() -> ! {
    eprintln!("usage: differential quick [PART] | long [PART [CALLS [SEED]]] | record PART FOLDER [FRAMES] | speed [PART]");
    eprintln!("parts: {}", PARTS.join(" "));
    std::process::exit(2);
}

/// Faults made on purpose, each of which must be found.
fn finds_faults(part: &str) -> bool {
    match part {
        "domain" => domain::quick(),
        "board" => board::quick(),
        "sparse" => sparse::quick(),
        "hand" => hand::quick(),
        "wave" => wave::quick(),
        _ => usage(),
    }
}

/// The comparison that the gate makes.
fn quick(part: &str) -> Tally {
    let seed = 7;
    match part {
        "domain" => domain::compare(5_000_000, seed),
        "board" => board::compare(100_000, 10_000, seed),
        "sparse" => sparse::compare(400_000, seed),
        "hand" => hand::compare(1_000_000, 20_000, seed),
        "wave" => wave::compare(10_000, 5, 8, seed),
        _ => usage(),
    }
}

/// The long one, of as many calls as the part owes, or of so many.
fn long(part: &str, calls: Option<u64>, seed: u64) -> Tally {
    match part {
        "domain" => domain::compare(calls.unwrap_or(10_000_000), seed),
        "board" => board::compare(calls.unwrap_or(6_000_000), 1_000_000, seed),
        "sparse" => sparse::compare(calls.unwrap_or(5_000_000), seed),
        "hand" => hand::compare(calls.unwrap_or(1_000_000), calls.unwrap_or(1_000_000) / 10, seed),
        "wave" => wave::compare(calls.unwrap_or(1_000_000), 2_000, 200, seed),
        _ => usage(),
    }
}

fn record(part: &str, folder: &str, frames: u64) -> bool {
    let (scripts, answers) = match part {
        "domain" => domain::record(frames),
        "board" => board::record(frames),
        "sparse" => sparse::record(frames),
        _ => usage(),
    };
    println!("{} records, {} bytes of answers", scripts.len() / script::RECORD, answers.len());
    let folder = std::path::Path::new(folder);
    std::fs::write(folder.join("stdin"), scripts).expect("the scripts are written");
    std::fs::write(folder.join("stdout"), answers).expect("the answers are written");
    true
}

#[cfg(feature = "linked")]
fn speed(words: Option<&String>) -> bool {
    let mut bench = bench::Bench::new();
    for part in named(words) {
        match part {
            "domain" => domain::speed(&mut bench),
            "board" => board::speed(&mut bench),
            "sparse" => sparse::speed(&mut bench),
            "hand" => hand::speed(&mut bench),
            "wave" => wave::speed(&mut bench),
            _ => usage(),
        }
    }
    bench.end()
}

/// The part that is named, or all of them.
fn named(word: Option<&String>) -> Vec<&str> {
    match word {
        Some(part) => vec![part],
        None => PARTS.to_vec(),
    }
}

/// Each part in turn, also after one that differs, and then the table of all.
fn in_turn(word: Option<&String>, run: impl Fn(&str) -> Tally) -> bool {
    let tallies: Vec<Tally> = named(word).into_iter().map(run).collect();
    tally::print(&tallies);
    tallies.iter().all(Tally::is_good)
}

fn main() {
    let words: Vec<String> = std::env::args().skip(1).collect();
    let good = match words.first().map(String::as_str) {
        Some("quick") => ours::guard_finds() && named(words.get(1)).into_iter().all(finds_faults) && in_turn(words.get(1), quick),
        Some("long") => in_turn(words.get(1), |part| long(part, number(words.get(2)), number(words.get(3)).unwrap_or(11))),
        Some("record") => record(words.get(1).unwrap_or_else(|| usage()), words.get(2).unwrap_or_else(|| usage()), number(words.get(3)).unwrap_or(4)),
        #[cfg(feature = "linked")]
        Some("speed") => speed(words.get(1)),
        _ => usage(),
    };
    std::process::exit(if good { 0 } else { 1 });
}
