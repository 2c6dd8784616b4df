//! A sample through the program itself: the sheet on its standard input, then as a file that its argument names.

use super::generate;
use super::rust_side;
use crate::ours;
use crate::random::Random;
use std::io::Write;
use std::process::Stdio;

/// What the program writes, to both of its outputs.
fn answer(input: &[u8], argument: Option<&std::path::Path>) -> (Vec<u8>, Vec<u8>) {
    let mut child = ours::program("wave_main")
        .args(argument)
        .stdin(Stdio::piped())
        .stdout(Stdio::piped())
        .stderr(Stdio::piped())
        .spawn()
        .expect("the program runs");
    // a program that is given a file leaves its input unread
    let _ = child.stdin.take().unwrap().write_all(input);
    let out = child.wait_with_output().expect("the program ends");
    (out.stdout, out.stderr)
}

fn same(what: &str, sheet: &[u8], said: (Vec<u8>, Vec<u8>), wanted: &str) -> bool {
    let good = said.0 == wanted.as_bytes() && said.1.is_empty();
    if !good {
        println!("differential: THE PROGRAM DIFFERS on {what}");
        println!("    {:?}", String::from_utf8_lossy(sheet));
        println!("  the Rust: {wanted:?}");
        println!("  ours: {:?}, errors {:?}", String::from_utf8_lossy(&said.0), String::from_utf8_lossy(&said.1));
    }
    good
}

/// So many sheets, each both ways, and files that can't be read: how many times the program ran, if it never differed. It runs where
/// PROBE_BIN names the folder of the programs.
pub fn compare(seed: u64, runs: u64) -> Option<u64> {
    if std::env::var_os("PROBE_BIN").is_none() {
        println!("wave: the program itself isn't at hand");
        return Some(0);
    }
    let mut rnd = Random::new(seed);
    let file = std::env::temp_dir().join(format!("wave-sheet-{}", std::process::id()));
    let mut good = true;
    for run in 0..runs {
        let sheet = match run {
            0 => Vec::new(),
            1 => vec![b'0'; 32768],
            2 => vec![b'0'; 32769],
            3 => vec![b'0'; 100_000],
            _ if rnd.one_in(3) => generate::damaged(&mut rnd).0,
            _ => generate::bytes(&generate::sheet(&mut rnd)),
        };
        let wanted = rust_side::wave(&sheet, false);
        std::fs::write(&file, &sheet).expect("the sheet is written");
        good &= same("standard input", &sheet, answer(&sheet, None), &wanted);
        good &= same("a file", &sheet, answer(b"", Some(&file)), &wanted);
    }
    let _ = std::fs::remove_file(&file);
    // a file that isn't there, and a folder: a line of its own, and nothing on the standard output
    for path in [file.as_path(), std::path::Path::new("/")] {
        let (out, errors) = answer(b"0\n0\n0\n", Some(path));
        if !out.is_empty() || errors.iter().filter(|b| **b == b'\n').count() != 1 {
            println!("differential: THE PROGRAM DIFFERS on {path:?}: {:?}, errors {:?}", String::from_utf8_lossy(&out), String::from_utf8_lossy(&errors));
            good = false;
        }
    }
    if good {
        println!("wave: {runs} sheets through the program itself, each from standard input and from a file, and two files that can't be read: 0 differences");
    }
    good.then_some(2 * runs + 2)
}
