//! Times of the whole wave, text in and text out, and of reading alone, on both sides: the same sheets, minima of many runs.

use super::reader::{self, Sheet};
use super::rust_side;
use crate::bench::{Bench, Least, Limit, least_of};
use crate::random::Random;
use std::hint::black_box;

unsafe extern "C" {
    fn bench_wave(sheet: *const u8, sheet_len: usize, out: *mut u8, out_len: usize) -> usize;
    fn bench_read(text: *const u8, text_len: usize, pick: usize) -> u64;
}

fn ours(sheet: &[u8], out: &mut [u8]) -> usize {
    unsafe { bench_wave(sheet.as_ptr(), sheet.len(), out.as_mut_ptr(), out.len()) }
}

/// So many destinations of so many chutes, closings, and lists, of which `listed` gives the lengths in turn.
struct Shape<'a> {
    destinations: usize,
    chutes: u64,
    closings: usize,
    lists: usize,
    listed: &'a [usize],
}

const FULL: Shape = Shape { destinations: 64, chutes: 128, closings: 256, lists: 16, listed: &[6] };

fn sheet(rnd: &mut Random, s: &Shape) -> Vec<u8> {
    let rows = s.destinations;
    let mut text = format!("{rows}\n");
    for k in 0..rows {
        let min = 100 + rnd.below(40);
        text += &format!("{} {min} {}\n", 1000 + k, min + s.chutes - 1);
    }
    text += &format!("{}\n", s.closings);
    for _ in 0..s.closings {
        let value = 100 + rnd.below(40 + s.chutes);
        let kind = if rnd.one_in(64) { 2 } else { 1 };
        text += &format!("{kind} {} {value}\n", 1000 + rnd.below(rows as u64));
    }
    text += &format!("{}\n", s.lists);
    for k in 0..s.lists {
        let many = s.listed[k % s.listed.len()].min(rows);
        text += &many.to_string();
        for j in 0..many {
            text += &format!(" {}", 1000 + (k * 4 + j) % rows);
        }
        text += "\n";
    }
    text.into_bytes()
}

/// The whole wave of a sheet, on both sides.
fn wave(text: &[u8], runs: usize) -> Least {
    let wanted = rust_side::wave(text, false);
    let mut out = vec![0u8; 4096];
    let n = ours(text, &mut out);
    let same = &out[..n] == wanted.as_bytes();
    let (a, _) = least_of(runs, &mut || ours(black_box(text), black_box(&mut out)) as u64);
    let (b, _) = least_of(200, &mut || rust_side::wave(black_box(text), false).len() as u64);
    Least { ours: a, rust: b, same }
}

fn ratios(bench: &mut Bench) {
    let mut rnd = Random::new(9);
    bench.table("The wave, text in and text out: 64 destinations, 256 closings, 16 lists; the least of 4,000 runs of ours and of 200 of the Rust", "lists");
    let (faster, ten) = (Limit::Faster(1.0), Limit::Faster(10.0));
    for (name, chutes, listed, limit) in [
        ("of none, 64 chutes", 64, &[0][..], faster),
        ("of 6, 128 chutes", 128, &[6], ten),
        ("of 6, 16 chutes", 16, &[6], ten),
        ("of 7, 128 chutes", 128, &[7], faster),
        ("of 7, 16 chutes", 16, &[7], faster),
        ("of 64, 128 chutes", 128, &[64], faster),
        ("of 64, 70 chutes", 70, &[64], faster),
        ("of 0 to 64, mixed, 128 chutes", 128, &[0, 1, 2, 3, 5, 6, 7, 20, 64], faster),
    ] {
        let text = sheet(&mut rnd, &Shape { chutes, listed, ..FULL });
        bench.row(&format!("{name}, {} bytes", text.len()), wave(&text, 4000), limit);
    }
}

/// How the whole wave grows with each of the numbers that a sheet has.
fn growth(bench: &mut Bench) {
    let mut rnd = Random::new(13);
    let mut table = |title: &str, first: &str, numbers: &[usize], shape: &dyn Fn(usize) -> Shape<'static>| {
        let heads: Vec<String> = [first.to_string()].into_iter().chain(numbers.iter().map(|n| n.to_string())).collect();
        bench.growth(title, &heads);
        let took: Vec<Least> = numbers.iter().map(|n| wave(&sheet(&mut rnd, &shape(*n)), 2000)).collect();
        bench.line("ours", &took.iter().map(|l| l.ours).collect::<Vec<_>>());
        bench.line("the Rust", &took.iter().map(|l| l.rust).collect::<Vec<_>>());
    };
    table("The wave by destinations, no closings, no lists: ns", "destinations", &[0, 1, 8, 16, 32, 64], &|destinations| Shape { destinations, closings: 0, lists: 0, ..FULL });
    table("The wave by closings, 64 destinations, no lists: ns", "closings", &[0, 1, 16, 64, 128, 256], &|closings| Shape { closings, lists: 0, ..FULL });
    table("The wave by lists of 6, 64 destinations, no closings: ns", "lists", &[0, 1, 4, 8, 16], &|lists| Shape { closings: 0, lists, ..FULL });
    table("The wave by lists of 64, 64 destinations, no closings: ns", "lists", &[0, 1, 4, 8, 16], &|lists| Shape { closings: 0, lists, listed: &[64], ..FULL });
}

/// A sheet whose ids and chutes have these ends, with 16 lists of so many ids.
fn numbers(rnd: &mut Random, ids: u64, (low, high): (i64, i64), listed: usize) -> Vec<u8> {
    let id = |rnd: &mut Random| rnd.below(ids + 1);
    let chute = |rnd: &mut Random| low + rnd.below((high - low + 1) as u64) as i64;
    let mut text = String::from("64\n");
    for _ in 0..64 {
        text += &format!("{} {} {}\n", id(rnd), chute(rnd), chute(rnd));
    }
    text += "256\n";
    for _ in 0..256 {
        text += &format!("{} {} {}\n", 1 + rnd.below(4), id(rnd), chute(rnd));
    }
    text += "16\n";
    for _ in 0..16 {
        text += &listed.to_string();
        for _ in 0..listed {
            text += &format!(" {}", id(rnd));
        }
        text += "\n";
    }
    text.into_bytes()
}

/// What `bench_read` answers of the rows that are picked, by the comparison's own reader.
fn picked(sheet: &Sheet, bytes: usize, pick: usize) -> u64 {
    let sign = |x: i32| (x < 0) as u64;
    let (id, min, max) = sheet.destinations[pick % 64];
    let (kind, closed, value) = sheet.closings[pick % 256];
    let list = pick % 16;
    let start: usize = sheet.lists[..list].iter().map(Vec::len).sum();
    let listed: Vec<u32> = sheet.lists.concat();
    let rows = id as u64 ^ sign(min) ^ sign(max) ^ kind as u64 ^ closed as u64 ^ sign(value);
    rows ^ (64 ^ 256 ^ 16) ^ start as u64 ^ sheet.lists[list].len() as u64 ^ listed[pick] as u64 ^ bytes as u64
}

fn reading(bench: &mut Bench) {
    const I32: (i64, i64) = (i32::MIN as i64, i32::MAX as i64);
    let mut rnd = Random::new(17);
    bench.table("Reading a sheet, per byte: 16 sheets of 64 destinations, 256 closings and 16 lists in turns; the least of 400 runs; beside it the comparison's own reader", "sheet");
    for (name, ids, chutes, listed) in [
        ("ids of any u32, chutes of any i32, lists of 64", u32::MAX as u64, I32, 64),
        ("the same, lists of 6", u32::MAX as u64, I32, 6),
        ("ids to 99,999, chutes to 9,999 and -9,999, lists of 64", 99_999, (-9_999, 9_999), 64),
        ("ids to 99, chutes to 127 and -127, lists of 64", 99, (-127, 127), 64),
        ("ids to 99, chutes to 127 and -127, lists of 6", 99, (-127, 127), 6),
        ("ids to 99, chutes 0 to 127, lists of 64", 99, (0, 127), 64),
        ("ids to 99, chutes 0 to 127, lists of 6", 99, (0, 127), 6),
    ] {
        let sheets: Vec<Vec<u8>> = (0..16).map(|_| numbers(&mut rnd, ids, chutes, listed)).collect();
        let bytes: usize = sheets.iter().map(Vec::len).sum();
        let read = |text: &[u8], pick: usize| unsafe { bench_read(text.as_ptr(), text.len(), pick) };
        let same = sheets.iter().all(|s| (0..96).all(|pick| read(s, pick) == picked(&reader::read(s, false).unwrap(), s.len(), pick)));
        let (ours, _) = least_of(400, &mut || black_box(&sheets).iter().enumerate().fold(0, |sum, (k, s)| sum ^ read(s, 5 * k)));
        let (rust, _) = least_of(100, &mut || black_box(&sheets).iter().map(|s| black_box(reader::read(s, false)).map_or(0, |r| r.lists.len() as u64)).sum());
        bench.row(&format!("{name}, {} bytes", bytes / 16), Least { ours, rust, same }.per(bytes), Limit::Within(4.0));
    }
}

pub fn run(bench: &mut Bench) {
    reading(bench);
    ratios(bench);
    growth(bench);
}
