//! Sheets from a seed: good ones, most of them small and with chutes that collide, and damaged ones.

use crate::random::Random;

/// Lines of words: what a sheet is before it is bytes.
pub type Lines = Vec<Vec<String>>;

pub fn bytes(lines: &Lines) -> Vec<u8> {
    let mut text = Vec::new();
    for line in lines {
        text.extend_from_slice(line.join(" ").as_bytes());
        text.push(b'\n');
    }
    text
}

const CHUTE_ENDS: [i64; 8] = [i32::MIN as i64, i32::MIN as i64 + 1, i32::MIN as i64 + 127, -1, 0, 127, i32::MAX as i64 - 128, i32::MAX as i64];
const ID_ENDS: [u64; 6] = [0, 9, 10, 1023, 2147483648, 4294967295];

struct Shape {
    destinations: u64,
    closings: u64,
    lists: u64,
    listed: u64,
    chutes: u64,
}

fn shape(rnd: &mut Random) -> Shape {
    match rnd.below(64) {
        0 => Shape { destinations: 64, closings: 256, lists: 16, listed: rnd.pick(&[6, 7, 64]), chutes: 8 },
        1 => Shape { destinations: rnd.below(65), closings: rnd.below(257), lists: rnd.below(17), listed: rnd.below(65), chutes: 128 },
        2..6 => Shape { destinations: rnd.below(20), closings: rnd.below(30), lists: rnd.below(6), listed: rnd.below(12), chutes: 12 },
        6 => Shape { destinations: 0, closings: rnd.below(2), lists: rnd.below(2), listed: 0, chutes: 1 },
        _ => Shape { destinations: 1 + rnd.below(7), closings: rnd.below(6), lists: rnd.below(4), listed: rnd.below(8), chutes: 1 + rnd.below(6) },
    }
}

/// The two ends of a universe: near 1 in most, else at an end of i32, reversed, too wide, or of 127 to 129 values.
fn ends(rnd: &mut Random, chutes: u64) -> (i64, i64) {
    match rnd.below(24) {
        0 => {
            let min = rnd.pick(&CHUTE_ENDS);
            (min, (min + rnd.below(130) as i64).min(i32::MAX as i64))
        }
        1 => (rnd.pick(&CHUTE_ENDS), rnd.pick(&CHUTE_ENDS)),
        2 => {
            let min = rnd.below(9) as i64 - 4;
            (min, min + 125 + rnd.below(5) as i64)
        }
        3 => (rnd.below(chutes + 3) as i64, -(rnd.below(3) as i64)),
        _ => {
            let min = 1 + rnd.below(3) as i64;
            (min, min + rnd.below(chutes) as i64)
        }
    }
}

fn words<const N: usize>(numbers: [i64; N]) -> Vec<String> {
    numbers.iter().map(|n| n.to_string()).collect()
}

/// A good sheet.
pub fn sheet(rnd: &mut Random) -> Lines {
    let s = shape(rnd);
    let mut lines = vec![words([s.destinations as i64])];
    let mut ids: Vec<u64> = Vec::new();
    for k in 0..s.destinations {
        let id = match rnd.below(20) {
            0 if !ids.is_empty() => rnd.pick(&ids),
            1 => rnd.pick(&ID_ENDS),
            _ => 20 + k,
        };
        let (min, max) = ends(rnd, s.chutes);
        lines.push(words([id as i64, min, max]));
        ids.push(id);
    }
    let id = |rnd: &mut Random| if ids.is_empty() || rnd.one_in(16) { rnd.pick(&ID_ENDS) } else { rnd.pick(&ids) };
    lines.push(words([s.closings as i64]));
    for _ in 0..s.closings {
        let value = if rnd.one_in(12) { rnd.pick(&CHUTE_ENDS) } else { rnd.below(s.chutes + 4) as i64 };
        let kind = rnd.pick(&[1, 1, 1, 2, 3, 4]);
        lines.push(words([kind, id(rnd) as i64, value]));
    }
    lines.push(words([s.lists as i64]));
    for index in 0..s.lists {
        // most lists are of different known ids, so that they are propagated
        let mut list: Vec<u64> = if rnd.one_in(6) {
            (0..s.listed).map(|_| id(rnd)).collect()
        } else {
            let from = (index + rnd.below(2)) as usize;
            let mut different: Vec<u64> = Vec::new();
            for k in 0..ids.len() {
                let next = ids[(k + from) % ids.len()];
                if !different.contains(&next) {
                    different.push(next);
                }
            }
            different.truncate(s.listed as usize);
            different
        };
        if rnd.one_in(40) && !list.is_empty() {
            list[0] = 4294967295;
        }
        let mut line = words([list.len() as i64]);
        line.extend(list.iter().map(|id| id.to_string()));
        lines.push(line);
    }
    lines
}

/// Words that stand at an end of a field's range, past one, or are no numbers.
const WORDS: [&str; 40] = [
    "-0", "00", "01", "-01", "007", "-", "--1", "1-", "1-2", "", "+1", "0x1", "1.0", "a", "-1", "0", "1", "4", "5", "16", "17", "64", "65", "256", "257",
    "2147483647", "2147483648", "-2147483648", "-2147483649", "4294967295", "4294967296", "9223372036854775807", "9223372036854775808", "-9223372036854775808",
    "-9223372036854775809", "18446744073709551615", "18446744073709551616", "99999999999999999999", "100000000000000000000000000000000000000000", "000000000000000000000",
];

const BYTES: [u8; 14] = *b" \n\r\t-0159+a/:\0";

/// One damage to a sheet; `kind` says which, in the words of the table that is printed.
fn damage(rnd: &mut Random, lines: &mut Lines) -> (Vec<u8>, usize) {
    let kind = rnd.below(DAMAGES.len() as u64) as usize;
    if kind < 2 {
        let at = rnd.below(lines.len() as u64) as usize;
        let word = rnd.below(lines[at].len() as u64) as usize;
        if kind == 0 {
            lines[at][word] = rnd.pick(&WORDS).to_string();
        } else {
            // a number one off, so that counts and lines disagree
            let n: i64 = lines[at][word].parse().unwrap();
            lines[at][word] = (n + rnd.pick(&[-1, 1])).to_string();
        }
        return (bytes(lines), kind);
    }
    let mut text = bytes(lines);
    let at = rnd.below(text.len() as u64) as usize;
    let separators: Vec<usize> = (0..text.len()).filter(|k| text[*k] <= b' ').collect();
    match kind {
        2 => text.truncate(at),
        3 => text[at] = rnd.pick(&BYTES),
        4 => text[at] = rnd.below(256) as u8,
        5 => text.insert(at, rnd.pick(&BYTES)),
        6 => drop(text.remove(at)),
        7 => drop(text.remove(rnd.pick(&separators))),
        8 => {
            let k = rnd.pick(&separators);
            text.insert(k, text[k]);
        }
        9 => {
            let k = rnd.pick(&separators);
            text[k] = b' ' + b'\n' - text[k];
        }
        10 => {
            let ends: Vec<usize> = separators.iter().copied().filter(|k| text[*k] == b'\n').collect();
            text.insert(rnd.pick(&ends), b'\r');
        }
        11 => drop(text.pop()),
        12 => {
            for _ in 0..1 + rnd.below(3) {
                text.push(rnd.pick(&BYTES));
            }
        }
        _ => {
            let to = rnd.pick(&[32766, 32767, 32768, 32769, 32770, 33000]);
            if rnd.one_in(2) {
                text.resize(to, rnd.pick(&BYTES));
            } else {
                // a run of digits as long as a sheet
                text.splice(0..0, std::iter::repeat_n(rnd.pick(b"0-17"), to.saturating_sub(text.len())));
            }
        }
    }
    (text, kind)
}

pub const DAMAGES: [&str; 14] = [
    "a word at or past a field's end, or no number", "a number one off", "cut off", "a byte changed to one of the format's", "a byte changed to any",
    "a byte put in", "a byte taken out", "a separator missing", "a separator doubled", "space for LF, or LF for space", "CR before LF", "no final LF",
    "bytes after the last line", "32766 to 33000 bytes",
];

/// A damaged sheet, and which damage it has. The last kind, which is long, is drawn less often.
pub fn damaged(rnd: &mut Random) -> (Vec<u8>, usize) {
    loop {
        let mut lines = sheet(rnd);
        let before = lines.clone();
        let (text, kind) = damage(rnd, &mut lines);
        if kind == DAMAGES.len() - 1 && !rnd.one_in(100) {
            continue;
        }
        if text != bytes(&before) {
            return (text, kind);
        }
    }
}
