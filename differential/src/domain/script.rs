//! The records of a bit domain's script (FORMAT.md).

pub use crate::script::*;

pub const FRAME: usize = 256;
pub const REGISTERS: usize = 8;
pub const LISTED: usize = 160;
pub const CELLS: usize = 160;
pub const BYTES: usize = 2048;
pub const MOST_CELLS: usize = 152;
pub const MOST_BYTES: usize = 2040;
pub const BLANK_CELL: i32 = 0x5a5a_5a5a;
pub const BLANK_BYTE: u8 = 90;

/// The calls by number, with their names. Those whose name begins with '=' only set a register.
pub const CALLS: &[(u8, &str)] = &[
    (0, "=reset"),
    (1, "=raw"),
    (2, "new"),
    (3, "new_empty"),
    (4, "new_invalid"),
    (5, "try_new"),
    (6, "try_new_empty"),
    (7, "=copy"),
    (8, "new_from_values"),
    (9, "try_new_from_values"),
    (10, "=values"),
    (16, "is_invalid"),
    (17, "contains"),
    (18, "size"),
    (19, "is_empty"),
    (20, "is_fixed"),
    (21, "fixed_value"),
    (22, "min"),
    (23, "max"),
    (24, "first"),
    (25, "last"),
    (26, "universe_size"),
    (27, "min_universe_value"),
    (28, "max_universe_value"),
    (32, "insert"),
    (33, "remove"),
    (34, "remove_all"),
    (35, "remove_all_but"),
    (36, "remove_below"),
    (37, "remove_above"),
    (40, "intersect_with"),
    (41, "union_with"),
    (42, "is_subset_of"),
    (43, "equals"),
    (44, "union_mask"),
    (45, "remove_by_mask"),
    (46, "get_mask"),
    (47, "current_mask"),
    (48, "get_min_val"),
    (49, "restore_mask"),
    (50, "save_state"),
    (51, "restore_state"),
    (52, "=raw_state"),
    (56, "iter"),
    (57, "next"),
    (58, "left"),
    (59, "=raw_cursor"),
    (60, "to_vec"),
    (61, "write_text"),
];

pub const FORM: Form = Form { frame: FRAME, calls: CALLS, answer_size, text, said };

/// How many cells or bytes stand behind the answer.
pub fn shown(r: &Record) -> usize {
    let asked = (r.lo % 4096) as usize;
    match r.op {
        60 => asked.min(CELLS),
        61 => asked.min(BYTES),
        _ => 0,
    }
}

/// How many bytes the answer takes.
pub fn answer_size(r: &Record) -> usize {
    ANSWER + if r.op == 60 { 8 * shown(r) } else { shown(r) }
}

fn text(r: &Record) -> String {
    let (a, b, v, w, n) = (r.a, r.b, r.v, r.w, r.n);
    let name = name(CALLS, r.op).trim_start_matches('=');
    let mask = mask_text(r.mask());
    match r.op {
        0 => "all registers to 0".into(),
        1 => format!("d{a} = the mask {mask} with the bounds {v} and {w}"),
        2 | 3 | 5 | 6 => format!("d{a} = {name}({v}, {w})"),
        4 => format!("d{a} = {name}()"),
        7 => format!("d{a} = d{b}"),
        8 | 9 => format!("d{a} = {name}(list[{b}..{}])", b + (n as usize).min(MOST_CELLS)),
        10 => format!("list[{n}..{}] = {:?}", n + 4, r.four().map(signed)),
        17 | 32 | 33 | 35 | 36 | 37 => format!("d{a}.{name}({v})"),
        40..=44 => format!("d{a}.{name}(d{b})"),
        45 | 49 => format!("d{a}.{name}({mask})"),
        50 => format!("s{b} = d{a}.{name}()"),
        51 => format!("d{a}.{name}(s{b})"),
        52 => format!("s{b} = the mask {mask} of size {n}"),
        56 => format!("c{b} = d{a}.{name}()"),
        57 | 58 => format!("c{b}.{name}()"),
        59 => format!("c{b} = the mask {mask} over the smallest value {v}"),
        60 => format!("d{a}.{name}(cells[{b}..{}])", b + (n as usize).min(MOST_CELLS)),
        61 => format!("d{a}.{name}(bytes[{b}..{}])", b + (n as usize).min(MOST_BYTES)),
        _ => format!("d{a}.{name}()"),
    }
}

/// An answer in words: what is said, what is left, and the cells behind it.
fn said(r: &Record, answer: &Answer, behind: &[u8]) -> String {
    let [lo, hi, bounds] = answer.left;
    let (said, left, low) = (answer.said(), mask_text(mask_of(lo, hi)), signed(bounds as u32));
    let left = if (56..60).contains(&r.op) {
        format!("{said}; the cursor is {left} over {low}")
    } else {
        format!("{said}; the domain is {left} from {low} to {}", signed((bounds >> 32) as u32))
    };
    match r.op {
        60 => format!("{left}; cells {:?}", behind.chunks(8).map(|c| signed(u32::from_le_bytes(c[..4].try_into().unwrap()))).collect::<Vec<i32>>()),
        61 => format!("{left}; bytes {:?}", String::from_utf8_lossy(behind)),
        _ => left,
    }
}

/// Whether all that stands behind an answer is as it was lent.
pub fn is_blank(r: &Record, behind: &[u8]) -> bool {
    let cell = (bits(BLANK_CELL) as u64).to_le_bytes();
    match r.op {
        60 => behind.chunks(8).all(|c| c == cell),
        _ => behind.iter().all(|b| *b == BLANK_BYTE),
    }
}
