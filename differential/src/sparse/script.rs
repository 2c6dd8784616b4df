//! The records of a script on sparse sets (FORMAT.md). In an answer, `lo` is the bounds of a saved state, or all that is seen of the cells
//! that were lent beside the orderings; `hi` is all that is seen of the orderings.

pub use crate::script::*;

pub const FRAME: usize = 256;
pub const REGISTERS: usize = 8;
pub const CELLS: usize = 4112;
pub const MOST_LENT: usize = 4104;
pub const MOST_CELLS: usize = 4100;
pub const MOST_BYTES: usize = 49600;
/// Where the lent parts of the orderings start.
pub const IND: usize = 2;
pub const VAL: usize = 3;
pub const BLANK: u32 = 0x5a5a_5a5a;
pub const BLANK_BYTE: u8 = 90;

/// The calls by number, with their names. Those whose name begins with '=' only set or show a register.
pub const CALLS: &[(u8, &str)] = &[
    (0, "=reset"),
    (1, "=raw"),
    (2, "new"),
    (3, "new_unchecked"),
    (4, "=lend"),
    (5, "=ind_cell"),
    (6, "=val_cell"),
    (8, "new_from_values"),
    (10, "=list"),
    (17, "contains"),
    (18, "size"),
    (19, "is_empty"),
    (20, "is_fixed"),
    (22, "min"),
    (23, "max"),
    (24, "first"),
    (25, "last"),
    (26, "universe_size"),
    (27, "min_universe_value"),
    (28, "max_universe_value"),
    (29, "complement_size"),
    (30, "should_use_complement"),
    (31, "current_size"),
    (33, "remove"),
    (34, "remove_all"),
    (35, "remove_all_but"),
    (36, "remove_below"),
    (37, "remove_above"),
    (40, "intersect_with"),
    (41, "union_with"),
    (42, "is_subset_of"),
    (43, "equals"),
    (44, "diff_with"),
    (50, "save_state"),
    (51, "restore_state"),
    (52, "=raw_state"),
    (56, "iter"),
    (57, "next"),
    (58, "complement_iter"),
    (59, "complement_next"),
    (60, "to_vec"),
    (61, "write_text"),
    (62, "=raw_cursor"),
    (63, "=show"),
];

/// All that is seen of lent cells, in one number.
pub fn seen(words: impl Iterator<Item = u64>) -> u64 {
    words.fold(1, |h, x| {
        let a = (h ^ x).wrapping_add(0x9E37_79B9_7F4A_7C15);
        let b = a ^ a << 13;
        let c = b ^ b >> 7;
        c ^ c << 17
    })
}

pub const FORM: Form = Form { frame: FRAME, calls: CALLS, answer_size, text, said };

/// How many cells or bytes stand behind the answer.
pub fn shown(r: &Record) -> usize {
    let asked = (r.lo % 4096) as usize;
    match r.op {
        40 | 44 | 60 => asked.min(160),
        61 => asked.min(1280),
        63 => (r.n as usize).min(160),
        _ => 0,
    }
}

/// How many bytes the answer takes.
pub fn answer_size(r: &Record) -> usize {
    ANSWER + if r.op == 61 { shown(r) } else { 8 * shown(r) }
}

/// The lent part beside the orderings, from cell b on.
pub fn room(r: &Record) -> usize {
    (r.n as usize).min(if r.op == 61 { MOST_BYTES } else { MOST_CELLS })
}

pub fn listed(r: &Record) -> Vec<i32> {
    let round = (r.lo >> 32) + 1;
    let mut x = r.hi % round;
    (0..(r.n as usize).min(CELLS))
        .map(|_| {
            let v = signed((bits(r.v) as u64).wrapping_add(x) as u32);
            x = x.wrapping_add(r.lo & 0xffff_ffff) % round;
            v
        })
        .collect()
}

fn text(r: &Record) -> String {
    let (a, b, v, w, n) = (r.a % 2, r.b, r.v, r.w, r.n);
    let (low, high) = (r.lo as u32, (r.lo >> 32) as u32);
    let name = name(CALLS, r.op).trim_start_matches('=');
    let end = b + room(r);
    match r.op {
        0 => format!("all registers to 0, {n} cells blank"),
        1 => format!("s{a} = the set of {n} values from {v}, size {low}, min {high}, max {}", r.hi as u32),
        2 | 3 => format!("s{a} = {name}({v}, {w})"),
        4 => format!("s{a} is lent {low} cells of ind, {high} of val"),
        5 | 6 => format!("s{a}: cell {n} of {} = {low}", if r.op == 5 { "ind" } else { "val" }),
        8 => format!("s{a} = {name}(list[{b}..{end}])"),
        10 => format!("list = {:?}", listed(r)),
        17 | 33 | 35 | 36 | 37 => format!("s{a}.{name}({v})"),
        40 | 44 => format!("s{a}.{name}(s{}, scratch[{b}..{end}])", 1 - a),
        41..=43 => format!("s{a}.{name}(s{})", 1 - a),
        50 => format!("t{b} = s{a}.{name}()"),
        51 => format!("s{a}.{name}(t{b})"),
        52 => format!("t{b} = size {n}, min {low}, max {high}"),
        56 | 58 => format!("c{b} = s{a}.{name}()"),
        57 | 59 => format!("s{a}.{name}(c{b})"),
        60 => format!("s{a}.{name}(cells[{b}..{end}])"),
        61 => format!("s{a}.{name}(bytes[{b}..{end}])"),
        62 => format!("c{b} = place {n}"),
        _ => format!("s{a}.{name}()"),
    }
}

/// An answer in words: what is said, what is left, and what stands behind it.
fn said(r: &Record, answer: &Answer, behind: &[u8]) -> String {
    let said = match answer.kind {
        7 => format!("state of size {}, min {}, max {}", answer.count, answer.lo as u32, answer.lo >> 32),
        8 => "cursor".into(),
        _ => answer.said(),
    };
    let [universe, low, high] = answer.left;
    let left = format!(
        "{said}; the set has {} values from {}, size {}, min {}, max {}; cursor {}; seen {:016x} and {:016x}",
        universe >> 32,
        signed(universe as u32),
        low as u32,
        low >> 32,
        high as u32,
        high >> 32,
        answer.hi,
        answer.lo
    );
    if r.op == 61 {
        return format!("{left}; bytes {:?}", String::from_utf8_lossy(behind));
    }
    let cells: Vec<(u32, u32)> = behind.chunks(8).map(|c| (u32::from_le_bytes(c[..4].try_into().unwrap()), u32::from_le_bytes(c[4..].try_into().unwrap()))).collect();
    if cells.is_empty() { left } else { format!("{left}; cells {cells:?}") }
}
