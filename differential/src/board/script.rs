//! The records of a board's script (FORMAT.md).

pub use crate::script::*;

pub const FRAME: usize = 512;
pub const ROWS: usize = 64;
pub const MARKS: usize = 8;
pub const WORDS: usize = 1024;
pub const IDS: usize = 224;
pub const LISTED: usize = 160;
pub const CELLS: usize = 160;
pub const MOST_CELLS: usize = 152;
pub const BLANK: u32 = 0x5a5a_5a5a;
pub const DUMP: usize = 10264;
/// Room that the other side keeps for the largest answer, of what it has for the answers to a frame.
pub const ROOM: usize = 65536 - (ANSWER + DUMP);

pub mod op {
    pub const RESET: u8 = 0;
    pub const IDS: u8 = 1;
    pub const VALUES: u8 = 2;
    pub const RAW_ROW: u8 = 3;
    pub const RAW_WORD: u8 = 4;
    pub const RAW_COUNT: u8 = 5;
    pub const RAW_MARKS: u8 = 6;
    pub const RAW_FLAG: u8 = 7;
    pub const DUMP: u8 = 8;
    pub const NEW: u8 = 16;
    pub const ADD: u8 = 17;
    pub const ADD_VALUES: u8 = 18;
    pub const REMOVE: u8 = 24;
    pub const ASSIGN: u8 = 25;
    pub const BELOW: u8 = 26;
    pub const ABOVE: u8 = 27;
    pub const RESET_FLAG: u8 = 28;
    pub const CHANGED: u8 = 29;
    pub const SIZE: u8 = 32;
    pub const IS_ASSIGNED: u8 = 33;
    pub const ASSIGNED_VALUE: u8 = 34;
    pub const IS_INCONSISTENT: u8 = 35;
    pub const BOUNDS: u8 = 36;
    pub const CHUTES: u8 = 37;
    pub const NEXT_CHUTE: u8 = 38;
    pub const CHUTES_INTO: u8 = 39;
    pub const VARIABLES: u8 = 40;
    pub const NEXT_VARIABLE: u8 = 41;
    pub const VARIABLES_INTO: u8 = 42;
    pub const RAW_CURSOR: u8 = 43;
    pub const READY: u8 = 44;
    pub const PROPAGATE: u8 = 48;
    pub const MARK: u8 = 52;
    pub const RESTORE: u8 = 53;
    pub const KEEP: u8 = 54;
}

/// The calls by number, with their names. Those whose name begins with '=' set a register or a part of the board, or show it.
pub const CALLS: &[(u8, &str)] = &[
    (op::RESET, "=reset"),
    (op::IDS, "=ids"),
    (op::VALUES, "=values"),
    (op::RAW_ROW, "=raw_row"),
    (op::RAW_WORD, "=raw_word"),
    (op::RAW_COUNT, "=raw_count"),
    (op::RAW_MARKS, "=raw_marks"),
    (op::RAW_FLAG, "=raw_flag"),
    (op::DUMP, "=dump"),
    (op::NEW, "new"),
    (op::ADD, "add_variable"),
    (op::ADD_VALUES, "add_variable_with_values"),
    (op::REMOVE, "remove_value"),
    (op::ASSIGN, "assign_variable"),
    (op::BELOW, "remove_below"),
    (op::ABOVE, "remove_above"),
    (op::RESET_FLAG, "reset_changed_flag"),
    (op::CHANGED, "domains_changed"),
    (op::SIZE, "domain_size"),
    (op::IS_ASSIGNED, "is_assigned"),
    (op::ASSIGNED_VALUE, "assigned_value"),
    (op::IS_INCONSISTENT, "is_inconsistent"),
    (op::BOUNDS, "get_bounds"),
    (op::CHUTES, "get_domain_values"),
    (op::NEXT_CHUTE, "next"),
    (op::CHUTES_INTO, "get_domain_values_into"),
    (op::VARIABLES, "variables"),
    (op::NEXT_VARIABLE, "next_variable"),
    (op::VARIABLES_INTO, "variables_into"),
    (op::RAW_CURSOR, "=raw_cursor"),
    (op::READY, "ready"),
    (op::PROPAGATE, "propagate_alldiff"),
    (op::MARK, "mark"),
    (op::RESTORE, "restore"),
    (op::KEEP, "keep"),
];

pub const FORM: Form = Form { frame: FRAME, calls: CALLS, answer_size, text, said };

/// The calls that are given a board: what a board that isn't well formed is tried with.
pub fn on_board() -> Vec<u8> {
    CALLS.iter().filter(|c| !c.1.starts_with('=') && c.0 != op::NEW && c.0 != op::NEXT_CHUTE).map(|c| c.0).collect()
}

pub fn is_call(op: u8) -> bool {
    CALLS.iter().any(|c| c.0 == op && !c.1.starts_with('='))
}

/// The row that a raw row is put at.
pub fn row(r: &Record) -> usize {
    8 * r.a + r.b
}

/// The list's ids: where in the run they begin and end.
pub fn list(r: &Record) -> std::ops::Range<usize> {
    let start = (r.lo % 128) as usize;
    start..start + (r.hi % 97) as usize
}

/// The listed values, or the lent cells.
pub fn part(r: &Record) -> std::ops::Range<usize> {
    r.b..r.b + ((r.lo % 4096) as usize).min(MOST_CELLS)
}

/// How many cells stand behind the answer.
pub fn shown(r: &Record) -> usize {
    match r.op {
        op::CHUTES_INTO | op::VARIABLES_INTO => ((r.hi % 4096) as usize).min(CELLS),
        _ => 0,
    }
}

/// How many bytes the answer takes.
pub fn answer_size(r: &Record) -> usize {
    ANSWER + if r.op == op::DUMP { DUMP } else { 8 * shown(r) }
}

fn text(r: &Record) -> String {
    let (v, w, n) = (r.v, r.w, r.n);
    let name = name(CALLS, r.op).trim_start_matches('=');
    match r.op {
        op::RESET => "a new board, all registers to 0".into(),
        op::IDS => format!("ids[{n}..{}] = {:?}", n + 4, r.four()),
        op::VALUES => format!("values[{n}..{}] = {:?}", n + 4, r.four().map(signed)),
        op::RAW_ROW => format!("rows[{}] = id {n}, the mask {} with the bounds {v} and {w}", row(r), mask_text(r.mask())),
        op::RAW_WORD => format!("saved[{}] = {:#x}", n % WORDS as u32, r.lo),
        op::RAW_COUNT => format!("count = {n}"),
        op::RAW_MARKS => format!("marks = {n}"),
        op::RAW_FLAG => format!("changed = {}", n % 2 == 1),
        op::ADD => format!("{name}({n}, {v}, {w})"),
        op::ADD_VALUES => format!("{name}({n}, values[{:?}])", part(r)),
        op::REMOVE | op::ASSIGN | op::BELOW | op::ABOVE => format!("{name}({n}, {v})"),
        op::SIZE | op::IS_ASSIGNED | op::ASSIGNED_VALUE | op::IS_INCONSISTENT | op::BOUNDS => format!("{name}({n})"),
        op::CHUTES => format!("c{} = {name}({n})", r.b),
        op::NEXT_CHUTE => format!("c{}.{name}()", r.b),
        op::CHUTES_INTO => format!("{name}({n}, cells[{:?}])", part(r)),
        op::VARIABLES_INTO => format!("{name}(cells[{:?}])", part(r)),
        op::RAW_CURSOR => format!("the cursor over ids stands at {n}"),
        op::READY | op::PROPAGATE => format!("{name}(ids[{:?}])", list(r)),
        _ => format!("{name}()"),
    }
}

/// An answer in words: what is said, what is left, and what stands behind it.
fn said(_: &Record, answer: &Answer, behind: &[u8]) -> String {
    let [sum, count, marks] = answer.left;
    let said = format!("{}; the board has {count} rows, {} marks, changed {}, and the number {sum:016x}", answer.said(), marks << 1 >> 1, marks >> 63 == 1);
    let words: Vec<u64> = behind.chunks(8).map(|c| u64::from_le_bytes(c.try_into().unwrap())).collect();
    if words.is_empty() { said } else { format!("{said}; behind it {words:x?}") }
}

/// A cell as it stands behind an answer: chutes by their distance from the least i32, ids as they are.
pub fn cell(r: &Record, cell: u32) -> u64 {
    if r.op == op::CHUTES_INTO { bits(cell as i32) as u64 } else { cell as u64 }
}

/// Whether all that stands behind an answer is as it was lent.
pub fn is_blank(r: &Record, behind: &[u8]) -> bool {
    behind.chunks(8).all(|c| c == cell(r, BLANK).to_le_bytes())
}
