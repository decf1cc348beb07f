//! What every comparison must see of the answers: each number, on each table and in each
//! version that has it, on each side, and in each mix of versions; of tables with keys the
//! same as of those without.

use crate::marks_seen;
use crate::names::{mix_name, mix_names, SIDES};
use crate::report::{Report, Seen};
use crate::starts_seen;
use crate::tables::{layout, starts, states, step_count, version};
use crate::Answer;
use oracle::{Form, Kind, TableLayout};

/// The two tables of an input, and the rows of its relation.
#[derive(Clone, Copy)]
pub struct Files<'a> {
    pub left: &'a [u8],
    pub right: &'a [u8],
    pub rows: &'a [u8],
}

impl<'a> Files<'a> {
    /// Those of two tables and a certificate.
    pub fn certified(left: &'a [u8], right: &'a [u8], certificate: &'a [u8]) -> Files<'a> {
        let rows = certificate.get(11..).unwrap_or(&[]);
        Files { left, right, rows }
    }

    pub fn tables(&self) -> [&'a [u8]; 2] {
        [self.left, self.right]
    }
}

/// How far a table that is refused with 7 is from the length that it should have.
const LENGTHS: [&str; 4] = [
    "one byte short",
    "one byte long",
    "marks of the other width",
    "steps of the other width",
];

/// Versions that a table with keys does not have, and one without them has.
const VERSIONS_WITHOUT_KEYS: [u16; 3] = [2, 3, 4];

/// The names of a success, of the refusals of tables of these forms, which are of one kind,
/// of 16 and 17, and of further refusals.
pub fn required(
    success: &str,
    forms: &[Form],
    further: impl IntoIterator<Item = u64>,
) -> Vec<String> {
    let mut required = vec![success.to_string()];
    for side in SIDES {
        required.extend([1, 2, 3].map(|code| format!("{code:>2}, {side} table")));
        if forms == [Form::TPK] {
            let name = |version| format!(" 3, {side} table, version {version}");
            required.extend(VERSIONS_WITHOUT_KEYS.map(name));
        }
        for &form in forms {
            let (codes, version) = (table_codes(form).into_iter(), form.version);
            required
                .extend(codes.map(|code| format!("{code:>2}, {side} table, version {version}")));
            let length = |how| format!(" 7, {side} table, version {version}, {how}");
            required.extend(LENGTHS.map(length));
        }
    }
    for code in further {
        if by_side(code) {
            required.extend(SIDES.map(|side| format!("{code:>2}, {side} side")));
        } else {
            required.push(format!("{code:>2}"));
        }
    }
    required.extend(mix_names(success, forms));
    required.extend(mix_names("16", forms));
    required.extend(starts_seen::required(success, forms));
    required.extend(marks_seen::required(success, forms));
    required
}

/// The numbers from 4 on that a table of this form can get, in their order.
fn table_codes(form: Form) -> [u64; 6] {
    let layout = TableLayout::of(form).expect("the version is known");
    let start = if layout.start_word { 28 } else { 5 };
    let order = if layout.rising { 24 } else { 9 };
    [4, start, 6, 7, 8, order]
}

/// A refusal with this number names a side.
fn by_side(code: u64) -> bool {
    [18, 19, 22, 23].contains(&code)
}

/// An answer with this number refuses a table.
pub fn refuses_table(code: u64) -> bool {
    matches!(code, 1..=9 | 24 | 28)
}

/// Sees an answer to these files, and gives what sees the rest of them.
pub fn see<'a>(report: &'a mut Report, success: &str, answer: Answer, files: Files) -> Seen<'a> {
    let mut seen = report.of(kind(answer, files));
    let [code, file, side, ..] = answer;
    match code {
        0 => {
            seen.see(success);
            seen.see(mix_name(success, files.left, files.right));
            starts_seen::see_success(&mut seen, success, files);
            marks_seen::see_success(&mut seen, success, files);
        }
        _ if refuses_table(code) => see_table_refusal(&mut seen, code, file as usize, files),
        16 => {
            seen.see(mix_name("16", files.left, files.right));
            starts_seen::see_refusal(&mut seen, answer, files);
        }
        17 => marks_seen::see_refusal(&mut seen, answer, files),
        _ if by_side(code) => seen.see(format!("{code:>2}, {} side", SIDES[side as usize])),
        _ => seen.see(format!("{code:>2}")),
    }
    seen
}

/// The kind of the tables that an answer is about. Of a table that is refused it is its own,
/// or that of the other table where it has none.
fn kind([code, file, ..]: Answer, files: Files) -> Kind {
    let first = if refuses_table(code) {
        file as usize
    } else {
        0
    };
    let kinds = files.tables().map(Kind::of_file);
    kinds[first].or(kinds[1 - first]).unwrap_or(Kind::Tpt)
}

fn see_table_refusal(seen: &mut Seen, code: u64, file: usize, files: Files) {
    let table = files.tables()[file];
    let name = format!("{code:>2}, {} table", SIDES[file]);
    match code {
        1 if table.len() >= 9 => seen.see(format!("{name}, a start word and under 16 bytes")),
        1..=3 => {
            if code == 3 {
                seen.see(format!("{name}, version {}", version(table)));
            }
            seen.see(name);
        }
        _ => {
            // So 5 and 9 never come to a start word, and 28 never to a start byte.
            let form = Form::of_file(table).expect("the table has a form");
            assert!(table_codes(form).contains(&code), "{name}, {form:?}");
            if code == 28 {
                let why = starts_seen::wrong_word(&starts(table), states(table));
                seen.see(format!("{name}, {why}"));
            }
            let name = format!("{name}, version {}", form.version);
            if code == 7 {
                for how in wrong_lengths(table) {
                    seen.see(format!("{name}, {how}"));
                }
            }
            seen.see(name);
        }
    }
}

/// Which of the `LENGTHS` this table has.
fn wrong_lengths(table: &[u8]) -> Vec<&'static str> {
    let (layout, n, m) = (layout(table), states(table), step_count(table));
    let other_marks = TableLayout {
        mark_width: 6 - layout.mark_width,
        ..layout
    };
    let other_steps = TableLayout {
        step_width: 5 - layout.step_width,
        ..layout
    };
    let [right, marks, steps] =
        [layout, other_marks, other_steps].map(|layout| layout.length(n, m));
    let lengths = [right - 1, right + 1, marks, steps]
        .into_iter()
        .zip(LENGTHS);
    let lengths = lengths.filter(|&(length, _)| length == table.len());
    lengths.map(|(_, how)| how).collect()
}
