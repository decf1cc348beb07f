//! What every comparison must see of tables of two kinds: 30, and what comes before it and
//! after it.

use crate::answers_seen::{refuses_table, Files};
use crate::names::SIDES;
use crate::report::Report;
use crate::tables::{has_keys, version};
use crate::Answer;
use inputs::{save_in, table_bytes, Forms, VERSIONS};
use oracle::{read_table, Form};

/// The numbers of a table, which come before 30.
const TABLE_CODES: [u64; 11] = [1, 2, 3, 4, 5, 6, 7, 8, 9, 24, 28];

/// Nothing would be refused if the tables were of one kind.
const ALONE: &str = "30, nothing else is wrong";

/// What must be seen of a function where tables of two kinds are given, with the numbers that
/// come after 30.
pub fn required(forms: Forms, after: &[u64]) -> Vec<String> {
    if forms != Forms::All {
        return Vec::new();
    }
    let mut required = required_of_programs();
    required.extend(after.iter().map(|&code| before(code)));
    for side in SIDES {
        required.extend(TABLE_CODES.map(|code| after_table(code, side)));
    }
    required
}

/// What must be seen of the programs, which are compared on fewer inputs.
pub fn required_of_programs() -> Vec<String> {
    let mut required = vec![ALONE.to_string()];
    for &version in VERSIONS {
        let tpt = format!("version {version}");
        required.extend([of_kinds(&tpt, "TPK"), of_kinds("TPK", &tpt)]);
    }
    required.extend(SIDES.map(after_some_table));
    required
}

fn of_kinds(left: &str, right: &str) -> String {
    format!("30, {left} and {right}")
}

/// Another cause would be answered if the tables were of one kind.
pub fn before(code: u64) -> String {
    format!("30 before {code:>2}")
}

/// This table is refused, and the tables are of two kinds.
fn after_table(code: u64, side: &str) -> String {
    format!("{code:>2} before 30, {side} table")
}

fn after_some_table(side: &str) -> String {
    format!("a refusal of the {side} table before 30")
}

/// Sees the place of 30 in the order. `otherwise` gives the number of the answer to the same
/// tables of one kind.
pub fn see(
    report: &mut Report,
    [code, file, ..]: Answer,
    files: Files,
    otherwise: impl FnOnce(&[u8], &[u8]) -> u64,
) {
    if refuses_table(code) && are_of_two_kinds(files) {
        let side = SIDES[file as usize];
        report.see(after_table(code, side));
        report.see(after_some_table(side));
    }
    if code == 30 {
        let [left, right] = files.tables().map(kind_name);
        report.see(of_kinds(&left, &right));
        let [left, right] = files.tables().map(with_keys);
        match otherwise(&left, &right) {
            0 => report.see(ALONE),
            code => report.see(before(code)),
        }
    }
}

/// One table begins as a table with keys, and the other does not.
fn are_of_two_kinds(files: Files) -> bool {
    let [left, right] = files.tables().map(has_keys);
    left != right
}

fn kind_name(table: &[u8]) -> String {
    if has_keys(table) {
        "TPK".to_string()
    } else {
        format!("version {}", version(table))
    }
}

/// The same table as one with keys.
fn with_keys(table: &[u8]) -> Vec<u8> {
    let mut table = read_table(table, 0).expect("the table is well formed");
    save_in(&mut table, Form::TPK);
    table_bytes(&table)
}
