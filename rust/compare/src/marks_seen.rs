//! What every comparison must see of the marks, where files can have them in 16 and in 32
//! bits.

use crate::answers_seen::Files;
use crate::names::{mix_name, mix_names, mixes, of_mix, SIDES};
use crate::report::Seen;
use crate::tables::{layout, marks, related, states};
use crate::Answer;
use oracle::{Form, TableLayout};

/// Two marks of which a judge that looked at the low halves alone would accept the pair.
const EQUAL_LOW_HALVES: &str = "17, equal low halves";

/// The last mark that 16 bits can tell, and the first that they cannot.
const LAST_AND_FIRST: [u32; 2] = [65_535, 65_536];

pub fn required(success: &str, forms: &[Form]) -> Vec<String> {
    let mut required = mix_names("17", forms);
    required.extend(mix_names(&related_marks(success, 65_535), forms));
    required
}

/// What must be seen besides of a function itself, which is compared on more inputs than
/// the programs.
pub fn required_of_functions(success: &str, forms: &[Form]) -> Vec<String> {
    let mut required = Vec::new();
    for (left, right) in mixes(forms) {
        if is_wide(&left) || is_wide(&right) {
            required.push(of_mix(EQUAL_LOW_HALVES, left, right));
        }
        if is_wide(&left) && is_wide(&right) {
            required.push(of_mix(&related_marks(success, 65_536), left, right));
        }
    }
    if forms.iter().any(is_wide) {
        required.extend([differing(65_535, 65_536), differing(65_536, 65_535)]);
        if !forms.iter().all(is_wide) {
            required.extend(SIDES.map(|side| beside_an_older_table(success, side)));
        }
    }
    required
}

/// Files of this form have marks of 32 bits.
fn is_wide(form: &Form) -> bool {
    TableLayout::of(*form).is_some_and(|layout| layout.mark_width == 4)
}

fn related_marks(success: &str, mark: u32) -> String {
    format!("{success}, related marks of {mark}")
}

fn differing(left: u32, right: u32) -> String {
    format!("17, {left} on the left and {right} on the right")
}

fn beside_an_older_table(success: &str, side: &str) -> String {
    format!("{success}, {side} table, a mark above 65535 beside an older table")
}

/// Sees the marks of files that were not refused.
pub fn see_success(seen: &mut Seen, success: &str, files: Files) {
    let tables = files.tables();
    let [left, right] = tables.map(marks);
    for mark in LAST_AND_FIRST {
        let mut owns = (0..left.len()).filter(|&s| left[s] == mark);
        if owns.any(|s| (0..states(files.right)).any(|t| related(files.rows, s, t))) {
            let name = related_marks(success, mark);
            seen.see(mix_name(&name, files.left, files.right));
        }
    }
    let widths = tables.map(|table| layout(table).mark_width);
    for (side, marks) in [left, right].iter().enumerate() {
        if widths[1 - side] == 2 && marks.iter().any(|&mark| mark > 65_535) {
            seen.see(beside_an_older_table(success, SIDES[side]));
        }
    }
    assert!(
        related_marks_are_equal(files),
        "different marks are related"
    );
}

/// "marks differ" is 17, so where nothing is refused related ones are equal.
fn related_marks_are_equal(files: Files) -> bool {
    let [left, right] = files.tables().map(marks);
    (0..left.len()).all(|s| {
        let mut others = (0..right.len()).filter(|&t| related(files.rows, s, t));
        others.all(|t| left[s] == right[t])
    })
}

/// Sees the marks that 17 names.
pub fn see_refusal(seen: &mut Seen, answer: Answer, files: Files) {
    seen.see(mix_name("17", files.left, files.right));
    let left = marks(files.left)[answer[2] as usize];
    let right = marks(files.right)[answer[3] as usize];
    assert_ne!(left, right, "17 is for marks that differ");
    seen.see(differing(left, right));
    if left % 65_536 == right % 65_536 {
        seen.see(mix_name(EQUAL_LOW_HALVES, files.left, files.right));
    }
}
