//! What every comparison must see of the starts, where tables can have several.

use crate::answers_seen::Files;
use crate::names::SIDES;
use crate::report::Seen;
use crate::tables::{layout, related, starts, states};
use crate::Answer;
use oracle::{Form, TableLayout};

/// The ways in which a start word is wrong.
const WRONG_WORDS: [&str; 3] = ["no start", "a start n or more too", "no start below n"];

/// Where the start that 16 names stands among those of its table, where these are several.
const PLACES: [&str; 3] = ["the first start", "a middle start", "the last start"];

/// Where it is the only one. Where the right table has one start and it is unpaired, so are
/// all left starts, and the first of them is named.
const ONLY: &str = "16, left side, the only start";

/// What can be special about the start that 16 names: a judge that looked at something
/// else would differ.
const LATER_TOO: &str = "a later one is unpaired too";
const PAIRED_WITH_NO_START: &str = "it is related to a state that is no start";

const RIGHT_TOO: &str = "16, left side, a right start is unpaired too";
const BYTES: &str = "16, two start bytes";
const ONE_BIT: &str = "16, one start a side, with a start word";

/// What a table with a start word can be, and whether this one is.
type Special = (&'static str, fn(&[u8]) -> bool);

/// What can be special about the starts of a table with a start word, where they are
/// paired.
const SPECIAL_WORDS: [Special; 3] = [
    ("one start in a word", |table| starts(table).len() == 1),
    ("several starts", |table| starts(table).len() > 1),
    ("all of several states are starts", |table| {
        states(table) > 1 && starts(table).len() == states(table)
    }),
];

/// What can be special about those of a large table.
const SPECIAL_LARGE_WORDS: [Special; 2] = [
    ("64 starts", |table| starts(table).len() == 64),
    // Read as a start, this byte would be out of range.
    ("byte 6 of a start word is n or more", |table| {
        table[6] >= table[5]
    }),
];

/// Each start is related to some start, but not to every one.
const SOME_UNRELATED: &str = "a left start and a right start are not related";

fn has_start_word(table: &[u8]) -> bool {
    layout(table).start_word
}

pub fn required(success: &str, forms: &[Form]) -> Vec<String> {
    let mut required = Vec::new();
    if !forms.iter().all(start_word) {
        required.push(BYTES.to_string());
    }
    if forms.iter().any(start_word) {
        required.extend([ONLY, RIGHT_TOO, ONE_BIT].map(String::from));
        required.push(format!("{success}, {SOME_UNRELATED}"));
        for side in SIDES {
            required.push(format!(" 1, {side} table, a start word and under 16 bytes"));
            required.extend(WRONG_WORDS.map(|why| format!("28, {side} table, {why}")));
            let unpaired = PLACES.into_iter().chain([LATER_TOO, PAIRED_WITH_NO_START]);
            required.extend(unpaired.map(|what| format!("16, {side} side, {what}")));
            let special = SPECIAL_WORDS.map(|(what, _)| format!("{success}, {side} table, {what}"));
            required.extend(special);
        }
    }
    required
}

/// What must be seen besides where there are large tables.
pub fn required_of_large(success: &str, forms: &[Form]) -> Vec<String> {
    let mut required = Vec::new();
    if forms.iter().any(start_word) {
        for side in SIDES {
            let special = SPECIAL_LARGE_WORDS.map(|(what, _)| what);
            required.extend(special.map(|what| format!("{success}, {side} table, {what}")));
        }
    }
    required
}

/// Tables of this form have a start word.
fn start_word(form: &Form) -> bool {
    TableLayout::of(*form).is_some_and(|layout| layout.start_word)
}

/// In which way this word is wrong.
pub fn wrong_word(starts: &[usize], n: usize) -> &'static str {
    match (starts.is_empty(), starts.iter().any(|&s| s < n)) {
        (true, _) => WRONG_WORDS[0],
        (_, true) => WRONG_WORDS[1],
        _ => WRONG_WORDS[2],
    }
}

/// Sees the starts of files that were not refused.
pub fn see_success(seen: &mut Seen, success: &str, files: Files) {
    for (side, table) in SIDES.iter().zip(files.tables()) {
        if !has_start_word(table) {
            continue;
        }
        for (what, is_special) in SPECIAL_WORDS.iter().chain(&SPECIAL_LARGE_WORDS) {
            if is_special(table) {
                seen.see(format!("{success}, {side} table, {what}"));
            }
        }
    }
    let (left, right) = (starts(files.left), starts(files.right));
    if left
        .iter()
        .any(|&s| right.iter().any(|&t| !related(files.rows, s, t)))
    {
        seen.see(format!("{success}, {SOME_UNRELATED}"));
    }
}

/// Sees which start 16 names, and what else is unpaired.
pub fn see_refusal(seen: &mut Seen, answer: Answer, files: Files) {
    let tables = files.tables();
    if !tables.iter().any(|table| has_start_word(table)) {
        seen.see(BYTES);
        return;
    }
    let starts = tables.map(starts);
    if starts.iter().all(|starts| starts.len() == 1) {
        seen.see(ONE_BIT);
    }
    let unpaired = [0, 1].map(|side| unpaired(files, &starts, side));
    let (side, start) = (answer[2] as usize, answer[3] as usize);
    if side == 0 && !unpaired[1].is_empty() {
        seen.see(RIGHT_TOO);
    }
    let name = format!("16, {} side", SIDES[side]);
    match place(&starts[side], start) {
        Some(place) => seen.see(format!("{name}, {place}")),
        None => seen.see(format!("{name}, the only start")),
    }
    if unpaired[side].len() > 1 {
        seen.see(format!("{name}, {LATER_TOO}"));
    }
    let mut others = 0..states(tables[1 - side]);
    if others.any(|other| is_related(files, side, start, other)) {
        seen.see(format!("{name}, {PAIRED_WITH_NO_START}"));
    }
}

/// Where one of several starts stands.
fn place(starts: &[usize], start: usize) -> Option<&'static str> {
    let place = starts.iter().position(|&state| state == start);
    match place.expect("a start is named") {
        _ if starts.len() == 1 => None,
        0 => Some(PLACES[0]),
        place if place + 1 < starts.len() => Some(PLACES[1]),
        _ => Some(PLACES[2]),
    }
}

/// The starts of this side that are related to no start of the other side.
fn unpaired(files: Files, starts: &[Vec<usize>; 2], side: usize) -> Vec<usize> {
    let mut unpaired = starts[side].clone();
    unpaired.retain(|&start| {
        let mut others = starts[1 - side].iter();
        others.all(|&other| !is_related(files, side, start, other))
    });
    unpaired
}

fn is_related(files: Files, side: usize, own: usize, other: usize) -> bool {
    let (s, t) = [(own, other), (other, own)][side];
    related(files.rows, s, t)
}
