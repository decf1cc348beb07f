//! Near-misses of a table, for each cause 1 to 9, 24 and 28 in the order of the causes.
//! Each expects a well-formed table and gives one that is turned away for the cause
//! named, unless the table is too small or of a version that does not have the cause.
//! Two may be made, the later one in the list first.

use crate::byte_edits::ByteEdit;
use crate::keys::another_key;
use crate::random::Random;
use crate::system::VERSIONS;
use oracle::{Form, Kind, TableLayout};

pub const TABLE_EDITS: &[ByteEdit] = &[
    ("1: table under 9 bytes", |random, table| {
        table.truncate(random.below(9));
    }),
    ("2: first three bytes", |random, table| {
        table[random.below(3)] ^= 1 << random.below(8);
    }),
    ("3: version", |random, table| {
        let unknown = [0, 5, 256, 257, 258, 259, 260, 65_535];
        let version = if has_keys(table) && random.percent(60) {
            random.pick(&[2, 3, 4])
        } else {
            random.pick(&unknown)
        };
        put_version(table, version);
    }),
    ("the number of another version alone", |random, table| {
        put_version(table, random.pick(VERSIONS));
    }),
    ("the name of the other kind alone", |_, table| {
        let kind = if has_keys(table) {
            Kind::Tpt
        } else {
            Kind::Tpk
        };
        table[..3].copy_from_slice(kind.bytes());
    }),
    ("1: a start word and under 16 bytes", |random, table| {
        if !has_keys(table) {
            put_version(table, random.pick(&[3, 4]));
        }
        table.truncate(random.within(9, 15));
    }),
    ("4: n", |random, table| {
        let n = random.pick(&[0, 65, 66, 128, 255]);
        let m = steps(table);
        table[5] = n as u8;
        if m <= 256 && random.percent(50) {
            let length = layout(table).length(n, m);
            table.resize(length, 0);
        }
    }),
    ("5: start", |random, table| {
        if !layout(table).start_word {
            let n = table[5];
            table[6] = random.pick(&[n, n + 1, 64, 128, 255]);
        }
    }),
    ("28: no start", |_, table| change_starts(table, |_| 0)),
    ("28: a start n or more", |random, table| {
        once_or_twice(random, table, add_start_too_high)
    }),
    ("28: no start below n", |random, table| {
        change_starts(table, |_| 0);
        add_start_too_high(random, table);
    }),
    ("6: m", |random, table| {
        let m = random.pick(&[257, 258, 511, 512, 65_535]);
        set_steps(table, m);
        if m < 512 && random.percent(50) {
            let length = layout(table).length(states(table), m);
            table.resize(length, 0);
        }
    }),
    ("7: length", |random, table| match random.below(4) {
        0 => {
            table.pop();
        }
        1 => table.push(0),
        2 => table.extend(vec![0; layout(table).step_width]),
        _ => table.truncate(random.within(layout(table).header, table.len() - 1)),
    }),
    ("7: marks of the other width", |_, table| {
        let marks = marks(table);
        let width = 6 - layout(table).mark_width;
        replace_marks(table, &marks, width);
    }),
    ("7: steps of the other width", |_, table| {
        let (steps, width) = (step_list(table), 5 - layout(table).step_width);
        put_steps(table, &steps, width);
    }),
    ("7: one step more than m", |_, table| {
        let m = steps(table) + 1;
        if m <= 256 {
            set_steps(table, m);
        }
    }),
    ("8: step end", |random, table| {
        once_or_twice(random, table, step_end_too_high)
    }),
    (
        "8 before 9 and 24: step repeated, and a step end",
        |random, table| {
            repeat_step(random, table);
            step_end_too_high(random, table);
        },
    ),
    ("9 or 24: step repeated", |random, table| {
        once_or_twice(random, table, repeat_step)
    }),
    (
        "9 or 24: a step equal to the one before it",
        |random, table| {
            if let Some(later) = any_later_step(random, table) {
                let width = layout(table).step_width;
                table.copy_within(later - width..later, later);
            }
        },
    ),
    ("24: two neighbours exchanged", |random, table| {
        if let Some(later) = any_later_step(random, table) {
            let width = layout(table).step_width;
            table[later - width..later + width].rotate_left(width);
        }
    }),
    (
        "24: the steps of version 1 in a later version",
        |random, table| {
            if !has_keys(table) {
                set_version(table, random.pick(&[2, 3, 4]));
            }
        },
    ),
    (
        "24: two ends again with a key that does not rise",
        |random, table| {
            if let Some(later) = any_later_step(random, table).filter(|_| has_keys(table)) {
                let [from, to, key] = [3, 2, 1].map(|before| table[later - before]);
                let key = random.within(0, key as usize) as u8;
                table[later..later + 3].copy_from_slice(&[from, to, key]);
            }
        },
    ),
    ("24: steps that rise by from, key, to", |_, table| {
        sort_keyed(table, |[from, to, key]| [from, key, to])
    }),
    ("24: steps that rise by key, from, to", |_, table| {
        sort_keyed(table, |[from, to, key]| [key, from, to])
    }),
];

/// Changes after which the table is still well formed.
pub const TABLE_RESIZES: &[ByteEdit] = &[
    ("n raised to 63 or 64", |random, table| {
        let n = random.pick(&[63, 64]).max(states(table));
        let mut marks = marks(table);
        marks.resize(n, 0);
        replace_marks(table, &marks, layout(table).mark_width);
        table[5] = n as u8;
    }),
    ("m raised to 255 or 256", |random, table| {
        let (n, wanted) = (states(table) as u8, random.pick(&[255, 256]));
        let first_key = if has_keys(table) { random.byte() } else { 0 };
        let keys = if has_keys(table) { 256 } else { 1 };
        let mut steps = step_list(table);
        for step in (0..keys).flat_map(|key| {
            let key = first_key.wrapping_add(key as u8);
            (0..n).flat_map(move |from| (0..n).map(move |to| [from, to, key]))
        }) {
            if steps.len() < wanted && !steps.contains(&step) {
                steps.push(step);
            }
        }
        replace_steps(table, steps);
    }),
    ("the same table in another version", |random, table| {
        if !has_keys(table) {
            set_version(table, random.pick(VERSIONS));
            sort_if_rising(table);
        }
    }),
    ("the same table of the other kind", |random, table| {
        let mut steps = step_list(table);
        if has_keys(table) {
            steps.iter_mut().for_each(|step| step[2] = 0);
            steps.dedup();
            let version = random.pick(&[3, 4]);
            let (marks, width) = (marks(table), 2 * version - 4);
            replace_marks(table, &marks, width);
            put_form(table, Form::tpt(version as u16));
        } else {
            set_version(table, 4);
            put_form(table, Form::TPK);
        }
        replace_steps(table, steps);
    }),
    ("another start", |random, table| {
        let start = random.below(states(table));
        if layout(table).start_word {
            change_starts(table, |_| 1 << start);
        } else {
            table[6] = start as u8;
        }
    }),
    ("a further start", |random, table| {
        let start = random.below(states(table));
        change_starts(table, |starts| starts | 1 << start);
    }),
    ("the last state a start", |_, table| {
        let last = states(table) - 1;
        change_starts(table, |starts| starts | 1 << last);
    }),
    ("all starts", |_, table| {
        let n = states(table);
        change_starts(table, |_| u64::MAX >> (64 - n));
    }),
];

/// Changes of a mark, after which the table is still well formed. In 16 bits a mark keeps
/// its low half, so some of them change nothing there.
pub const MARK_EDITS: &[ByteEdit] = &[
    ("one bit of a mark turned", |random, table| {
        let bit = random.below(32);
        change_mark(random, table, |mark| mark ^ 1 << bit);
    }),
    (
        "one bit of the high half of a mark turned",
        |random, table| {
            let bit = random.within(16, 31);
            change_mark(random, table, |mark| mark ^ 1 << bit);
        },
    ),
    ("a mark raised or lowered by one", |random, table| {
        let by = random.pick(&[1, u32::MAX]);
        change_mark(random, table, |mark| mark.wrapping_add(by));
    }),
    ("65,535 and 65,536 exchanged", |_, table| {
        let exchanged = |mark| match mark {
            65_535 => 65_536,
            65_536 => 65_535,
            mark => mark,
        };
        let marks: Vec<u32> = marks(table).into_iter().map(exchanged).collect();
        replace_marks(table, &marks, layout(table).mark_width);
    }),
];

/// Changes of keys, after which the table is still well formed. They change nothing where
/// there are none.
pub const KEY_EDITS: &[ByteEdit] = &[
    ("another key", |random, table| {
        change_key(random, table, another_key)
    }),
    ("a key taken off", |random, table| {
        change_key(random, table, |_, _| 0)
    }),
    ("a step again with another key", |random, table| {
        let mut steps = step_list(table);
        if has_keys(table) && (1..256).contains(&steps.len()) {
            let [from, to, key] = random.pick(&steps);
            steps.push([from, to, another_key(random, key)]);
            replace_steps(table, steps);
        }
    }),
    ("all keys taken off", |_, table| {
        let mut steps = step_list(table);
        steps.iter_mut().for_each(|step| step[2] = 0);
        replace_steps(table, steps);
    }),
    ("one key for all", |random, table| {
        if has_keys(table) {
            let (mut steps, key) = (step_list(table), random.pick(&[1, 2, 255]));
            steps.iter_mut().for_each(|step| step[2] = key);
            replace_steps(table, steps);
        }
    }),
];

/// Makes the change, and in some cases makes it again.
fn once_or_twice(random: &mut Random, table: &mut [u8], change: fn(&mut Random, &mut [u8])) {
    change(random, table);
    if random.percent(30) {
        change(random, table);
    }
}

fn layout(table: &[u8]) -> TableLayout {
    TableLayout::of_file(table).expect("the version is known")
}

pub fn has_keys(table: &[u8]) -> bool {
    Kind::of_file(table) == Some(Kind::Tpk)
}

fn states(table: &[u8]) -> usize {
    table[5] as usize
}

fn steps(table: &[u8]) -> usize {
    let bytes = &table[layout(table).m()];
    bytes[0] as usize * 256 + bytes[1] as usize
}

fn set_steps(table: &mut [u8], m: usize) {
    let place = layout(table).m();
    table[place].copy_from_slice(&(m as u16).to_be_bytes());
}

fn first_step(table: &[u8]) -> usize {
    layout(table).step(states(table), 0)
}

/// From, to and key of each step; the key is 0 where there are none.
fn step_list(table: &[u8]) -> Vec<[u8; 3]> {
    let steps = table[first_step(table)..].chunks_exact(layout(table).step_width);
    steps
        .map(|step| [step[0], step[1], step.get(2).copied().unwrap_or(0)])
        .collect()
}

/// Puts these steps, of which each gets so many bytes, in place of those that stand there.
fn put_steps(table: &mut Vec<u8>, steps: &[[u8; 3]], width: usize) {
    table.truncate(first_step(table));
    table.extend(steps.iter().flat_map(|step| &step[..width]));
}

/// Puts these steps in place of those that stand there, each once where they must rise.
fn replace_steps(table: &mut Vec<u8>, mut steps: Vec<[u8; 3]>) {
    if layout(table).rising {
        steps.sort();
        steps.dedup();
    }
    set_steps(table, steps.len());
    put_steps(table, &steps, layout(table).step_width);
}

fn sort_if_rising(table: &mut Vec<u8>) {
    replace_steps(table, step_list(table));
}

/// Sorts the steps of a table with keys by these numbers.
fn sort_keyed(table: &mut Vec<u8>, numbers: impl Fn([u8; 3]) -> [u8; 3]) {
    if has_keys(table) {
        let mut steps = step_list(table);
        steps.sort_by_key(|&step| numbers(step));
        put_steps(table, &steps, 3);
    }
}

/// Gives some step of a table with keys another key.
fn change_key(
    random: &mut Random,
    table: &mut Vec<u8>,
    change: impl FnOnce(&mut Random, u8) -> u8,
) {
    let mut steps = step_list(table);
    if has_keys(table) && !steps.is_empty() {
        let j = random.below(steps.len());
        steps[j][2] = change(random, steps[j][2]);
        replace_steps(table, steps);
    }
}

/// Changes the start word, where the table has one.
fn change_starts(table: &mut [u8], change: impl FnOnce(u64) -> u64) {
    if layout(table).start_word {
        let starts = change(start_word(table));
        let place = layout(table).starts();
        table[place].copy_from_slice(&starts.to_be_bytes());
    }
}

fn start_word(table: &[u8]) -> u64 {
    let bytes = table[layout(table).starts()].iter();
    bytes.fold(0, |high, &byte| high << 8 | u64::from(byte))
}

fn marks(table: &[u8]) -> Vec<u32> {
    let number = |bytes: &[u8]| {
        let bytes = bytes.iter();
        bytes.fold(0, |high, &byte| high << 8 | u32::from(byte))
    };
    let (first, end) = (layout(table).mark(0), first_step(table));
    let marks = table[first..end].chunks(layout(table).mark_width);
    marks.map(number).collect()
}

/// Changes the mark of some state.
fn change_mark(random: &mut Random, table: &mut Vec<u8>, change: impl Fn(u32) -> u32) {
    let mut marks = marks(table);
    let state = random.below(marks.len());
    marks[state] = change(marks[state]);
    replace_marks(table, &marks, layout(table).mark_width);
}

/// Puts these marks, of which each gets so many bytes, in place of those that stand there.
fn replace_marks(table: &mut Vec<u8>, marks: &[u32], width: usize) {
    let place = layout(table).mark(0)..first_step(table);
    let bytes = marks
        .iter()
        .flat_map(|mark| mark.to_be_bytes().into_iter().skip(4 - width));
    table.splice(place, bytes);
}

/// Sets a bit that stands for no state in the start word, where the table has one.
fn add_start_too_high(random: &mut Random, table: &mut [u8]) {
    let n = states(table);
    if n < 64 {
        let any = random.within(n, 63);
        let start = random.pick(&[n, n, 63, any]);
        change_starts(table, |starts| starts | 1 << start);
    }
}

/// Writes another version and nothing else.
fn put_version(table: &mut [u8], version: u16) {
    table[3..5].copy_from_slice(&version.to_be_bytes());
}

/// Writes another kind and another version and nothing else.
fn put_form(table: &mut [u8], form: Form) {
    table[..3].copy_from_slice(form.kind.bytes());
    put_version(table, form.version);
}

/// Puts a table without keys into another version and leaves its steps as they are. Of
/// several starts the first is kept where there is no room for more, and of a mark the low
/// half.
fn set_version(table: &mut Vec<u8>, version: u16) {
    let before = layout(table);
    let after = TableLayout::of(Form::tpt(version)).expect("the version is known");
    let (starts, marks) = (start_word(table), marks(table));
    replace_marks(table, &marks, after.mark_width);
    put_version(table, version);
    match (before.start_word, after.start_word) {
        (true, false) => {
            table.splice(before.starts(), [starts.trailing_zeros() as u8]);
        }
        (false, true) => {
            table.splice(before.starts(), (1u64 << starts).to_be_bytes());
        }
        _ => {}
    }
}

fn step_end_too_high(random: &mut Random, table: &mut [u8]) {
    let m = steps(table);
    if m > 0 {
        let n = table[5];
        let step = layout(table).step(states(table), random.below(m));
        table[step + random.below(2)] = random.pick(&[n, n, n + 1, 64, 255]);
    }
}

/// Where a step begins that has one before it.
fn any_later_step(random: &mut Random, table: &[u8]) -> Option<usize> {
    let m = steps(table);
    (m >= 2).then(|| layout(table).step(states(table), random.within(1, m - 1)))
}

fn repeat_step(random: &mut Random, table: &mut [u8]) {
    let m = steps(table);
    if m >= 2 {
        let later = random.within(1, m - 1);
        let earlier = random.below(later);
        let n = states(table);
        let place = |j| layout(table).step(n, j);
        let (from, to) = (place(earlier)..place(earlier + 1), place(later));
        table.copy_within(from, to);
    }
}

#[cfg(test)]
mod tests {
    use super::*;
    use crate::families::any_system;
    use crate::system::Forms;
    use std::collections::BTreeSet;

    /// The number with which the left table is refused, or 0.
    fn refusal(table: &[u8]) -> u64 {
        match oracle::judge(table, &[], &[]) {
            [_, 1, ..] => 0,
            [code, ..] => code,
        }
    }

    /// A near miss is refused with a number of its label or not at all, and each version
    /// gets each of its numbers.
    #[test]
    fn labels_have_the_number_of_the_answer() {
        let mut random = Random::new(1);
        let mut seen = BTreeSet::new();
        for _ in 0..1_000 {
            let table = any_system(&mut random, Forms::All).left_bytes();
            let form = Form::of_file(&table).expect("the table is well formed");
            for (label, edit) in TABLE_EDITS {
                let mut edited = table.clone();
                edit(&mut random, &mut edited);
                let code = refusal(&edited);
                let numbers = label.split(" before ").next().unwrap_or(label);
                let numbers = numbers.split(':').next().unwrap_or(numbers);
                let mut said = numbers.split(' ').filter_map(|word| word.parse().ok());
                let expected =
                    code == 0 || !label.contains(':') || said.any(|said: u64| said == code);
                assert!(expected, "{code} for {label}");
                seen.insert((form, code));
            }
        }
        for (form, codes) in [
            (Form::tpt(1), [1, 2, 3, 4, 5, 6, 7, 8, 9]),
            (Form::tpt(2), [1, 2, 3, 4, 5, 6, 7, 8, 24]),
            (Form::tpt(3), [1, 2, 3, 4, 28, 6, 7, 8, 24]),
            (Form::tpt(4), [1, 2, 3, 4, 28, 6, 7, 8, 24]),
            (Form::TPK, [1, 2, 3, 4, 28, 6, 7, 8, 24]),
        ] {
            let missing = codes
                .into_iter()
                .find(|&code| !seen.contains(&(form, code)));
            assert_eq!(missing, None, "{form:?}");
        }
    }

    /// One change or two, and the table is still well formed.
    #[test]
    fn resized_tables_are_well_formed() {
        let mut random = Random::new(2);
        for _ in 0..1_000 {
            let mut table = any_system(&mut random, Forms::All).left_bytes();
            for _ in 0..2 {
                let edits = random.pick(&[TABLE_RESIZES, MARK_EDITS, KEY_EDITS]);
                let (label, edit) = random.pick(edits);
                edit(&mut random, &mut table);
                assert_eq!(refusal(&table), 0, "{label}");
            }
        }
    }
}
