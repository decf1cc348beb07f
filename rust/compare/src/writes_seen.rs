//! What a comparison of writers must see, and how it is seen.

use crate::names::limit_names;
use crate::report::Report;
use crate::Answer;
use inputs::{WriteCase, OUTPUT_EDITS, WRITE_EDITS};
use std::collections::BTreeSet;

/// What can be special about an input, and whether this one is.
type Special = (&'static str, fn(&WriteCase) -> bool);

/// What can be special about a table that is written: a writer that did otherwise would
/// differ.
const SPECIAL_TABLES: [Special; 20] = [
    ("64 states and 256 steps", |case| {
        case.marks.len() == 64 && case.steps.len() == 256
    }),
    ("all 256 steps of 16 states", |case| {
        case.marks.len() == 16 && case.steps.len() == 256
    }),
    ("256 steps that rise", |case| {
        case.steps.len() == 256 && rises(&case.steps)
    }),
    ("256 steps that fall", |case| {
        case.steps.len() == 256 && falls(&case.steps)
    }),
    ("256 shuffled steps", |case| {
        case.steps.len() == 256 && !rises(&case.steps) && !falls(&case.steps)
    }),
    ("a mark of 0", |case| case.marks.contains(&0)),
    ("a mark of 65535", |case| case.marks.contains(&65_535)),
    ("a mark of 65536", |case| case.marks.contains(&65_536)),
    ("the greatest mark", |case| case.marks.contains(&u32::MAX)),
    ("a mark of four different bytes", |case| {
        case.marks.contains(&0x0102_0304)
    }),
    ("several states of one mark", |case| {
        case.marks.len() > 1 && case.marks.iter().all(|&mark| mark == case.marks[0])
    }),
    ("marks that fall", |case| {
        case.marks.windows(2).any(|pair| pair[0] > pair[1])
    }),
    ("one start", |case| case.starts.count_ones() == 1),
    ("the last state the one start", |case| {
        case.marks.len() > 1 && case.starts == 1 << (case.marks.len() - 1)
    }),
    ("several starts", |case| case.starts.count_ones() > 1),
    ("all of several states are starts", |case| {
        case.marks.len() > 1 && case.starts.count_ones() as usize == case.marks.len()
    }),
    ("64 starts", |case| case.starts == u64::MAX),
    ("the start 63 alone", |case| case.starts == 1 << 63),
    ("output exact", |case| case.output_length == case.needed()),
    ("output longer", |case| case.output_length > case.needed()),
];

/// What can be special about a refusal, by its number, besides the ways to it. The step that
/// 8 or 9 names is the first for which it holds.
const SPECIAL_REFUSALS: [(u64, Special); 16] = [
    (
        4,
        ("n of 1 to 64 in its low byte", |case| {
            case.marks.len() > 256 && (1..=64).contains(&(case.marks.len() % 256))
        }),
    ),
    (
        4,
        ("n of 1 to 64 in its low 16 bits", |case| {
            case.marks.len() > 65_536 && (1..=64).contains(&(case.marks.len() % 65_536))
        }),
    ),
    (28, ("n = 1", |case| case.marks.len() == 1)),
    (28, ("n = 63", |case| case.marks.len() == 63)),
    (
        6,
        ("m = 257, no step twice", |case| {
            case.steps.len() == 257 && first_doubled(&case.steps).is_none()
        }),
    ),
    (
        6,
        ("m of 0 to 256 in its low 16 bits", |case| {
            case.steps.len() >= 65_536 && case.steps.len() % 65_536 <= 256
        }),
    ),
    (8, ("from alone", |case| high_ends(case) == [true, false])),
    (8, ("to alone", |case| high_ends(case) == [false, true])),
    (
        8,
        ("the last of 256 steps", |case| {
            case.steps.len() == 256 && first_high(case) == 255
        }),
    ),
    (
        8,
        ("a later step too", |case| {
            let later = &case.steps[first_high(case) + 1..];
            later.iter().any(|&step| is_high(case, step))
        }),
    ),
    (9, ("two neighbours", |case| distance(case) == 1)),
    (9, ("two at a distance", |case| distance(case) > 1)),
    (
        9,
        ("the first and the last of 256", |case| {
            distance(case) == 255
        }),
    ),
    // A writer that looked for each step's later ones in turn would name another.
    (
        9,
        ("an earlier step is doubled later", |case| {
            let after = &case.steps[doubled(case) + 1..];
            let before = &case.steps[..earlier(case)];
            before.iter().any(|step| after.contains(step))
        }),
    ),
    (
        9,
        ("a later step is doubled too", |case| {
            let after = &case.steps[doubled(case) + 1..];
            let between = &case.steps[earlier(case) + 1..doubled(case)];
            between.iter().any(|step| after.contains(step))
        }),
    ),
    (
        21,
        ("one byte short", |case| {
            case.output_length + 1 == case.needed()
        }),
    ),
];

/// The causes in the order in which they are tried.
const CAUSES: [u64; 6] = [4, 28, 6, 8, 9, 21];

/// 8 is looked for over all steps before 9 is, so a step that is doubled before it does not
/// count.
const DOUBLED_FIRST: &str = "8 before 9, the doubled step stands first";
const HIGH_FIRST: &str = "8 before 9, the doubled step stands last";
const NO_STATE: &str = "4 before 28, no state";
const MANY_STATES: &str = "4 before 28, over 64 states";
const ALL_CAUSES: &str = "all causes at once";

const A_THIRD: &str = "written, at least one in three";

pub fn required() -> Vec<String> {
    let mut required = vec!["written".to_string(), A_THIRD.to_string()];
    required.extend(limit_names("written"));
    required.push("written, m = 1".to_string());
    required.extend(SPECIAL_TABLES.map(|(special, _)| format!("written, {special}")));
    required.extend(SPECIAL_REFUSALS.map(|(code, (special, _))| refused(code, special)));
    let edits = WRITE_EDITS.iter().chain(OUTPUT_EDITS);
    required.extend(edits.map(|(label, _)| label.to_string()));
    for (i, &first) in CAUSES.iter().enumerate() {
        required.extend(CAUSES[i + 1..].iter().map(|&then| before(first, then)));
    }
    let ties = [NO_STATE, MANY_STATES, HIGH_FIRST, DOUBLED_FIRST, ALL_CAUSES];
    required.extend(ties.map(String::from));
    required
}

fn refused(code: u64, special: &str) -> String {
    format!("{code:>2}, {special}")
}

fn before(first: u64, then: u64) -> String {
    format!("{first} before {then}")
}

/// Sees the answer, the way to it, and what it came before.
pub fn see(report: &mut Report, case: &WriteCase, answer: Answer) {
    let code = answer[0];
    if code == 0 {
        see_table(report, case);
        return;
    }
    for (own, (special, is_special)) in SPECIAL_REFUSALS {
        if own == code && is_special(case) {
            report.see(refused(code, special));
        }
    }
    if case.label.split(':').next() == Some(&code.to_string()) {
        report.see(case.label);
    }
    see_ties(report, case, code);
}

fn see_table(report: &mut Report, case: &WriteCase) {
    report.see("written");
    report.see(format!("written, n = {}", case.marks.len()));
    report.see(format!("written, m = {}", case.steps.len()));
    for (special, is_special) in SPECIAL_TABLES {
        if is_special(case) {
            report.see(format!("written, {special}"));
        }
    }
}

/// Sees which causes apply besides the first of them, which is the answer.
fn see_ties(report: &mut Report, case: &WriteCase, code: u64) {
    let causes: Vec<u64> = (CAUSES.into_iter())
        .filter(|&cause| applies(case, cause))
        .collect();
    assert_eq!(causes.first(), Some(&code), "the first cause is answered");
    for &then in &causes[1..] {
        report.see(before(code, then));
    }
    if causes.len() == CAUSES.len() {
        report.see(ALL_CAUSES);
    }
    if causes.starts_with(&[4, 28]) {
        report.see(match case.marks.is_empty() {
            true => NO_STATE,
            false => MANY_STATES,
        });
    }
    if causes.starts_with(&[8, 9]) {
        report.see(match doubled(case) < first_high(case) {
            true => DOUBLED_FIRST,
            false => HIGH_FIRST,
        });
    }
}

/// Whether the cause of this number applies, whatever the others.
fn applies(case: &WriteCase, cause: u64) -> bool {
    let n = case.marks.len();
    match cause {
        4 => n == 0 || n > 64,
        28 => case.starts == 0 || (n < 64 && case.starts >> n != 0),
        6 => case.steps.len() > 256,
        8 => case.steps.iter().any(|&step| is_high(case, step)),
        9 => first_doubled(&case.steps).is_some(),
        _ => case.output_length < case.needed(),
    }
}

/// Sees whether enough of all inputs were written.
pub fn see_share(report: &mut Report, written: usize, count: usize) {
    if 3 * written >= count {
        report.see(A_THIRD);
    }
}

fn rises(steps: &[u16]) -> bool {
    steps.windows(2).all(|pair| pair[0] < pair[1])
}

fn falls(steps: &[u16]) -> bool {
    steps.windows(2).all(|pair| pair[0] > pair[1])
}

/// An end of this step is no state.
fn is_high(case: &WriteCase, step: u16) -> bool {
    let ends = step.to_be_bytes();
    ends.iter().any(|&end| end as usize >= case.marks.len())
}

/// The first step that 8 is for.
fn first_high(case: &WriteCase) -> usize {
    let place = case.steps.iter().position(|&step| is_high(case, step));
    place.expect("8 applies")
}

/// Which ends of that step are no state.
fn high_ends(case: &WriteCase) -> [bool; 2] {
    let ends = case.steps[first_high(case)].to_be_bytes();
    ends.map(|end| end as usize >= case.marks.len())
}

fn first_doubled(steps: &[u16]) -> Option<usize> {
    let mut seen = BTreeSet::new();
    steps.iter().position(|step| !seen.insert(step))
}

/// The first step that 9 is for.
fn doubled(case: &WriteCase) -> usize {
    first_doubled(&case.steps).expect("9 applies")
}

/// The first place of the step that it equals.
fn earlier(case: &WriteCase) -> usize {
    let doubled = case.steps[doubled(case)];
    let place = case.steps.iter().position(|&step| step == doubled);
    place.expect("it stands there")
}

fn distance(case: &WriteCase) -> usize {
    doubled(case) - earlier(case)
}
