//! What a comparison of followers must see, and how it is seen.

use crate::accepted::Accepted;
use crate::answers_seen::{self, Files};
use crate::matching::{Block, Given};
use crate::names::{of_each_kind, SIDES};
use crate::report::Report;
use crate::tables::{has_keys, starts, steps};
use crate::{marks_seen, starts_seen, Answer, JUDGE_CODES};
use inputs::{FollowCase, Forms, RUN_EDITS, VERSIONS};
use oracle::Line;

const OUTPUTS: [&str; 2] = ["first", "second"];

/// By what a state is answered or written: one of the clauses, or the way on to a dead
/// end.
const CLAUSES: [&str; 3] = ["2a", "2b", "2c"];
const GOING_ON: &str = "going on";

/// What can be special about a choice: a follower that chose otherwise would differ.
const NOT_THE_FIRST: &str = "the first step's end is greater";
const RANK_DECIDES: &str = "a smaller state's rank does not fall";
const ALSO_2B: &str = "2b holds too";
const ALSO_2C: &str = "2c holds too";

const SPECIAL_CHOICES: [(&str, &str); 7] = [
    ("2a", NOT_THE_FIRST),
    ("2a", ALSO_2B),
    ("2a", ALSO_2C),
    ("2b", ALSO_2C),
    ("2c", NOT_THE_FIRST),
    ("2c", RANK_DECIDES),
    (GOING_ON, NOT_THE_FIRST),
];

/// What can be special about a run that is followed.
type SpecialRun = (&'static str, fn(&Given, &[Block]) -> bool);

const SPECIAL_RUNS: [SpecialRun; 12] = [
    ("a path of 1 state", |given, _| given.path.len() == 1),
    ("a path of 256 states", |given, _| given.path.len() == 256),
    ("a path from no start of its table", |given, _| {
        !starts(given.own()).contains(&(given.path[0] as usize))
    }),
    ("a path from a later start of its table", |given, _| {
        starts(given.own())[1..].contains(&(given.path[0] as usize))
    }),
    ("a start that is none of its table's", |given, _| {
        !starts(given.other()).contains(&(given.start as usize))
    }),
    ("a later start of its table", |given, _| {
        starts(given.other())[1..].contains(&(given.start as usize))
    }),
    ("a dead end at once", |given, blocks| {
        let last = last(blocks);
        let end = last.given[last.given.len() - 1];
        last.written.len() == 1 && steps(given.own()).all(|step| step.from != end)
    }),
    ("256 blocks", |_, blocks| blocks.len() == 256),
    ("a block of 64 states given", |_, blocks| {
        blocks.iter().any(|block| block.given.len() == 64)
    }),
    ("a block of 64 states by 2c", |_, blocks| {
        let before_last = &blocks[..blocks.len() - 1];
        before_last.iter().any(|block| block.written.len() == 64)
    }),
    ("a block of 64 states going on", |_, blocks| {
        last(blocks).written.len() == 64
    }),
    ("8,192 states written", |_, blocks| {
        states_written(blocks) == 8_192
    }),
];

/// Which refusal comes first where there are causes for two.
const ORDERS: [[&str; 2]; 6] = [
    ["the judge's", "25"],
    ["the judge's", "26"],
    ["the judge's", "27"],
    ["25", "26"],
    ["25", "27"],
    ["26", "27"],
];

const A_THIRD: &str = "followed, at least one in three";

pub fn required() -> Vec<String> {
    let mut required = of_each_kind(Forms::Tpt(VERSIONS), |forms| {
        let codes = JUDGE_CODES.into_iter().chain(25..=27);
        let mut required = answers_seen::required("followed", forms, codes);
        required.extend(starts_seen::required_of_large("followed", forms));
        required.extend(marks_seen::required_of_functions("followed", forms));
        required
    });
    required.extend(required_of_keys());
    required.push(A_THIRD.to_string());
    required.extend(RUN_EDITS.iter().map(|(label, _)| label.to_string()));
    required.extend(ORDERS.map(|[first, then]| format!("{first} before {then}")));
    required.extend(SPECIAL_RUNS.map(|(special, _)| format!("followed, {special}")));
    for output in OUTPUTS {
        required.push(format!("followed, {output} output exact"));
        required.push(format!("followed, {output} output longer"));
    }
    for side in SIDES {
        required.extend(CLAUSES.map(|clause| format!("{side} {clause}")));
        required.push(format!("{side} {GOING_ON}"));
        required.extend(SPECIAL_CHOICES.map(|(way, special)| format!("{side} {way}, {special}")));
    }
    required
}

/// The numbers that the judge has for a table with keys, after 2.
const KEYED_TABLE_CODES: [u64; 8] = [1, 3, 4, 6, 7, 8, 24, 28];

/// Those that it has for what comes after two tables with keys.
const AFTER_KEYED_TABLES: [u64; 10] = [10, 11, 12, 13, 14, 15, 16, 17, 18, 19];

const BOTH_ACCEPTED: &str = " 2, two tables with keys that the judge accepts";
const LEFT_FIRST: &str = "a refusal of the left table before 2 of the right one with keys";

/// "The follower of runs takes TPT only and answers 2 for TPK": what must be seen of this.
fn required_of_keys() -> Vec<String> {
    let mut required = [BOTH_ACCEPTED, LEFT_FIRST].map(String::from).to_vec();
    required.extend(AFTER_KEYED_TABLES.map(before_files));
    for side in SIDES {
        required.push(format!(" 1, {side} table with keys under 9 bytes"));
        required.push(beside_another_kind(side));
        required.extend(KEYED_TABLE_CODES.map(|code| before_table(side, code)));
        required.extend([25, 26, 27].map(|code| before_run(side, code)));
    }
    required.push(before_right_table());
    required
}

fn beside_another_kind(side: &str) -> String {
    format!(" 2 before 30, {side} table with keys")
}

fn before_table(side: &str, code: u64) -> String {
    format!(" 2 before {code} of the same table, {side} table with keys")
}

fn before_right_table() -> String {
    " 2 before a refusal of the right table, left table with keys".to_string()
}

fn before_files(code: u64) -> String {
    format!(" 2 before {code}, two tables with keys")
}

fn before_run(side: &str, code: u64) -> String {
    format!(" 2 before {code}, {side} table with keys")
}

/// Sees what is answered to tables with keys, and what it comes before.
fn see_keys(report: &mut Report, case: &FollowCase, [code, file, ..]: Answer) {
    let tables = [&case.left[..], &case.right];
    if !answers_seen::refuses_table(code) {
        assert!(
            !tables.iter().any(|table| has_keys(table)),
            "keys are taken"
        );
        return;
    }
    let (refused, side) = (tables[file as usize], SIDES[file as usize]);
    if !has_keys(refused) {
        if file == 0 && has_keys(tables[1]) && tables[1].len() >= 9 {
            report.see(LEFT_FIRST);
        }
        return;
    }
    if code == 1 {
        report.see(format!(" 1, {side} table with keys under 9 bytes"));
        return;
    }
    assert_eq!(code, 2, "a table with keys is read");
    let [judged, judged_file, ..] = oracle::judge(tables[0], tables[1], &case.certificate);
    report.see(match judged {
        0 => BOTH_ACCEPTED.to_string(),
        30 => beside_another_kind(side),
        _ if !answers_seen::refuses_table(judged) => before_files(judged),
        _ if judged_file == file => before_table(side, judged),
        _ => before_right_table(),
    });
    for code in 25..=27 {
        if case.label.starts_with(&code.to_string()) {
            report.see(before_run(side, code));
        }
    }
}

/// Sees the answer, the way to it, and what it came before.
pub fn see_answer(report: &mut Report, case: &FollowCase, answer: Answer) {
    let files = Files::certified(&case.left, &case.right, &case.certificate);
    answers_seen::see(report, "followed", answer, files);
    see_keys(report, case, answer);
    let number = answer[0].to_string();
    if case.label.split(':').next() == Some(&number) {
        report.see(case.label);
    }
    if let Some(earlier) = case.earlier {
        let first = match answer[0] {
            25..=27 => &number,
            _ => "the judge's",
        };
        report.see(format!("{first} before {}", &earlier[..2]));
    }
}

/// Sees whether enough of all inputs were followed.
pub fn see_share(report: &mut Report, followed: usize, count: usize) {
    if 3 * followed >= count {
        report.see(A_THIRD);
    }
}

/// Sees what is special about a run that was followed, and each choice.
pub fn see_matching(report: &mut Report, case: &FollowCase, given: &Given, blocks: &[Block]) {
    let needed = [3 * states_written(blocks), 2 * given.path.len()];
    let lent = [case.run.states_length, case.run.blocks_length];
    for (output, (lent, needed)) in OUTPUTS.iter().zip(lent.iter().zip(needed)) {
        let how = if *lent == needed { "exact" } else { "longer" };
        report.see(format!("followed, {output} output {how}"));
    }
    for (special, is_special) in SPECIAL_RUNS {
        if is_special(given, blocks) {
            report.see(format!("followed, {special}"));
        }
    }
    let side = SIDES[given.side as usize];
    for (way, special) in choices(given, blocks) {
        report.see(format!("{side} {way}"));
        for special in special {
            report.see(format!("{side} {way}, {special}"));
        }
    }
}

/// Each choice by its way, with what is special about it.
fn choices(given: &Given, blocks: &[Block]) -> Vec<(&'static str, Vec<&'static str>)> {
    let files = Accepted::of(given.left, given.right, given.certificate);
    let mut choices = Vec::new();
    for line in lines(given, blocks) {
        let clause = CLAUSES[line[4] as usize - 1];
        choices.push((clause, special(&files, line)));
    }
    for pair in last(blocks).written.windows(2) {
        let mut from_here = steps(given.other()).filter(|step| step.from == pair[0]);
        let is_first = from_here.next().is_some_and(|step| step.to == pair[1]);
        let special = if is_first {
            vec![]
        } else {
            vec![NOT_THE_FIRST]
        };
        choices.push((GOING_ON, special));
    }
    choices
}

/// How each step of the path was answered, as lines of a listing. States given in one
/// block are answered by 2b; in a block before the last one each state written but the
/// first serves 2c, and the first of the next block 2a.
fn lines(given: &Given, blocks: &[Block]) -> Vec<Line> {
    let line = |s: usize, u: usize, t: usize, clause: usize, answering: usize| {
        let (left, right) = [(s, t), (t, s)][given.side as usize];
        let step = steps(given.own()).position(|step| (step.from, step.to) == (s, u));
        let step = step.expect("neighbours are a step");
        [given.side as usize, left, right, step, clause, answering].map(|number| number as u64)
    };
    let mut lines = Vec::new();
    for (i, block) in blocks.iter().enumerate() {
        let t = block.written[0];
        for pair in block.given.windows(2) {
            lines.push(line(pair[0], pair[1], t, 2, t));
        }
        if let Some(next) = blocks.get(i + 1) {
            let (s, u) = (block.given[block.given.len() - 1], next.given[0]);
            for pair in block.written.windows(2) {
                lines.push(line(s, u, pair[0], 3, pair[1]));
            }
            let t = block.written[block.written.len() - 1];
            lines.push(line(s, u, t, 1, next.written[0]));
        }
    }
    lines
}

/// What is special about the choice of a line.
fn special(files: &Accepted, line: Line) -> Vec<&'static str> {
    let [side, left, right, step, clause, answering] = line;
    let by_2c = [side, left, right, step, 3, 0];
    let also_2c = || !files.serving(by_2c).is_empty();
    let mut special = Vec::new();
    let mut see = |what, seen: bool| special.extend(seen.then_some(what));
    match clause {
        1 => {
            see(NOT_THE_FIRST, files.serving(line)[0] != answering);
            see(ALSO_2B, files.pauses(line));
            see(ALSO_2C, also_2c());
        }
        2 => see(ALSO_2C, also_2c()),
        _ => {
            see(NOT_THE_FIRST, files.serving(line)[0] != answering);
            let waiting = files.waiting(line);
            see(RANK_DECIDES, waiting.iter().any(|&v| v < answering));
        }
    }
    special
}

fn last(blocks: &[Block]) -> &Block {
    &blocks[blocks.len() - 1]
}

fn states_written(blocks: &[Block]) -> usize {
    blocks.iter().map(|block| block.written.len()).sum()
}
