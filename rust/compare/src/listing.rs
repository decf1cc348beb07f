//! Compares a listing program with the oracle's.

use crate::accepted::Accepted;
use crate::answers_seen::{self, Files};
use crate::names::{of_each_kind, SIDES};
use crate::report::{Report, Seen};
use crate::{keys_seen, kinds_seen, require_same, starts_seen, JUDGE_CODES};
use inputs::{Forms, ListingCases, PROGRAM_FORMS};
use oracle::{Form, Line};

const CLAUSES: [&str; 3] = ["2a", "2b", "2c"];

/// What can be special about an accepted input as a whole.
const NO_DUTY: &str = "accepted, no duty";
const ALL_CLAUSES: &str = "accepted, all three clauses";
const FULL_SIZE: &str = "accepted, 32,768 lines";
const A_THIRD: &str = "accepted, at least one in three";

/// What can be special about a line: a lister that chose otherwise would differ.
const NOT_THE_FIRST: &str = "the first step's end is greater";
const NOT_THE_END: &str = "u is not t";
const RANK_DECIDES: &str = "a smaller state's rank does not fall";

/// Compares a listing program with the oracle's on `count` inputs. The closure is given
/// the standard input and gives what was printed.
pub fn listing(count: usize, seed: u64, mut under_test: impl FnMut(&[u8]) -> String) -> Report {
    let mut report = Report::new(required());
    let mut accepted = 0;
    for case in ListingCases::new(seed, count) {
        let expected = oracle::listing_program(&case.input);
        let found = under_test(&case.input);
        require_same("listing", case.label, &case.input, &expected, &found);
        report.see_label(case.label);
        report.see(case.label);
        let [left, right, certificate] = oracle::pieces(&case.input);
        let files = Files::certified(left, right, certificate);
        let listed = oracle::list(left, right, certificate);
        let answer = listed.as_ref().err().copied().unwrap_or([0; 6]);
        kinds_seen::see(&mut report, answer, files, |left, right| {
            oracle::tuned::judge(left, right, certificate)[0]
        });
        let mut seen = answers_seen::see(&mut report, "accepted", answer, files);
        if let Ok(lines) = listed {
            accepted += 1;
            let accepted = Accepted::of(left, right, certificate);
            see_lines(&mut seen, &accepted, &lines);
            keys_seen::see_success(&mut seen, "accepted", files);
            keys_seen::see_certificate(&mut seen, files, certificate);
        }
    }
    if 3 * accepted >= count {
        report.see(A_THIRD);
    }
    report
}

fn required() -> Vec<String> {
    let mut required = of_each_kind(Forms::All, required_of_kind);
    required.extend(kinds_seen::required_of_programs());
    required.extend(PROGRAM_FORMS.map(String::from));
    required.push(A_THIRD.to_string());
    required
}

/// What must be seen of tables of one kind.
fn required_of_kind(forms: &[Form]) -> Vec<String> {
    let mut required = answers_seen::required("accepted", forms, JUDGE_CODES);
    required.extend(starts_seen::required_of_large("accepted", forms));
    required.extend([NO_DUTY, ALL_CLAUSES, FULL_SIZE].map(String::from));
    if forms == [Form::TPK] {
        required.extend(keys_seen::required("accepted"));
        required.extend(keys_seen::required_of_met());
    }
    for side in SIDES {
        required.extend(CLAUSES.map(|clause| format!("{side} {clause}")));
        let mut special = vec![("2b", NOT_THE_END), ("2c", RANK_DECIDES)];
        // Where steps rise, the first of those from a state has the smallest end.
        if forms.contains(&Form::tpt(1)) {
            special.extend([("2a", NOT_THE_FIRST), ("2c", NOT_THE_FIRST)]);
        }
        let special = special.into_iter();
        required.extend(special.map(|(clause, special)| format!("{side} {clause}, {special}")));
    }
    required
}

fn see_lines(seen: &mut Seen, files: &Accepted, lines: &[Line]) {
    let mut clauses = [false; 3];
    for &line in lines {
        let [side, _, _, _, clause, answering] = line;
        let clause = clause as usize - 1;
        clauses[clause] = true;
        let name = format!("{} {}", SIDES[side as usize], CLAUSES[clause]);
        if clause == 1 {
            if files.end(line) != answering {
                seen.see(format!("{name}, {NOT_THE_END}"));
            }
        } else if files.serving(line)[0] != answering {
            seen.see(format!("{name}, {NOT_THE_FIRST}"));
        }
        if clause == 2 && files.waiting(line).iter().any(|&v| v < answering) {
            seen.see(format!("{name}, {RANK_DECIDES}"));
        }
        seen.see(name);
    }
    if lines.is_empty() {
        seen.see(NO_DUTY);
    }
    if clauses == [true; 3] {
        seen.see(ALL_CLAUSES);
    }
    if lines.len() == 32_768 {
        seen.see(FULL_SIZE);
    }
}
