//! Runs an implementation beside the oracle on generated inputs. At the first
//! difference it panics with the input; otherwise it reports what was seen.

mod accepted;
mod answers_seen;
mod commit;
mod enquire;
mod follow;
mod found;
mod functions;
mod keys_seen;
mod kinds_seen;
mod listing;
mod make;
mod marks_seen;
mod matching;
mod names;
mod path_property;
mod promised;
mod report;
mod runs_seen;
mod slips_seen;
mod starts_seen;
mod tables;
mod worked;
mod write;
mod writes_seen;

pub use accepted::Accepted;
use answers_seen::Files;
pub use commit::commit;
pub use enquire::enquire;
pub use follow::follow;
pub use found::is_found;
pub use functions::Functions;
use inputs::{Forms, JudgeCases, ProgramCases, PROGRAM_FORMS};
pub use listing::listing;
pub use make::{make, make_in};
pub use matching::{Block, Given};
use names::{limit_names, of_each_kind, size_names};
use oracle::Form;
pub use path_property::Implementation;
pub use promised::EnquiryAndCommit;
pub use report::Report;
use report::Seen;
pub use worked::{require_worked_enquiries, require_worked_tables};
pub use write::write;

type Answer = [u64; 6];

/// The judge's numbers after those of the tables, but for 16 and 17, which are seen with the
/// starts and the marks.
const JUDGE_CODES: [u64; 8] = [10, 11, 12, 13, 14, 15, 18, 19];

/// Those of them that can come after 30.
const JUDGE_CODES_AFTER_30: [u64; 10] = [10, 11, 12, 13, 14, 15, 16, 17, 18, 19];

/// Compares a judge with the oracle's on `count` inputs: on tables without keys in every mix
/// of versions, on tables with keys, and on tables of two kinds.
pub fn judge(
    count: usize,
    seed: u64,
    under_test: impl FnMut(&[u8], &[u8], &[u8]) -> Answer,
) -> Report {
    judge_of(Forms::All, count, seed, under_test)
}

/// The same on tables without keys of these versions alone.
pub fn judge_in(
    versions: &'static [u16],
    count: usize,
    seed: u64,
    under_test: impl FnMut(&[u8], &[u8], &[u8]) -> Answer,
) -> Report {
    judge_of(Forms::Tpt(versions), count, seed, under_test)
}

fn judge_of(
    forms: Forms,
    count: usize,
    seed: u64,
    mut under_test: impl FnMut(&[u8], &[u8], &[u8]) -> Answer,
) -> Report {
    let mut report = Report::new(required_of_judge(forms));
    for case in JudgeCases::of(forms, seed, count) {
        let (left, right, certificate) = (&case.left, &case.right, &case.certificate);
        let expected = oracle::judge(left, right, certificate);
        let found = under_test(left, right, certificate);
        assert!(
            found == expected,
            "the judge differs ({})\nexpected    {expected:?}\nfound       {found:?}\n\
             left        {}\nright       {}\ncertificate {}",
            case.label,
            hex(left),
            hex(right),
            hex(certificate),
        );

        report.see_label(case.label);
        let files = Files::certified(left, right, certificate);
        kinds_seen::see(&mut report, expected, files, |left, right| {
            oracle::tuned::judge(left, right, certificate)[0]
        });
        let mut seen = answers_seen::see(&mut report, "accepted", expected, files);
        if expected[0] == 0 {
            seen.see_times("2a", expected[3]);
            seen.see_times("2b", expected[4]);
            seen.see_times("2c", expected[5]);
            for size in [size_names("accepted", left), size_names("accepted", right)].concat() {
                seen.see(size);
            }
        }
        see_keys(&mut seen, expected, files, certificate);
    }
    report
}

fn required_of_judge(forms: Forms) -> Vec<String> {
    let mut required = of_each_kind(forms, |forms| {
        let mut required = answers_seen::required("accepted", forms, JUDGE_CODES);
        required.extend(["2a", "2b", "2c"].map(String::from));
        required.extend(limit_names("accepted"));
        required.extend(starts_seen::required_of_large("accepted", forms));
        required.extend(marks_seen::required_of_functions("accepted", forms));
        if forms == [Form::TPK] {
            required.extend(keys_seen::required("accepted"));
            required.extend(keys_seen::required_of_met());
            required.extend(keys_seen::required_of_failed());
        }
        required
    });
    required.extend(kinds_seen::required(forms, &JUDGE_CODES_AFTER_30));
    required
}

/// Sees what keys do to an answer of the judge.
fn see_keys(seen: &mut Seen, answer: Answer, files: Files, certificate: &[u8]) {
    match answer[0] {
        0 => {
            keys_seen::see_success(seen, "accepted", files);
            keys_seen::see_certificate(seen, files, certificate);
        }
        18 | 19 => keys_seen::see_failed(seen, files, certificate, answer),
        _ => {}
    }
}

/// Compares a program with the oracle's on `count` inputs. The closure is given
/// the standard input and gives what was printed.
pub fn program(count: usize, seed: u64, mut under_test: impl FnMut(&[u8]) -> String) -> Report {
    let mut required = of_each_kind(Forms::All, |forms| {
        answers_seen::required("accepted", forms, JUDGE_CODES)
    });
    required.extend(kinds_seen::required_of_programs());
    required.extend(PROGRAM_FORMS.map(String::from));
    let mut report = Report::new(required);

    for case in ProgramCases::new(seed, count) {
        let expected = oracle::program(&case.input);
        let found = under_test(&case.input);
        require_same("program", case.label, &case.input, &expected, &found);
        report.see_label(case.label);
        report.see(case.label);
        let mut answer = [0; 6];
        for (number, word) in answer.iter_mut().zip(expected.split_whitespace()) {
            *number = word.parse().expect("the program prints numbers");
        }
        let [left, right, certificate] = oracle::pieces(&case.input);
        let files = Files::certified(left, right, certificate);
        kinds_seen::see(&mut report, answer, files, |left, right| {
            oracle::tuned::judge(left, right, certificate)[0]
        });
        answers_seen::see(&mut report, "accepted", answer, files);
    }
    report
}

/// Panics where what a program printed for an input is not what was expected.
fn require_same(program: &str, label: &str, input: &[u8], expected: &str, found: &str) {
    assert!(
        found == expected,
        "the {program} differs ({label}), {}\ninput    {}",
        first_difference(expected, found),
        hex(input),
    );
}

/// The first line in which two different texts differ.
fn first_difference(expected: &str, found: &str) -> String {
    let mut expected = expected.split_inclusive('\n');
    let mut found = found.split_inclusive('\n');
    let mut number = 1;
    loop {
        match (expected.next(), found.next()) {
            (expected, found) if expected != found => {
                return format!("line {number}\nexpected {expected:?}\nfound    {found:?}");
            }
            _ => number += 1,
        }
    }
}

/// Bytes in hexadecimal.
fn hex(bytes: &[u8]) -> String {
    let pairs: Vec<String> = bytes.iter().map(|byte| format!("{byte:02x}")).collect();
    pairs.join(" ")
}
