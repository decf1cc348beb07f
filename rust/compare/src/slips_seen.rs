//! What a comparison of commits must see of the slips, besides what one of makers must see.

use crate::names::{mix_name, mix_names, of_each_kind};
use crate::report::{Report, Seen};
use crate::Answer;
use inputs::{other_slips, slip_numbers, CommitCase, Forms, MakeCase};
use inputs::{OF_EARLIER, OF_ENQUIRY, OF_INPUTS};
use oracle::{Form, Kind, Slip};

/// The refusals of an enquiry that come before 29 is tested, and those that come after.
pub const EARLY: [u64; 14] = [1, 2, 3, 4, 5, 6, 7, 8, 9, 15, 20, 24, 28, 30];
pub const LATE: [u64; 4] = [16, 17, 22, 23];

/// What the length of an output is beside L, where it is too short.
const TOO_SHORT: [&str; 3] = ["one byte short", "shorter", "empty"];

/// What it is where it is long enough.
const LONG_ENOUGH: [&str; 2] = ["exact", "longer"];

const ALONE: &str = "29, nothing else is wrong";
const ALL_AT_ONCE: &str = "29, the output is too short and the enquiry is refused";

pub fn required() -> Vec<String> {
    let mut required = of_each_kind(Forms::All, required_of_kind);
    required.extend(EARLY.map(|code| with_slip(code, OF_ENQUIRY)));
    required.extend(EARLY.map(|code| before(code, 29)));
    required
}

/// What must be seen of tables of one kind that are well formed.
fn required_of_kind(forms: &[Form]) -> Vec<String> {
    let mut required = vec!["29".to_string(), ALONE.to_string(), ALL_AT_ONCE.to_string()];
    required.extend(mix_names("29", forms));
    required.extend(other_slips().iter().map(|label| with_slip(29, label)));
    required.push(with_slip(29, OF_EARLIER));
    required.extend(LATE.map(with_zeros_of));
    for code in [0, 21].into_iter().chain(LATE) {
        required.extend([OF_INPUTS, OF_EARLIER].map(|label| with_slip(code, label)));
    }
    required.extend([0, 21].map(|code| with_slip(code, OF_ENQUIRY)));
    required.extend([21].into_iter().chain(LATE).map(|code| before(29, code)));
    for output in TOO_SHORT {
        required.extend([21, 29].map(|code| with_output(code, output)));
    }
    required.extend(LONG_ENOUGH.map(|output| with_output(29, output)));
    required
}

fn outcome(code: u64) -> String {
    match code {
        0 => "made".to_string(),
        _ => format!("{code:>2}"),
    }
}

fn with_slip(code: u64, label: &str) -> String {
    format!("{}, slip {label}", outcome(code))
}

fn with_zeros_of(code: u64) -> String {
    format!("29, the zeros of an enquiry refused with {code}")
}

fn with_output(code: u64, output: &str) -> String {
    format!("{code}, output {output}")
}

fn before(first: u64, then: u64) -> String {
    format!("{first:>2} before {then}")
}

/// Sees the answer to a commit.
pub fn see(report: &mut Report, case: &CommitCase, answer: Answer) {
    let code = answer[0];
    if EARLY.contains(&code) {
        report.see(with_slip(code, &case.slip_label));
        if differs(case) {
            report.see(before(code, 29));
        }
        return;
    }
    let kind = Kind::of_file(&case.inputs.left).expect("the tables are well formed");
    let mut seen = report.of(kind);
    seen.see(with_slip(code, &case.slip_label));
    assert_eq!(differs(case), code == 29, "29 is for other numbers");
    if code == 21 || code == 29 {
        see_output(&mut seen, case, code);
    }
    if code == 29 {
        seen.see(mix_name("29", &case.inputs.left, &case.inputs.right));
        see_enquiry(&mut seen, case);
    }
}

/// The number of the answer where these tables, which are of one kind, stand in place of those
/// of the case and the slip and the output are as right as they are.
pub fn code_otherwise(case: &CommitCase, left: &[u8], right: &[u8]) -> u64 {
    let ([code, ..], _) = oracle::tuned_maker::enquire(left, right, &case.inputs.relation);
    let (is_short, _) = too_short(case);
    match code {
        15 | 20 => code,
        _ if differs(case) => 29,
        _ if is_short => 21,
        _ => code,
    }
}

/// The numbers of the inputs, where both tables are well formed.
fn numbers(inputs: &MakeCase) -> Option<Slip> {
    slip_numbers(&inputs.left, &inputs.right, &inputs.relation)
}

/// A number on the slip is not that of the inputs. L is not looked at where there is none.
fn differs(case: &CommitCase) -> bool {
    let inputs = &case.inputs;
    match numbers(inputs) {
        Some(numbers) => case.slip != numbers,
        None => {
            let files = [&inputs.left, &inputs.right, &inputs.relation];
            case.slip[..3] != files.map(|file| file.len() as u64)
        }
    }
}

/// Whether the output is too short, and what its length is beside L.
fn too_short(case: &CommitCase) -> (bool, &'static str) {
    let [.., length] = numbers(&case.inputs).expect("both tables are well formed");
    let (length, output_length) = (length as usize, case.inputs.output_length);
    match output_length {
        0 => (true, TOO_SHORT[2]),
        _ if output_length + 1 == length => (true, TOO_SHORT[0]),
        _ if output_length < length => (true, TOO_SHORT[1]),
        _ if output_length == length => (false, LONG_ENOUGH[0]),
        _ => (false, LONG_ENOUGH[1]),
    }
}

fn see_output(seen: &mut Seen, case: &CommitCase, code: u64) {
    let (is_short, output) = too_short(case);
    seen.see(with_output(code, output));
    if code == 29 && is_short {
        seen.see(before(29, 21));
    }
}

/// Sees what an enquiry would answer where the slip is refused.
fn see_enquiry(seen: &mut Seen, case: &CommitCase) {
    let inputs = &case.inputs;
    let (left, right, relation) = (&inputs.left, &inputs.right, &inputs.relation);
    let ([code, ..], _) = oracle::tuned_maker::enquire(left, right, relation);
    let (is_short, _) = too_short(case);
    if code == 0 {
        if !is_short {
            seen.see(ALONE);
        }
        return;
    }
    seen.see(before(29, code));
    if is_short {
        seen.see(ALL_AT_ONCE);
    }
    if case.slip_label == OF_ENQUIRY {
        seen.see(with_zeros_of(code));
    }
}
