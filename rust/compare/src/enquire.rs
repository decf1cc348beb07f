//! Compares an enquiry with the oracle's.

use crate::answers_seen;
use crate::make::files;
use crate::names::{limit_names, of_each_kind, size_names};
use crate::report::Report;
use crate::{hex, keys_seen, kinds_seen, marks_seen, starts_seen, Answer};
use inputs::{Forms, MakeCases};
use oracle::{Form, Slip};

/// What a success is called.
const SUCCESS: &str = "can be made";

/// Compares an enquiry with the oracle's on `count` inputs: the six numbers and the slip.
pub fn enquire(
    count: usize,
    seed: u64,
    mut under_test: impl FnMut(&[u8], &[u8], &[u8]) -> (Answer, Slip),
) -> Report {
    let mut report = Report::new(required());
    for case in MakeCases::new(seed, count) {
        let (left, right, relation) = (&case.left[..], &case.right[..], &case.relation[..]);
        let expected = oracle::enquire(left, right, relation);
        let found = under_test(left, right, relation);
        assert!(
            found == expected,
            "the enquiry differs ({})\nexpected {expected:?}\nfound    {found:?}\n\
             left     {}\nright    {}\nrelation {}",
            case.label,
            hex(left),
            hex(right),
            hex(relation),
        );

        report.see_label(case.label);
        let (answer, files) = (expected.0, files(&case));
        kinds_seen::see(&mut report, answer, files, |left, right| {
            oracle::tuned_maker::enquire(left, right, relation).0[0]
        });
        let mut seen = answers_seen::see(&mut report, SUCCESS, answer, files);
        keys_seen::see_unmatched(&mut seen, files, answer);
        if answer[0] == 0 {
            for size in [size_names(SUCCESS, left), size_names(SUCCESS, right)].concat() {
                seen.see(size);
            }
            seen.see(with_length(answer[2]));
            keys_seen::see_success(&mut seen, SUCCESS, files);
            keys_seen::see_matched(&mut seen, SUCCESS, files);
        }
    }
    report
}

fn required() -> Vec<String> {
    let mut required = of_each_kind(Forms::All, |forms| {
        let mut required = answers_seen::required(SUCCESS, forms, [15, 20, 22, 23]);
        required.extend(limit_names(SUCCESS));
        // The least that there is, and the most.
        required.extend([21, 41_483].map(with_length));
        required.extend(starts_seen::required_of_large(SUCCESS, forms));
        required.extend(marks_seen::required_of_functions(SUCCESS, forms));
        if forms == [Form::TPK] {
            required.extend(keys_seen::required(SUCCESS));
            required.extend(keys_seen::required_of_matched(SUCCESS));
        }
        required
    });
    required.extend(kinds_seen::required(Forms::All, &[15, 16, 17, 20, 22, 23]));
    required
}

fn with_length(length: u64) -> String {
    format!("{SUCCESS}, L = {length}")
}
