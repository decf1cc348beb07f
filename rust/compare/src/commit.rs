//! Compares a commit with the oracle's.

use crate::make::{self, Made};
use crate::report::Report;
use crate::{kinds_seen, slips_seen, Answer};
use inputs::{CommitCases, Forms, Random};
use oracle::Slip;

/// Compares a commit with the oracle's on `count` inputs, as a maker is.
pub fn commit(
    count: usize,
    seed: u64,
    mut under_test: impl FnMut(&[u8], &[u8], &[u8], Slip, &mut [u8]) -> Answer,
) -> Report {
    let mut required = make::required(Forms::All);
    required.extend(slips_seen::required());
    let after = [15, 16, 17, 20, 21, 22, 23, 29];
    required.extend(kinds_seen::required(Forms::All, &after));
    let mut report = Report::new(required);
    let mut random = Random::new(!seed);
    for case in CommitCases::new(seed, count) {
        let (inputs, slip) = (&case.inputs, case.slip);
        let (left, right, relation) = (&inputs.left, &inputs.right, &inputs.relation);
        let made = Made::compared(
            &format!("commit with the slip {slip:?} {}", case.slip_label),
            inputs,
            random.bytes(inputs.output_length),
            |output| oracle::commit(left, right, relation, slip, output),
            |output| under_test(left, right, relation, slip, output),
        );
        made.see(&mut report, inputs);
        slips_seen::see(&mut report, &case, made.answer);
        let files = make::files(inputs);
        kinds_seen::see(&mut report, made.answer, files, |left, right| {
            slips_seen::code_otherwise(&case, left, right)
        });
    }
    report
}
