//! Compares a writer with the oracle's.

use crate::report::Report;
use crate::writes_seen::{required, see, see_share};
use crate::{hex, Answer};
use inputs::{Random, WriteCase, WriteCases};

/// Compares a writer with the oracle's on `count` inputs: the six numbers and every byte of
/// the output. The lent output is filled with a pattern; what a refusal must not touch and
/// what stands after the table is compared with that pattern.
pub fn write(
    count: usize,
    seed: u64,
    mut under_test: impl FnMut(&[u32], u64, &[u16], &mut [u8]) -> Answer,
) -> Report {
    let mut report = Report::new(required());
    let mut random = Random::new(!seed);
    let mut written = 0;
    for case in WriteCases::new(seed, count) {
        let WriteCase { marks, steps, .. } = &case;
        let lent = random.bytes(case.output_length);
        let (mut expected_output, mut output) = (lent.clone(), lent.clone());
        let expected = oracle::write(marks, case.starts, steps, &mut expected_output);
        let found = under_test(marks, case.starts, steps, &mut output);
        let length = if expected[0] == 0 { expected[2] } else { 0 } as usize;
        assert!(
            found == expected && output == expected_output && output[length..] == lent[length..],
            "the writer differs ({})\nexpected {expected:?}\nfound    {found:?}\nmarks    {marks:?}\n\
             starts   {:#b}\nsteps    {}\nlent     {}\nexpected {}\nfound    {}",
            case.label,
            case.starts,
            told_steps(steps),
            hex(&lent),
            hex(&expected_output),
            hex(&output),
        );

        report.see_label(case.label);
        see(&mut report, &case, expected);
        written += usize::from(expected[0] == 0);
    }
    see_share(&mut report, written, count);
    report
}

/// The steps as numbers, from and to.
fn told_steps(steps: &[u16]) -> String {
    let told = |step: &u16| format!("{}-{}", step / 256, step % 256);
    let steps: Vec<String> = steps.iter().map(told).collect();
    steps.join(" ")
}
