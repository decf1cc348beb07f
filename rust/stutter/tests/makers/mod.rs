//! Both proved makers as one, for every test of a maker.

use oracle::Answer;

/// Makes by both, which give the same six numbers and the same bytes.
pub fn make(left: &[u8], right: &[u8], relation: &[u8], output: &mut [u8]) -> Answer {
    let mut output_by_sets = output.to_vec();
    let by_sets = stutter::make_by_sets(left, right, relation, &mut output_by_sets);
    let answer = stutter::make(left, right, relation, output);
    assert_eq!(by_sets, answer, "the maker by sets answers otherwise");
    assert!(
        output_by_sets == output,
        "the maker by sets writes otherwise"
    );
    answer
}
