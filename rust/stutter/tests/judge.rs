//! The proved judge, through the C interface, beside the oracle.

use inputs::{spaced, JudgeCases, VERSIONS};

#[test]
fn the_judge_equals_the_oracle() {
    compare::judge(300_000, 21, stutter::judge).require_all();
}

/// As many files without keys alone: they keep their answers.
#[test]
fn the_judge_equals_the_oracle_without_keys() {
    compare::judge_in(VERSIONS, 300_000, 26, stutter::judge).require_all();
}

/// As many files with marks of 16 bits alone: they keep their answers.
#[test]
fn the_judge_equals_the_oracle_on_older_versions() {
    compare::judge_in(&[1, 2, 3], 300_000, 20, stutter::judge).require_all();
}

/// Fewer than six places are left as they were.
#[test]
fn a_short_answer_is_left_alone() {
    for case in JudgeCases::new(22, 200) {
        for length in 0..6 {
            let pattern: Vec<u64> = (0..length).map(|i| u64::MAX - i).collect();
            let mut answer = pattern.clone();
            let had_room =
                stutter::judge_into(&case.left, &case.right, &case.certificate, &mut answer);
            assert!(!had_room, "{length} places");
            assert_eq!(answer, pattern, "{length} places");
        }
    }
}

/// With six places or more the first six are the answer, and the rest stays.
#[test]
fn a_longer_answer_keeps_its_tail() {
    for case in JudgeCases::new(23, 200) {
        let expected = oracle::judge(&case.left, &case.right, &case.certificate);
        for length in 6..12 {
            let pattern: Vec<u64> = (0..length).map(|i| u64::MAX - i).collect();
            let mut answer = pattern.clone();
            let had_room =
                stutter::judge_into(&case.left, &case.right, &case.certificate, &mut answer);
            assert!(had_room, "{length} places");
            assert_eq!(answer[..6], expected, "{length} places");
            assert_eq!(answer[6..], pattern[6..], "{length} places");
        }
    }
}

/// Files that lie next to each other in one buffer, with bytes around them that
/// no file has: a byte read past a file's end would change the answer.
#[test]
fn only_the_bytes_of_the_files_are_read() {
    for case in JudgeCases::new(24, 2_000) {
        let files = [&case.left[..], &case.right, &case.certificate];
        let [left, right, certificate] = files;
        let expected = oracle::judge(left, right, certificate);
        for filler in [0x00, 0x01, 0xff] {
            let (buffer, places) = spaced(files, filler);
            let [left, right, certificate] = places.map(|place| &buffer[place]);
            assert_eq!(stutter::judge(left, right, certificate), expected);
        }
    }
}
