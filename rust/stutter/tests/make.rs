//! The two proved makers, through the C interface, beside each other and the oracle.

mod makers;

use inputs::{all_related, fullest_with_keys, long_chains, long_distances, spaced};
use inputs::{MakeCases, Random, System, VERSIONS};
use makers::make;
use std::collections::BTreeMap;

/// The proved makers, and the proved judge on each certificate that they make.
fn make_and_judge(left: &[u8], right: &[u8], relation: &[u8], output: &mut [u8]) -> [u64; 6] {
    let answer = make(left, right, relation, output);
    if answer[0] == 0 {
        let certificate = &output[..answer[2] as usize];
        let judged = stutter::judge(left, right, certificate);
        assert_eq!(judged[0], 0, "{judged:?}");
        assert_eq!(judged, oracle::judge(left, right, certificate));
    }
    answer
}

#[test]
fn the_maker_equals_the_oracle() {
    compare::make(100_000, 25, make_and_judge).require_all();
}

/// As many files without keys alone: they keep their answers.
#[test]
fn the_maker_equals_the_oracle_without_keys() {
    compare::make_in(VERSIONS, 100_000, 29, make_and_judge).require_all();
}

/// As many files with marks of 16 bits alone: they keep their answers.
#[test]
fn the_maker_equals_the_oracle_on_older_versions() {
    compare::make_in(&[1, 2, 3], 100_000, 24, make_and_judge).require_all();
}

/// "For every input, TPT or TPK, both give the same six numbers and the same bytes": on more
/// inputs, with any bytes in the output, whatever its length.
#[test]
fn the_makers_equal_each_other() {
    let mut random = Random::new(30);
    let mut seen = BTreeMap::new();
    for case in MakeCases::new(30, 100_000) {
        let mut output = random.bytes(case.output_length);
        let answer = make(&case.left, &case.right, &case.relation, &mut output);
        *seen
            .entry((case.left.starts_with(b"TPK"), answer[0]))
            .or_insert(0) += 1;
    }
    // Certificates made, 21, 22 and 23.
    for code in [0, 21, 22, 23] {
        let times = [false, true].map(|keys| seen.get(&(keys, code)).copied());
        assert!(
            times.into_iter().all(|times| times >= Some(100)),
            "{seen:?}"
        );
    }
}

/// 64 states and 256 steps a side, in every mix of versions and with keys, with as many
/// starts as a table can have: all pairs related, chains of 63 steps, chases of 63 steps.
fn largest() -> Vec<System> {
    let mut largest = Vec::new();
    for system in [all_related(), long_chains(), long_distances()] {
        largest.extend(system.in_all_versions());
        largest.extend(system.exchanged().in_all_versions());
    }
    for system in fullest_with_keys() {
        let both = [system.clone(), system.exchanged()];
        largest.extend(both.map(System::with_all_starts));
    }
    largest
}

#[test]
fn the_largest_certificates_are_made() {
    for system in largest() {
        let (left, right) = (system.left_bytes(), system.right_bytes());
        let (expected, certificate) = system.make();
        assert_eq!(expected, [0, 0, 41_483, 0, 0, 0]);
        let mut output = vec![0xa5; 41_483];
        let made = make_and_judge(&left, &right, &system.relation_bytes(), &mut output);
        assert_eq!(made, expected);
        assert!(output == certificate, "the certificates differ");
    }
}

/// A stack of 1 MiB is enough for the largest tables.
#[test]
fn a_small_stack_is_enough() {
    for system in largest() {
        let (left, right) = (system.left_bytes(), system.right_bytes());
        let relation = system.relation_bytes();
        let mut output = vec![0; 41_483];
        let small = std::thread::Builder::new().stack_size(1 << 20);
        let thread = small.spawn(move || make(&left, &right, &relation, &mut output));
        let made = thread.expect("the thread starts").join();
        assert_eq!(made.expect("the thread ends"), [0, 0, 41_483, 0, 0, 0]);
    }
}

type MakeInto = fn(&[u8], &[u8], &[u8], &mut [u8], &mut [u64]) -> bool;

/// Both makers, each with as many places for its answer as it is given.
const MAKE_INTO: [MakeInto; 2] = [stutter::make_into, stutter::make_by_sets_into];

/// With fewer than six places neither they nor the output change.
#[test]
fn a_short_answer_leaves_all_alone() {
    let mut random = Random::new(26);
    for case in MakeCases::new(26, 500) {
        let pattern = random.bytes(case.output_length);
        for length in 0..6 {
            let places: Vec<u64> = (0..length).map(|i| u64::MAX - i).collect();
            for make_into in MAKE_INTO {
                let (mut answer, mut output) = (places.clone(), pattern.clone());
                let (left, right, relation) = (&case.left, &case.right, &case.relation);
                let had_room = make_into(left, right, relation, &mut output, &mut answer);
                assert!(!had_room, "{length} places");
                assert_eq!(answer, places, "{length} places");
                assert_eq!(output, pattern, "{length} places");
            }
        }
    }
}

/// With six places or more the first six are the answer, and the rest stays.
#[test]
fn a_longer_answer_keeps_its_tail() {
    for case in MakeCases::new(27, 500) {
        let (left, right, relation) = (&case.left, &case.right, &case.relation);
        let mut expected_output = vec![0x5a; case.output_length];
        let expected = oracle::make(left, right, relation, &mut expected_output);
        for length in 6..12 {
            let places: Vec<u64> = (0..length).map(|i| u64::MAX - i).collect();
            for make_into in MAKE_INTO {
                let (mut answer, mut output) = (places.clone(), vec![0x5a; case.output_length]);
                let had_room = make_into(left, right, relation, &mut output, &mut answer);
                assert!(had_room, "{length} places");
                assert_eq!(answer[..6], expected, "{length} places");
                assert_eq!(answer[6..], places[6..], "{length} places");
                assert_eq!(output, expected_output, "{length} places");
            }
        }
    }
}

/// Files and output that lie in larger buffers: a byte read past a file's end would
/// change the answer, and a byte written past the output is seen.
#[test]
fn only_the_bytes_lent_are_touched() {
    for case in MakeCases::new(28, 3_000) {
        let files = [&case.left[..], &case.right, &case.relation];
        let [left, right, relation] = files;
        let mut expected_output = vec![0x5a; case.output_length];
        let expected = oracle::make(left, right, relation, &mut expected_output);
        for filler in [0x00, 0x01, 0xff] {
            let (buffer, places) = spaced(files, filler);
            let [left, right, relation] = places.map(|place| &buffer[place]);

            let lent = vec![0x5a; case.output_length];
            for make in [stutter::make, stutter::make_by_sets] {
                let (mut output, [place]) = spaced([&lent[..]], filler);
                assert_eq!(make(left, right, relation, &mut output[place]), expected);
                assert!(output == spaced([&expected_output[..]], filler).0);
            }
        }
    }
}
