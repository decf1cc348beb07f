//! The proved follower, through the C interface, beside the oracle.

use compare::Given;
use inputs::{all_related, fullest_with_keys, long_chains, long_distances, long_waits, spaced};
use inputs::{FollowCase, FollowCases, Random, System};
use oracle::Answer;
use std::thread;

#[test]
fn the_follower_equals_the_oracle() {
    compare::follow(115_000, 61, stutter::follow).require_all();
}

/// The oracle's answer, and these outputs after it.
fn expected(case: &FollowCase, mut outputs: [Vec<u8>; 2]) -> (Answer, [Vec<u8>; 2]) {
    let [states, blocks] = &mut outputs;
    let answer = Given::of(case).ask(oracle::follow, states, blocks);
    (answer, outputs)
}

fn follow_into(case: &FollowCase, outputs: &mut [Vec<u8>; 2], answer: &mut [u64]) -> bool {
    let run = &case.run;
    let [states, blocks] = outputs;
    stutter::follow_into(
        &case.left,
        &case.right,
        &case.certificate,
        run.side,
        run.start,
        &run.path,
        states,
        blocks,
        answer,
    )
}

/// The outputs of a case, filled with random bytes.
fn lend(random: &mut Random, case: &FollowCase) -> [Vec<u8>; 2] {
    [case.run.states_length, case.run.blocks_length].map(|length| random.bytes(length))
}

/// With fewer than six places neither they nor the outputs change.
#[test]
fn a_short_answer_leaves_all_alone() {
    let mut random = Random::new(62);
    for case in FollowCases::new(62, 500) {
        let lent = lend(&mut random, &case);
        for length in 0..6 {
            let places: Vec<u64> = (0..length).map(|i| u64::MAX - i).collect();
            let (mut answer, mut outputs) = (places.clone(), lent.clone());
            let had_room = follow_into(&case, &mut outputs, &mut answer);
            assert!(!had_room, "{length} places");
            assert_eq!(answer, places, "{length} places");
            assert!(outputs == lent, "{length} places");
        }
    }
}

/// With six places or more the first six are the answer, and the rest stays.
#[test]
fn a_longer_answer_keeps_its_tail() {
    let mut random = Random::new(63);
    for case in FollowCases::new(63, 500) {
        let lent = lend(&mut random, &case);
        let (expected, written) = expected(&case, lent.clone());
        for length in 6..12 {
            let places: Vec<u64> = (0..length).map(|i| u64::MAX - i).collect();
            let (mut answer, mut outputs) = (places.clone(), lent.clone());
            let had_room = follow_into(&case, &mut outputs, &mut answer);
            assert!(had_room, "{length} places");
            assert_eq!(answer[..6], expected, "{length} places");
            assert_eq!(answer[6..], places[6..], "{length} places");
            assert!(outputs == written, "{length} places");
        }
    }
}

/// Files, path and outputs that lie in larger buffers: a byte read past an end would
/// change the answer, and a byte written past an end is seen.
#[test]
fn only_the_bytes_lent_are_touched() {
    let mut random = Random::new(64);
    for case in FollowCases::new(64, 3_000) {
        let run = &case.run;
        let lent = lend(&mut random, &case);
        let (expected, written) = expected(&case, lent.clone());
        for filler in [0x00, 0x01, 0xff] {
            let files = [&case.left[..], &case.right, &case.certificate, &run.path];
            let (buffer, places) = spaced(files, filler);
            let [left, right, certificate, path] = places.map(|place| &buffer[place]);
            let (mut states, [states_place]) = spaced([&lent[0][..]], filler);
            let (mut blocks, [blocks_place]) = spaced([&lent[1][..]], filler);
            let found = stutter::follow(
                left,
                right,
                certificate,
                run.side,
                run.start,
                path,
                &mut states[states_place],
                &mut blocks[blocks_place],
            );
            assert_eq!(found, expected);
            assert!(states == spaced([&written[0][..]], filler).0);
            assert!(blocks == spaced([&written[1][..]], filler).0);
        }
    }
}

/// Outputs of 49,152 and of 512 bytes serve for every run.
#[test]
fn the_longest_outputs_always_serve() {
    let mut too_short = 0;
    for case in FollowCases::new(65, 10_000) {
        let (mut states, mut blocks) = ([0; 49_152], [0; 512]);
        let answer = Given::of(&case).ask(stutter::follow, &mut states, &mut blocks);
        assert_ne!(answer[0], 27);
        let mut tables = [&case.left, &case.right].into_iter();
        let has_keys = tables.any(|table| table.starts_with(b"TPK"));
        if case.label.starts_with("27") && !has_keys {
            assert_eq!(answer[0], 0);
            too_short += 1;
        }
    }
    assert!(too_short >= 100, "{too_short}");
}

/// "The follower of runs takes TPT only and answers 2 for TPK", at full size too and with a
/// certificate that the judge accepts.
#[test]
fn tables_with_keys_are_not_taken() {
    for system in fullest_with_keys() {
        let (left, right) = (system.left_bytes(), system.right_bytes());
        let certificate = system.certificate();
        assert_eq!(stutter::judge(&left, &right, &certificate)[0], 0);
        let (mut states, mut blocks) = (vec![0xa5; 49_152], vec![0xa5; 512]);
        let given = Given {
            left: &left,
            right: &right,
            certificate: &certificate,
            side: 0,
            start: 0,
            path: &[0],
        };
        let answer = given.ask(stutter::follow, &mut states, &mut blocks);
        assert_eq!(answer, [2, 0, 0, 0, 0, 0]);
        let mut outputs = states.iter().chain(&blocks);
        assert!(outputs.all(|&byte| byte == 0xa5), "an output is touched");
    }
}

/// Long runs of the left table from its start, with how many states are written.
fn longest_runs() -> [(System, Vec<u8>, u64); 4] {
    [
        // Round the ring at every second step.
        (long_waits(), [0, 1].repeat(128), 8_192),
        (long_distances(), [0, 32].repeat(128), 8_192),
        // One state for each.
        (all_related(), (0..=255).map(|i| i % 64).collect(), 256),
        // The line, which a dead end matches.
        (long_chains(), (0..64).collect(), 1),
    ]
}

/// A stack of 1 MiB is enough for the longest runs and for the largest tables.
#[test]
fn a_small_stack_is_enough() {
    for (system, path, count) in longest_runs() {
        for system in system.in_all_versions() {
            let given = Given {
                left: &system.left_bytes(),
                right: &system.right_bytes(),
                certificate: &system.certificate(),
                side: 0,
                start: 0,
                path: &path,
            };
            let (mut states, mut blocks) = (vec![0; 49_152], vec![0; 512]);
            let answer = thread::scope(|scope| {
                let small = thread::Builder::new().stack_size(1 << 20);
                let call = || given.ask(stutter::follow, &mut states, &mut blocks);
                let thread = small.spawn_scoped(scope, call);
                thread.expect("the thread starts").join()
            });
            assert_eq!(answer.expect("the thread ends"), [0, 0, count, 0, 0, 0]);
            let matching = given.matching(count, &states, &blocks);
            assert!(matching.is_ok(), "{matching:?}");
        }
    }
}
