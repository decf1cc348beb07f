//! The oracle beside the tuned judge, maker, enquiry, commit, follower and writer and beside
//! itself, on enough inputs that every number, side, clause, limit and slip is seen, and beside
//! wrong ones.

use compare::{Accepted, EnquiryAndCommit};
use inputs::{all_related, fullest_with_keys, long_chains, long_distances};
use oracle::Line;
use std::collections::BTreeMap;

#[test]
fn the_tuned_judge_equals_the_plain_one() {
    compare::judge(30_000, 1, oracle::tuned::judge).require_all();
}

#[test]
fn the_tuned_maker_equals_the_plain_one() {
    compare::make(30_000, 2, oracle::tuned_maker::make).require_all();
}

#[test]
fn the_relaxing_maker_equals_the_plain_one() {
    compare::make(30_000, 8, oracle::make_by_relaxing).require_all();
}

#[test]
fn the_maker_by_sets_equals_the_plain_one() {
    compare::make(30_000, 20, oracle::make_by_sets).require_all();
}

#[test]
fn the_tuned_maker_by_sets_equals_the_plain_one() {
    compare::make(30_000, 21, oracle::tuned_maker::make_by_sets).require_all();
}

#[test]
fn the_tuned_enquiry_equals_the_plain_one() {
    compare::enquire(30_000, 15, oracle::tuned_maker::enquire).require_all();
}

#[test]
fn the_relaxing_enquiry_equals_the_plain_one() {
    compare::enquire(30_000, 16, oracle::enquire_by_relaxing).require_all();
}

#[test]
fn the_tuned_commit_equals_the_plain_one() {
    compare::commit(50_000, 17, oracle::tuned_maker::commit).require_all();
}

#[test]
fn the_relaxing_commit_equals_the_plain_one() {
    compare::commit(50_000, 18, oracle::commit_by_relaxing).require_all();
}

#[test]
fn the_plain_enquiry_and_commit_do_as_promised() {
    let plain = EnquiryAndCommit {
        enquire: oracle::enquire,
        commit: oracle::commit,
        make: oracle::make,
    };
    plain.require_promised(10_000, 19).require_all();
}

#[test]
fn the_tuned_follower_equals_the_plain_one() {
    compare::follow(30_000, 13, oracle::tuned_follow::follow).require_all();
}

#[test]
fn the_tuned_writer_equals_the_plain_one() {
    compare::write(30_000, 14, oracle::tuned_write::write).require_all();
}

#[test]
fn the_makers_agree_on_the_fullest_systems() {
    let without_keys = [all_related(), long_chains(), long_distances()];
    for system in without_keys.into_iter().chain(fullest_with_keys()) {
        for system in [system.clone(), system.exchanged()] {
            let (expected, certificate) = system.make();
            for make in [
                oracle::make_by_relaxing,
                oracle::make_by_sets,
                oracle::tuned_maker::make,
                oracle::tuned_maker::make_by_sets,
            ] {
                let mut output = vec![0xa5; certificate.len()];
                let made = make(
                    &system.left_bytes(),
                    &system.right_bytes(),
                    &system.relation_bytes(),
                    &mut output,
                );
                assert_eq!(made, expected);
                assert!(output == certificate, "the certificates differ");
            }
        }
    }
}

#[test]
fn every_form_of_program_input_is_seen() {
    compare::program(20_000, 3, oracle::program).require_all();
}

#[test]
fn every_choice_of_a_listing_is_seen() {
    compare::listing(20_000, 9, oracle::listing_program).require_all();
}

#[test]
fn the_same_seed_gives_the_same_inputs() {
    let require = |seen: fn(u64) -> BTreeMap<String, u64>| {
        let [first, again, other] = [4, 4, 5].map(seen);
        assert_eq!(first, again);
        assert_ne!(first, other);
    };
    require(|seed| compare::judge(3_000, seed, oracle::tuned::judge).seen);
    require(|seed| compare::follow(3_000, seed, oracle::tuned_follow::follow).seen);
    require(|seed| compare::commit(3_000, seed, oracle::tuned_maker::commit).seen);
    require(|seed| compare::write(3_000, seed, oracle::tuned_write::write).seen);

    let inputs = |seed| inputs::ListingCases::new(seed, 3_000).map(|case| case.input);
    assert!(inputs(4).eq(inputs(4)), "the inputs differ");
    assert!(inputs(4).ne(inputs(5)), "the inputs are the same");
}

/// The answer of a judge that accepts everything is found out.
#[test]
#[should_panic(expected = "the judge differs")]
fn a_difference_is_found() {
    compare::judge(1_000, 6, |_, _, _| [0; 6]);
}

/// A maker that writes on a refusal is found out.
#[test]
#[should_panic(expected = "the maker differs")]
fn a_touched_output_is_found() {
    compare::make(1_000, 7, |left, right, relation, output| {
        let answer = oracle::make(left, right, relation, output);
        if answer[0] == 22 {
            output[0] = !output[0];
        }
        answer
    });
}

#[test]
#[should_panic(expected = "never seen")]
fn too_few_inputs_are_found() {
    compare::judge(20, 8, oracle::judge).require_all();
}

#[test]
#[should_panic(expected = "never seen")]
fn too_few_enquiries_are_found() {
    compare::enquire(20, 8, oracle::enquire).require_all();
}

#[test]
#[should_panic(expected = "never seen")]
fn too_few_commits_are_found() {
    compare::commit(20, 8, oracle::commit).require_all();
}

#[test]
#[should_panic(expected = "never seen")]
fn too_few_runs_are_found() {
    compare::follow(20, 8, oracle::follow).require_all();
}

#[test]
#[should_panic(expected = "never seen")]
fn too_few_tables_are_found() {
    compare::write(20, 8, oracle::write).require_all();
}

#[test]
#[should_panic(expected = "never seen")]
fn too_few_listings_are_found() {
    compare::listing(20, 8, oracle::listing_program).require_all();
}

/// Compares a lister that puts other lines in place of those of an accepted input.
fn list_wrongly(change: impl Fn(&Accepted, &mut Vec<Line>)) {
    compare::listing(2_000, 10, |input| {
        let Some(files) = Accepted::new(input) else {
            return oracle::listing_program(input);
        };
        let [left, right, certificate] = oracle::pieces(input);
        let mut lines = oracle::list(left, right, certificate).expect("the input is accepted");
        change(&files, &mut lines);
        let printed = |line: Line| line.map(|number| number.to_string()).join(" ") + "\n";
        lines.into_iter().map(printed).collect()
    });
}

/// Compares a lister that names another state in the lines with this clause.
fn choose_wrongly(clause: u64, choose: impl Fn(&Accepted, Line) -> u64) {
    list_wrongly(|files, lines| {
        for line in lines.iter_mut().filter(|line| line[4] == clause) {
            line[5] = choose(files, *line);
        }
    });
}

/// The lister above is right where it changes nothing.
#[test]
fn unchanged_lines_are_no_difference() {
    list_wrongly(|_, _| {});
}

#[test]
#[should_panic(expected = "the listing differs")]
fn the_greatest_state_for_2a_is_found() {
    choose_wrongly(1, |files, line| greatest(files.serving(line)));
}

#[test]
#[should_panic(expected = "the listing differs")]
fn the_greatest_state_for_2c_is_found() {
    choose_wrongly(3, |files, line| greatest(files.serving(line)));
}

fn greatest(states: Vec<u64>) -> u64 {
    states.into_iter().max().expect("some state serves")
}

#[test]
#[should_panic(expected = "the listing differs")]
fn the_end_of_the_first_step_for_2a_is_found() {
    choose_wrongly(1, |files, line| files.serving(line)[0]);
}

#[test]
#[should_panic(expected = "the listing differs")]
fn the_end_of_the_first_step_for_2c_is_found() {
    choose_wrongly(3, |files, line| files.serving(line)[0]);
}

/// The ranks are not looked at.
#[test]
#[should_panic(expected = "the listing differs")]
fn the_smallest_related_state_for_2c_is_found() {
    choose_wrongly(3, |files, line| {
        let waiting = files.waiting(line).into_iter();
        waiting.min().expect("some state serves")
    });
}

/// The smallest state to which a step leads that serves, whatever its key.
fn smallest_whatever_the_key(files: &Accepted, line: Line) -> u64 {
    let [serving, others] = [files.serving(line), files.serving_but_for_the_key(line)];
    let states = serving.into_iter().chain(others);
    states.min().expect("some state serves")
}

#[test]
#[should_panic(expected = "the listing differs")]
fn another_key_for_2a_is_found() {
    choose_wrongly(1, smallest_whatever_the_key);
}

#[test]
#[should_panic(expected = "the listing differs")]
fn a_step_with_a_key_for_2c_is_found() {
    choose_wrongly(3, smallest_whatever_the_key);
}

#[test]
#[should_panic(expected = "the listing differs")]
fn u_in_place_of_t_for_2b_is_found() {
    choose_wrongly(2, |files, line| files.end(line));
}

#[test]
#[should_panic(expected = "the listing differs")]
fn exchanged_clauses_are_found() {
    list_wrongly(|_, lines| {
        for line in lines {
            line[4] = [1, 3, 2][line[4] as usize - 1];
        }
    });
}

#[test]
#[should_panic(expected = "the listing differs")]
fn right_steps_before_left_ones_are_found() {
    list_wrongly(|_, lines| lines.sort_by_key(|&[side, s, t, ..]| (s, t, 1 - side)));
}

/// The six numbers after the lines, or in place of none.
#[test]
#[should_panic(expected = "the listing differs")]
fn six_numbers_after_an_acceptance_are_found() {
    compare::listing(1_000, 11, |input| {
        let listed = oracle::listing_program(input);
        let judged = oracle::program(input);
        if judged.starts_with("0 ") {
            listed + &judged
        } else {
            listed
        }
    });
}

/// The lines of the duties before the one that is refused.
#[test]
#[should_panic(expected = "the listing differs")]
fn lines_before_a_refusal_are_found() {
    compare::listing(1_000, 12, |input| {
        let judged = oracle::program(input);
        if judged.starts_with("19 ") {
            format!("0 0 0 0 1 0\n{judged}")
        } else {
            oracle::listing_program(input)
        }
    });
}
