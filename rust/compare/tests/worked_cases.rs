//! The plain and the tuned functions on the cases that were worked out by hand.

use compare::Functions;
use oracle::{commit_by_relaxing, enquire_by_relaxing, make_by_relaxing, make_by_sets};
use oracle::{tuned, tuned_follow, tuned_maker, tuned_write};

#[test]
fn the_plain_functions_are_right() {
    for make in [oracle::make, make_by_relaxing, make_by_sets] {
        let functions = Functions {
            judge: oracle::judge,
            make,
            follow: oracle::follow,
        };
        functions.require_worked();
    }
}

#[test]
fn the_tuned_functions_are_right() {
    for make in [tuned_maker::make, tuned_maker::make_by_sets] {
        let functions = Functions {
            judge: tuned::judge,
            make,
            follow: tuned_follow::follow,
        };
        functions.require_worked();
    }
}

#[test]
fn the_writers_are_right() {
    compare::require_worked_tables(oracle::write);
    compare::require_worked_tables(tuned_write::write);
}

#[test]
fn the_enquiries_and_commits_are_right() {
    compare::require_worked_enquiries(oracle::enquire, oracle::commit);
    compare::require_worked_enquiries(enquire_by_relaxing, commit_by_relaxing);
    compare::require_worked_enquiries(tuned_maker::enquire, tuned_maker::commit);
}
