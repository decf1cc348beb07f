//! The cases that were worked out by hand, through the C interface.

mod makers;

use compare::Functions;
use makers::make;

#[test]
fn the_worked_cases_are_answered() {
    let functions = Functions {
        judge: stutter::judge,
        make,
        follow: stutter::follow,
    };
    functions.require_worked();
}

#[test]
fn the_worked_tables_are_written() {
    compare::require_worked_tables(stutter::write);
}

#[test]
fn the_worked_enquiries_and_commits_are_answered() {
    compare::require_worked_enquiries(
        |left, right, relation| {
            let (answer, slip) = stutter::enquire(left, right, relation);
            (answer, slip.numbers())
        },
        |left, right, relation, slip, output| {
            stutter::commit_with(left, right, relation, &slip, output)
        },
    );
}
