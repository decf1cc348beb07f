//! Runs the comparisons of the oracle with its tuned judge, maker, enquiry, commit, follower
//! and writer and with itself at full length, and prints their times and what was seen.

use std::time::Instant;

fn main() {
    run("300,000 inputs, plain judge and tuned judge", || {
        compare::judge(300_000, 1, oracle::tuned::judge)
    });
    run("100,000 inputs, plain maker and tuned maker", || {
        compare::make(100_000, 2, oracle::tuned_maker::make)
    });
    run("100,000 inputs, plain enquiry and tuned enquiry", || {
        compare::enquire(100_000, 7, oracle::tuned_maker::enquire)
    });
    run("100,000 inputs, plain commit and tuned commit", || {
        compare::commit(100_000, 8, oracle::tuned_maker::commit)
    });
    run("100,000 inputs, plain follower and tuned follower", || {
        compare::follow(100_000, 5, oracle::tuned_follow::follow)
    });
    run("100,000 inputs, plain writer and tuned writer", || {
        compare::write(100_000, 6, oracle::tuned_write::write)
    });
    run("50,000 inputs, program and itself", || {
        compare::program(50_000, 3, oracle::program)
    });
    run("50,000 inputs, listing program and itself", || {
        compare::listing(50_000, 4, oracle::listing_program)
    });
}

fn run(what: &str, comparison: impl FnOnce() -> compare::Report) {
    let begun = Instant::now();
    let report = comparison();
    println!("{what}: {:.1} s\n{report}", begun.elapsed().as_secs_f64());
    report.require_all();
}
