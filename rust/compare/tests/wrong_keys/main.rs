//! Judges, makers and path properties that are wrong in one thing each about the keys on the
//! steps: the comparisons find every one of them.

mod clauses;
mod paths;
