//! Judges and makers that are wrong in one thing each about the tables of the later
//! versions, or about those with keys: the comparisons find every one of them.

mod asked;
mod keys;
mod marks;
mod starts;
