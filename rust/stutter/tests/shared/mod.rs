//! What several tests ask of the proved makers and the proved judge.

use crate::makers::make;
use inputs::System;

/// What the makers answer and write, and what the judge answers to a certificate of these
/// rows and ranks.
pub fn answers(system: &System, rows_and_ranks: &[u8]) -> ([u64; 6], Vec<u8>, [u64; 6]) {
    let (left, right) = (system.left_bytes(), system.right_bytes());
    let mut output = vec![0; system.layout().length()];
    let made = make(&left, &right, &system.relation_bytes(), &mut output);
    let header = system.layout().header();
    let judged = stutter::judge(&left, &right, &[&header, rows_and_ranks].concat());
    (made, output, judged)
}
