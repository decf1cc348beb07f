//! What the listing program prints.

use crate::judge::accept;
use crate::program::{pieces, print_line};
use crate::Answer;

/// "side, left state, right state, step, clause as 1, 2 or 3, answering state"
pub type Line = [u64; 6];

/// "one line a duty in judging order", or the judge's refusal.
pub fn list(left: &[u8], right: &[u8], certificate: &[u8]) -> Result<Vec<Line>, Answer> {
    let mut lines = Vec::new();
    accept(left, right, certificate, |duty, clause, answering| {
        let [side, left, right, step] = duty.name();
        let clause = clause as u64 + 1;
        lines.push([side, left, right, step, clause, answering as u64]);
    })?;
    Ok(lines)
}

/// "A listing program prints one line a duty in judging order [...]. It has the
/// program's input and spacing. On a refusal it prints the six numbers only."
pub fn listing_program(input: &[u8]) -> String {
    let [left, right, certificate] = pieces(input);
    let mut text = String::new();
    match list(left, right, certificate) {
        Ok(lines) => lines.iter().for_each(|&line| print_line(&mut text, line)),
        Err(refusal) => print_line(&mut text, refusal),
    }
    text
}
