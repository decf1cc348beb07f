//! Several starts for the tables that can have them, those with a start word.

use crate::random::Random;
use crate::system::System;
use oracle::Table;

/// Gives the tables further starts, in one of several ways, none of which leaves a start
/// that is added unpaired.
pub fn add_some_starts(random: &mut Random, system: &mut System) {
    let pairs = system.pairs();
    let large = system.left.states().max(system.right.states()) > 60;
    match random.below(4) {
        _ if large && random.percent(50) => add_all_starts(system),
        0 => {}
        1 if !pairs.is_empty() => {
            let some: Vec<_> = (0..4).map(|_| random.pick(&pairs)).collect();
            add_starts(system, |s, t| some.contains(&(s, t)));
        }
        2 => {
            let mut half = || (0..64).map(|_| random.percent(50)).collect();
            let (left, right): (Vec<bool>, Vec<bool>) = (half(), half());
            add_starts(system, |s, t| left[s] && right[t]);
        }
        _ => add_all_starts(system),
    }
}

/// Gives the tables all the starts that are then paired.
pub fn add_all_starts(system: &mut System) {
    add_starts(system, |_, _| true);
}

/// Both states of each related pair that is chosen become starts, where the tables let
/// them.
fn add_starts(system: &mut System, chosen: impl Fn(usize, usize) -> bool) {
    let may_be_start =
        |table: &Table, state| table.layout().start_word || table.starts.contains(&state);
    for (s, t) in system.pairs() {
        if chosen(s, t) && may_be_start(&system.left, s) && may_be_start(&system.right, t) {
            system.left.starts.push(s);
            system.right.starts.push(t);
        }
    }
    tidy(&mut system.left);
    tidy(&mut system.right);
}

/// The starts in rising order, each once.
pub fn tidy(table: &mut Table) {
    table.starts.sort();
    table.starts.dedup();
}

/// The pairs of a start, left state first, with each of the other side's starts.
pub fn pairs_of_start(system: &System, side: usize, start: usize) -> Vec<(usize, usize)> {
    let others = system.table(1 - side).starts.iter();
    others
        .map(|&other| [(start, other), (other, start)][side])
        .collect()
}

/// A side and one of its starts.
pub fn any_start(random: &mut Random, system: &System) -> (usize, usize) {
    let side = random.below(2);
    (side, random.pick(&system.table(side).starts))
}
