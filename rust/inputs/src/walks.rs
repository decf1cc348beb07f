//! Paths of a table.

use crate::random::Random;
use oracle::Table;

/// Where a walk leads, as far as the table lets it.
#[derive(Clone, Copy)]
pub enum Aim {
    /// Anywhere.
    Any,
    /// Never to a dead end.
    Endless,
    /// To a dead end.
    DeadEnd,
    /// To the smallest state each time.
    Smallest,
    /// To the greatest state each time.
    Greatest,
}

/// A path of at most `most` states from this one. It is shorter only where it ends in a
/// dead end.
pub fn walk(random: &mut Random, table: &Table, first: usize, most: usize, aim: Aim) -> Vec<u8> {
    let endless = endless(table);
    let distances = distances_to_dead_end(table);
    let mut state = first;
    let mut path = vec![first as u8];
    while path.len() < most {
        let ends: Vec<usize> = table.ends_from(state).collect();
        let aimed: Vec<usize> = match aim {
            Aim::Any => Vec::new(),
            Aim::Smallest => ends.iter().copied().min().into_iter().collect(),
            Aim::Greatest => ends.iter().copied().max().into_iter().collect(),
            Aim::Endless => ends.iter().copied().filter(|&to| endless[to]).collect(),
            Aim::DeadEnd => {
                // Straight ahead, or anywhere from where one can still be reached.
                let straight = distances[state].map_or(0, |distance| distance.saturating_sub(1));
                let within = random.pick(&[straight, most - path.len() - 1]);
                let reaches = |&to: &usize| distances[to].is_some_and(|steps| steps <= within);
                ends.iter().copied().filter(reaches).collect()
            }
        };
        let choice = if aimed.is_empty() { &ends } else { &aimed };
        if choice.is_empty() {
            break;
        }
        state = random.pick(choice);
        path.push(state as u8);
    }
    path
}

/// For each state whether some path from it never ends.
fn endless(table: &Table) -> Vec<bool> {
    let mut endless = vec![true; table.states()];
    for _ in 0..table.states() {
        let before = endless.clone();
        for (state, stays) in endless.iter_mut().enumerate() {
            *stays = table.ends_from(state).any(|to| before[to]);
        }
    }
    endless
}

/// For each state the fewest steps to a dead end, where one can be reached.
fn distances_to_dead_end(table: &Table) -> Vec<Option<usize>> {
    let states = 0..table.states();
    let mut distances: Vec<Option<usize>> = states
        .map(|state| table.is_dead_end(state).then_some(0))
        .collect();
    for round in 1..table.states() {
        let before = distances.clone();
        for step in &table.steps {
            if before[step.to].is_some() && distances[step.from].is_none() {
                distances[step.from] = Some(round);
            }
        }
    }
    distances
}
