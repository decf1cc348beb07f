//! Splitting the states of a small table into stuttering copies.

use crate::keys::pick_key;
use crate::random::Random;
use crate::system::System;
use oracle::{Form, Step, Table};

/// What to split a small table into. The pairs are a least and a greatest number.
#[derive(Clone, Copy)]
pub struct SplitInto {
    /// The number of states; raised where the small table has more.
    pub states: (usize, usize),
    /// The copies of a state stand in one straight line rather than in branches.
    pub straight: bool,
    /// Steps that do no harm are added until there are so many.
    pub steps: (usize, usize),
    /// How many percent of the further states are spare: related to nothing.
    pub spare_percent: usize,
}

impl SplitInto {
    /// A few copies and a few further steps.
    pub fn few(extra: usize) -> SplitInto {
        SplitInto {
            states: (1, 4 + extra),
            straight: false,
            steps: (0, 12 + extra),
            spare_percent: 10,
        }
    }
}

/// A table made by splitting, and for each state what it is a copy of; a spare
/// state is a copy of none.
pub struct Copies {
    pub table: Table,
    pub copy_of: Vec<Option<usize>>,
}

/// Splits a small table. The copies of a state are in an order, and step forward
/// in it silently, so that every copy reaches the last one; the last copy has a step for
/// each step of the small state, with its key. Two tables made from the same small one have
/// the path property between copies of the same state. Further steps have one of these keys.
pub fn split(random: &mut Random, small: &Table, keys: &[u8], into: SplitInto) -> Copies {
    let states = random
        .within(into.states.0, into.states.1)
        .max(small.states());
    let mut copy_of: Vec<Option<usize>> = (0..states)
        .map(|copy| {
            if copy < small.states() {
                Some(copy)
            } else if random.percent(into.spare_percent) {
                None
            } else {
                Some(random.below(small.states()))
            }
        })
        .collect();
    random.shuffle(&mut copy_of);
    // The place of each state in an order of all states.
    let mut place: Vec<usize> = (0..states).collect();
    random.shuffle(&mut place);

    let mut steps = needed_steps(random, small, &copy_of, &place, into.straight);
    let wanted = random.within(into.steps.0, into.steps.1);
    for _ in 0..20 * wanted {
        let step = Step {
            from: random.below(states),
            to: random.below(states),
            key: pick_key(random, keys),
        };
        if steps.len() < wanted
            && is_harmless(small, &copy_of, &place, step)
            && !steps.contains(&step)
        {
            steps.push(step);
        }
    }
    // Steps in order let the last step leave the last state.
    steps.sort();
    if random.percent(70) {
        random.shuffle(&mut steps);
    }

    let starts = copies(&copy_of, &place, small.starts[0]);
    let marks = copy_of
        .iter()
        .map(|original| match original {
            Some(original) => small.marks[*original],
            None => u32::from(random.byte()),
        })
        .collect();
    Copies {
        table: Table {
            form: Form::tpt(1),
            starts: vec![random.pick(&starts)],
            marks,
            steps,
        },
        copy_of,
    }
}

/// Relates the copies of the same state.
pub fn relate_copies(left: Copies, right: Copies) -> System {
    let related = left
        .copy_of
        .iter()
        .map(|s| {
            let row = right.copy_of.iter();
            row.map(|t| s.is_some() && s == t).collect()
        })
        .collect();
    System {
        left: left.table,
        right: right.table,
        related,
    }
}

/// The copies of a small state, in order.
fn copies(copy_of: &[Option<usize>], place: &[usize], original: usize) -> Vec<usize> {
    let mut copies: Vec<usize> = (0..copy_of.len())
        .filter(|&copy| copy_of[copy] == Some(original))
        .collect();
    copies.sort_by_key(|&copy| place[copy]);
    copies
}

fn needed_steps(
    random: &mut Random,
    small: &Table,
    copy_of: &[Option<usize>],
    place: &[usize],
    straight: bool,
) -> Vec<Step> {
    let mut steps = Vec::new();
    for original in 0..small.states() {
        let line = copies(copy_of, place, original);
        for (i, &from) in line[..line.len() - 1].iter().enumerate() {
            let next = if straight {
                i + 1
            } else {
                random.within(i + 1, line.len() - 1)
            };
            steps.push(Step {
                from,
                to: line[next],
                key: 0,
            });
        }
        let from = line[line.len() - 1];
        for j in small.steps_from(original) {
            let Step { to, key, .. } = small.steps[j];
            let to = random.pick(&copies(copy_of, place, to));
            steps.push(Step { from, to, key });
        }
    }
    steps
}

/// A step that follows a step of the small table, that goes forward silently among the
/// copies of one state, or that leaves a spare state.
fn is_harmless(small: &Table, copy_of: &[Option<usize>], place: &[usize], step: Step) -> bool {
    match (copy_of[step.from], copy_of[step.to]) {
        (None, _) => true,
        (Some(_), None) => false,
        (Some(from), Some(to)) => {
            let forward = from == to && place[step.from] < place[step.to];
            small.steps.contains(&Step { from, to, ..step }) || (forward && step.is_silent())
        }
    }
}
