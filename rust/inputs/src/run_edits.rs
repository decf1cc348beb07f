//! Changes to a run that is followed, for each way to each of the causes 25 to 27.

use crate::random::Random;
use crate::system::System;
use crate::walks::{walk, Aim};

/// A run to be followed, and the outputs that are lent for it.
#[derive(Clone, PartialEq)]
pub struct Run {
    /// The path's side.
    pub side: u64,
    /// The start on the other side.
    pub start: u64,
    pub path: Vec<u8>,
    /// How many bytes the first output has.
    pub states_length: usize,
    /// How many bytes the second output has.
    pub blocks_length: usize,
}

impl Run {
    /// The number of the path's side.
    fn own(&self) -> usize {
        self.side as usize
    }

    /// The number of the start's side.
    fn other(&self) -> usize {
        1 - self.own()
    }
}

/// A change to a run of a system, and what it is called.
pub type RunEdit = (&'static str, fn(&mut Random, &System, &mut Run));

/// Each expects a run that is followed, with outputs that are just long enough, and
/// gives one that is turned away for the cause named, or leaves it unchanged where the
/// system does not let it. They stand in the order of the causes. Two may be made, the
/// later one in the list first.
pub const RUN_EDITS: &[RunEdit] = &[
    ("25: side 2", |_, _, run| run.side = 2),
    ("25: side 2^32 higher", |_, _, run| {
        raise(&mut run.side, 1 << 32)
    }),
    ("25: the greatest side", |_, _, run| run.side = u64::MAX),
    ("25: an empty path", |_, _, run| run.path.clear()),
    ("25: 257 states", |random, system, run| {
        make_too_long(random, system, run, 257);
    }),
    ("25: far more states", |random, system, run| {
        let length = random.pick(&[258, 511, 512, 513, 600]);
        make_too_long(random, system, run, length);
    }),
    ("25: a state n", |random, system, run| {
        let place = random.below(run.path.len());
        run.path[place] = system.table(run.own()).states() as u8;
    }),
    ("25: the last state n", |_, system, run| {
        let last = run.path.len() - 1;
        run.path[last] = system.table(run.own()).states() as u8;
    }),
    ("25: a state 255", |random, _, run| {
        let place = random.below(run.path.len());
        run.path[place] = 255;
    }),
    ("25: no step", |random, system, run| {
        let place = random.below(run.path.len());
        leave_without_step(random, system, run, place);
    }),
    ("25: the first step is no step", |random, system, run| {
        leave_without_step(random, system, run, 0);
    }),
    ("25: the last step is no step", |random, system, run| {
        let last = run.path.len() - 1;
        leave_without_step(random, system, run, last);
    }),
    ("26: an unrelated start", |random, system, run| {
        let first = run.path[0] as usize;
        let others = 0..system.table(run.other()).states();
        let unrelated: Vec<usize> = others
            .filter(|&other| !system.is_related(run.own(), first, other))
            .collect();
        if !unrelated.is_empty() {
            run.start = random.pick(&unrelated) as u64;
        }
    }),
    ("26: start n", |_, system, run| {
        run.start = system.table(run.other()).states() as u64;
    }),
    ("26: start 64", |_, _, run| run.start = 64),
    ("26: start 64 higher", |_, _, run| raise(&mut run.start, 64)),
    ("26: start 2^8 higher", |_, _, run| {
        raise(&mut run.start, 1 << 8)
    }),
    ("26: start 2^32 higher", |_, _, run| {
        raise(&mut run.start, 1 << 32)
    }),
    ("26: the greatest start", |_, _, run| run.start = u64::MAX),
    ("27: first output one byte short", |_, _, run| {
        shorten(run, 1, 0)
    }),
    ("27: first output one state short", |_, _, run| {
        shorten(run, 3, 0)
    }),
    ("27: first output empty", |_, _, run| run.states_length = 0),
    ("27: second output one byte short", |_, _, run| {
        shorten(run, 0, 1)
    }),
    ("27: second output one number short", |_, _, run| {
        shorten(run, 0, 2)
    }),
    ("27: second output empty", |_, _, run| run.blocks_length = 0),
    ("27: both outputs one byte short", |_, _, run| {
        shorten(run, 1, 1)
    }),
    ("27: both outputs empty", |_, _, run| {
        run.states_length = 0;
        run.blocks_length = 0;
    }),
];

/// Raises a number, but the greatest stays the greatest.
fn raise(number: &mut u64, by: u64) {
    *number = number.saturating_add(by);
}

/// Takes so many bytes from the two outputs, as long as there are any.
fn shorten(run: &mut Run, states: usize, blocks: usize) {
    run.states_length = run.states_length.saturating_sub(states);
    run.blocks_length = run.blocks_length.saturating_sub(blocks);
}

/// Makes the path this long by further steps, or by other steps from the same state.
fn make_too_long(random: &mut Random, system: &System, run: &mut Run, length: usize) {
    let mut path = run.path.clone();
    go_on(random, system, run, &mut path, length);
    if path.len() < length {
        path.truncate(1);
        go_on(random, system, run, &mut path, length);
    }
    if path.len() == length {
        run.path = path;
    }
}

/// Goes on from this place to a state to which there is no step, and then by steps, as
/// far as the path was long.
fn leave_without_step(random: &mut Random, system: &System, run: &mut Run, place: usize) {
    let table = system.table(run.own());
    let from = run.path[place] as usize;
    let apart: Vec<usize> = (0..table.states())
        .filter(|&to| table.ends_from(from).all(|end| end != to))
        .collect();
    if place < 255 && !apart.is_empty() {
        let length = run.path.len();
        let mut path = run.path[..=place].to_vec();
        path.push(random.pick(&apart) as u8);
        go_on(random, system, run, &mut path, length);
        run.path = path;
    }
}

/// Adds steps of the path's side until the path has this length or comes to a dead end.
fn go_on(random: &mut Random, system: &System, run: &Run, path: &mut Vec<u8>, length: usize) {
    let last = path.pop().expect("a path has a state");
    let table = system.table(run.own());
    let most = length.max(path.len() + 1) - path.len();
    path.extend(walk(random, table, last as usize, most, Aim::Endless));
}
