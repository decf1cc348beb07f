//! Keys for the steps of a system. Those of tables without keys are all 0, which is silent.

use crate::random::Random;
use oracle::{Step, Table};

/// The keys of a table that has none.
pub const NO_KEYS: &[u8] = &[0];

/// A few keys for the steps of a system, mostly with the silent one among them.
pub fn any_keys(random: &mut Random) -> Vec<u8> {
    let any = random.byte();
    let mut keys = match random.below(12) {
        0 => vec![0],
        1..=3 => vec![0, 1],
        4 => vec![0, 255],
        5..=6 => vec![0, 1, 255],
        7 => vec![1, 2],
        8 => vec![0, 128],
        9 => vec![0, any, any ^ 128],
        10 => vec![0, any],
        _ => vec![0, 1, 2, any],
    };
    keys.sort();
    keys.dedup();
    keys
}

/// One of these keys. Where there is but one, no number is drawn for it.
pub fn pick_key(random: &mut Random, keys: &[u8]) -> u8 {
    match keys {
        [key] => *key,
        _ => random.pick(keys),
    }
}

/// A key other than this one.
pub fn another_key(random: &mut Random, key: u8) -> u8 {
    let any = key.wrapping_add(random.within(1, 255) as u8);
    let others = [0, 1, 255, key ^ 1, key ^ 128, any];
    let other = random.pick(&others);
    if other == key {
        any
    } else {
        other
    }
}

/// The steps that are left where keys are not told apart: of those that differ in their key
/// only the first alone, and silent.
pub fn take_keys_off(steps: &mut Vec<Step>) {
    let before = std::mem::take(steps);
    for step in before {
        let step = Step { key: 0, ..step };
        if !steps.contains(&step) {
            steps.push(step);
        }
    }
}

/// Exchanges two keys of the table's steps, which may let them no longer rise.
pub fn exchange_keys(table: &mut Table, one: u8, other: u8) {
    for step in &mut table.steps {
        step.key = match step.key {
            key if key == one => other,
            key if key == other => one,
            key => key,
        };
    }
}
