//! Small changes to a system, after which it is still well formed but may no
//! longer have the path property.

use crate::keys::{another_key, exchange_keys};
use crate::marks::greatest_mark;
use crate::random::Random;
use crate::starts::{any_start, pairs_of_start, tidy};
use crate::system::{save_in, System};
use oracle::{Kind, Step, Table};

/// A change and what it is called.
type SystemEdit = (&'static str, fn(&mut Random, &mut System));

const SYSTEM_EDITS: &[SystemEdit] = &[
    ("a step added", |random, system| {
        let table = one_side(random, system);
        let states = table.states();
        let step = Step {
            from: random.below(states),
            to: random.below(states),
            key: some_key(random, table),
        };
        add_step(table, step);
    }),
    ("a step from a state to itself added", |random, system| {
        let table = one_side(random, system);
        let from = random.below(table.states());
        let key = some_key(random, table);
        add_step(
            table,
            Step {
                from,
                to: from,
                key,
            },
        );
    }),
    ("a step turned round and added", |random, system| {
        let table = one_side(random, system);
        if !table.steps.is_empty() {
            let Step { from, to, key } = random.pick(&table.steps);
            let (from, to) = (to, from);
            add_step(table, Step { from, to, key });
        }
    }),
    ("a step taken out", |random, system| {
        let table = one_side(random, system);
        if !table.steps.is_empty() {
            let j = random.below(table.steps.len());
            table.steps.remove(j);
        }
    }),
    ("a pair added", |random, system| {
        let s = random.below(system.left.states());
        let t = random.below(system.right.states());
        system.related[s][t] = true;
    }),
    ("a pair taken out", |random, system| {
        let pairs = system.pairs();
        if !pairs.is_empty() {
            let (s, t) = random.pick(&pairs);
            system.related[s][t] = false;
        }
    }),
    ("a pair of starts taken out", |random, system| {
        let (side, start) = any_start(random, system);
        let (s, t) = random.pick(&pairs_of_start(system, side, start));
        system.related[s][t] = false;
    }),
    ("a start unpaired", |random, system| {
        let (side, start) = any_start(random, system);
        for (s, t) in pairs_of_start(system, side, start) {
            system.related[s][t] = false;
        }
    }),
    ("a start moved", |random, system| {
        let table = one_side(random, system);
        let moved = random.below(table.starts.len());
        table.starts[moved] = random.below(table.states());
        tidy(table);
    }),
    ("a start added", |random, system| {
        let table = one_side(random, system);
        if table.layout().start_word {
            table.starts.push(random.below(table.states()));
            tidy(table);
        }
    }),
    ("a start taken out", |random, system| {
        let table = one_side(random, system);
        if table.starts.len() > 1 {
            table.starts.remove(random.below(table.starts.len()));
        }
    }),
    ("one bit of a mark turned", |random, system| {
        let table = one_side(random, system);
        let state = random.below(table.states());
        table.marks[state] ^= 1 << random.below(8 * table.layout().mark_width);
    }),
    (
        "one bit of the high half of a mark turned",
        |random, system| {
            let table = one_side(random, system);
            if table.layout().mark_width == 4 {
                let state = random.below(table.states());
                table.marks[state] ^= 1 << random.within(16, 31);
            }
        },
    ),
    ("65,535 and 65,536 exchanged", |random, system| {
        let table = one_side(random, system);
        if table.layout().mark_width == 4 {
            for mark in &mut table.marks {
                *mark = exchanged(*mark, [65_535, 65_536]);
            }
        }
    }),
    ("a mark raised or lowered by one", |random, system| {
        let table = one_side(random, system);
        let state = random.below(table.states());
        let by = random.pick(&[1, u32::MAX]);
        table.marks[state] = table.marks[state].wrapping_add(by) & greatest_mark(table);
    }),
];

/// Makes one of the changes, and gives what it is called.
pub fn edit_system(random: &mut Random, system: &mut System) -> &'static str {
    let edits = if system.has_keys() && random.percent(40) {
        KEY_EDITS
    } else {
        SYSTEM_EDITS
    };
    let (label, edit) = random.pick(edits);
    edit(random, system);
    label
}

/// Changes to the keys of a system that has some.
const KEY_EDITS: &[SystemEdit] = &[
    ("another key", |random, system| {
        change_key(random, system, another_key)
    }),
    ("a key taken off", |random, system| {
        change_key(random, system, |_, _| 0)
    }),
    ("the key of another step", |random, system| {
        let keys: Vec<u8> = [&system.left, &system.right]
            .into_iter()
            .flat_map(|table| table.steps.iter().map(|step| step.key))
            .collect();
        if !keys.is_empty() {
            let key = random.pick(&keys);
            change_key(random, system, |_, _| key);
        }
    }),
    ("a step again with another key", |random, system| {
        let table = one_side(random, system);
        if !table.steps.is_empty() {
            let step = random.pick(&table.steps);
            let key = another_key(random, step.key);
            add_step(table, Step { key, ..step });
        }
    }),
    ("a step again, silent", |random, system| {
        let table = one_side(random, system);
        if !table.steps.is_empty() {
            let step = random.pick(&table.steps);
            add_step(table, Step { key: 0, ..step });
        }
    }),
    ("two keys exchanged", |random, system| {
        let table = one_side(random, system);
        if !table.steps.is_empty() {
            let [one, other] = [0, 1].map(|_| random.pick(&table.steps).key);
            exchange_keys(table, one, other);
            save_in(table, table.form);
        }
    }),
    ("two keys exchanged on both sides", |random, system| {
        let table = one_side(random, system);
        if !table.steps.is_empty() {
            let [one, other] = [0, 1].map(|_| random.pick(&table.steps).key);
            for table in [&mut system.left, &mut system.right] {
                exchange_keys(table, one, other);
                save_in(table, table.form);
            }
        }
    }),
    ("the keys of two steps exchanged", |random, system| {
        let table = one_side(random, system);
        if !table.steps.is_empty() {
            let [one, other] = [0, 1].map(|_| random.below(table.steps.len()));
            let before = table.steps.clone();
            table.steps[one].key = before[other].key;
            table.steps[other].key = before[one].key;
            sort_or_keep(table, before);
        }
    }),
];

/// A key of the table's steps or any other, where they have keys.
fn some_key(random: &mut Random, table: &Table) -> u8 {
    match table.form.kind {
        Kind::Tpk if !table.steps.is_empty() && random.percent(70) => random.pick(&table.steps).key,
        Kind::Tpk => random.pick(&[0, 1, 255]),
        Kind::Tpt => 0,
    }
}

/// Gives some step another key.
fn change_key(
    random: &mut Random,
    system: &mut System,
    change: impl FnOnce(&mut Random, u8) -> u8,
) {
    let table = one_side(random, system);
    if !table.steps.is_empty() {
        let before = table.steps.clone();
        let step = &mut table.steps[random.below(before.len())];
        step.key = change(random, step.key);
        sort_or_keep(table, before);
    }
}

/// Lets the steps rise, or puts these back where one now stands twice.
fn sort_or_keep(table: &mut Table, before: Vec<Step>) {
    save_in(table, table.form);
    if table.steps.windows(2).any(|pair| pair[0] == pair[1]) {
        table.steps = before;
    }
}

/// The one of these two for the other.
fn exchanged(mark: u32, [one, other]: [u32; 2]) -> u32 {
    match mark {
        mark if mark == one => other,
        mark if mark == other => one,
        mark => mark,
    }
}

fn one_side<'a>(random: &mut Random, system: &'a mut System) -> &'a mut Table {
    if random.percent(50) {
        &mut system.left
    } else {
        &mut system.right
    }
}

fn add_step(table: &mut Table, step: Step) {
    if table.steps.len() < 256 && !table.steps.contains(&step) {
        table.steps.push(step);
        save_in(table, table.form);
    }
}
