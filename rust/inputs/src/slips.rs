//! Slips: the numbers of the inputs, and others.

use crate::random::Random;
use crate::system::{save_in, table_bytes};
use oracle::{read_table, Form, Layout, Slip, Step, Table};

/// What the numbers of a slip are called.
const PLACES: [&str; 4] = ["left length", "right length", "relation's length", "L"];

/// Another number, and what it is called.
type NumberEdit = (&'static str, fn(u64) -> u64);

/// The sums would pass where the low bits alone are compared.
const NUMBER_EDITS: [NumberEdit; 8] = [
    ("one more", |number| number.wrapping_add(1)),
    ("one less", |number| number.wrapping_sub(1)),
    ("0", |_| 0),
    ("2^8 more", |number| number + (1 << 8)),
    ("2^16 more", |number| number + (1 << 16)),
    ("2^32 more", |number| number + (1 << 32)),
    ("2^63 more", |number| number + (1 << 63)),
    ("the greatest number", |_| u64::MAX),
];

/// Another slip from the numbers of the inputs and their tables, and what it is called.
type SlipEdit = (&'static str, fn(&mut Random, &Measured) -> Slip);

/// Each leaves the numbers as they are where the inputs do not let themselves be changed so.
const SLIP_EDITS: [SlipEdit; 7] = [
    ("zeros", |_, _| [0; 4]),
    ("two numbers exchanged", |random, inputs| {
        let mut slip = inputs.numbers;
        slip.swap(random.below(4), random.below(4));
        slip
    }),
    ("the numbers in another order", |random, inputs| {
        let mut slip = inputs.numbers;
        random.shuffle(&mut slip);
        slip
    }),
    // The sum stays.
    ("one more and one less", |random, inputs| {
        let mut slip = inputs.numbers;
        let place = random.below(4);
        let other = (place + random.within(1, 3)) % 4;
        slip[place] += 1;
        slip[other] = slip[other].wrapping_sub(1);
        slip
    }),
    ("of the tables exchanged", |_, inputs| {
        let Measured { left, right, .. } = inputs;
        numbers(right, left, 8 * right.states())
    }),
    ("of files as long, L greater", |_, inputs| {
        inputs.with_greater_l()
    }),
    ("of files as long, L less", |_, inputs| inputs.with_less_l()),
];

/// What every slip that is made so is called.
pub fn other_slips() -> Vec<String> {
    let changes = NUMBER_EDITS.map(|(change, _)| PLACES.map(|place| number_label(place, change)));
    let others = SLIP_EDITS.map(|(label, _)| label.to_string());
    changes.into_iter().flatten().chain(others).collect()
}

fn number_label(place: &str, change: &str) -> String {
    format!("{place}: {change}")
}

/// The numbers of these inputs, where both tables are well formed.
pub fn slip_numbers(left: &[u8], right: &[u8], relation: &[u8]) -> Option<Slip> {
    Measured::read(left, right, relation).map(|inputs| inputs.numbers)
}

/// Inputs with well-formed tables, and their numbers.
pub struct Measured {
    left: Table,
    right: Table,
    pub numbers: Slip,
}

impl Measured {
    pub fn read(left: &[u8], right: &[u8], relation: &[u8]) -> Option<Measured> {
        let left = read_table(left, 0).ok()?;
        let right = read_table(right, 1).ok()?;
        let numbers = numbers(&left, &right, relation.len());
        Some(Measured {
            left,
            right,
            numbers,
        })
    }

    /// The numbers of files as long, with more right states for as many bytes of steps.
    fn with_greater_l(&self) -> Slip {
        let mut right = self.right.clone();
        let (states, steps) = as_long(&right);
        if right.states() + states <= 64 && right.steps.len() >= steps {
            right.marks.resize(right.states() + states, 0);
            right.steps.truncate(right.steps.len() - steps);
        }
        self.with_tables(&self.left, &right)
    }

    /// The numbers of files as long, with marks of four bytes in place of two for as many
    /// bytes of steps, or where there are keys with fewer right states for as many.
    fn with_less_l(&self) -> Slip {
        let [left, mut right] = [&self.left, &self.right].map(|table| {
            let mut table = table.clone();
            if table.form == Form::tpt(3) && table.steps.len() >= table.states() {
                table.steps.truncate(table.steps.len() - table.states());
                save_in(&mut table, Form::tpt(4));
            }
            table
        });
        let (states, steps) = as_long(&right);
        let more = right.steps.len() + steps;
        if right.form == Form::TPK && right.states() > states && more <= 256 {
            right.marks.truncate(right.states() - states);
            let silent = |from, to| Step { from, to, key: 0 };
            right.steps.resize(more, silent(0, 0));
        }
        self.with_tables(&left, &right)
    }

    /// The numbers with these tables and the same relation.
    fn with_tables(&self, left: &Table, right: &Table) -> Slip {
        numbers(left, right, self.numbers[2] as usize)
    }

    /// A slip with other numbers and what it is called, where these inputs have such a one.
    pub fn other_slip(&self, random: &mut Random) -> Option<(String, Slip)> {
        let (label, slip) = if random.percent(70) {
            let place = random.below(4);
            let (change, edit) = random.pick(&NUMBER_EDITS);
            let mut slip = self.numbers;
            slip[place] = edit(slip[place]);
            (number_label(PLACES[place], change), slip)
        } else {
            let (label, edit) = random.pick(&SLIP_EDITS);
            (label.to_string(), edit(random, self))
        };
        (slip != self.numbers).then_some((label, slip))
    }
}

/// The fewest states and steps that have as many bytes in this table.
fn as_long(table: &Table) -> (usize, usize) {
    let layout = table.layout();
    match (layout.mark_width, layout.step_width) {
        (marks, 2) => (1, marks / 2),
        (marks, steps) => (steps, marks),
    }
}

/// "the lengths of the three inputs and L"
fn numbers(left: &Table, right: &Table, relation_length: usize) -> Slip {
    let lengths = [left, right].map(|table| table_bytes(table).len());
    let length = Layout::new(left, right).length();
    [lengths[0], lengths[1], relation_length, length].map(|number| number as u64)
}

#[cfg(test)]
mod tests {
    use super::*;
    use crate::make_cases::MakeCases;

    /// The two slips of files as long have three right numbers, and L is as they say.
    #[test]
    fn files_as_long_differ_in_l_alone() {
        let mut seen = [[0, 0]; 2];
        for case in MakeCases::new(1, 3_000) {
            let Some(inputs) = Measured::read(&case.left, &case.right, &case.relation) else {
                continue;
            };
            let (greater, less) = (inputs.with_greater_l(), inputs.with_less_l());
            for slip in [greater, less] {
                assert_eq!(slip[..3], inputs.numbers[..3]);
            }
            let l = inputs.numbers[3];
            assert!(less[3] <= l && l <= greater[3]);
            let kind = usize::from(inputs.right.form == Form::TPK);
            seen[kind][0] += usize::from(l < greater[3]);
            seen[kind][1] += usize::from(less[3] < l);
        }
        let enough = seen.iter().flatten().all(|&times| times > 200);
        assert!(enough, "{seen:?}");
    }
}
