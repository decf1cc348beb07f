//! Inputs for the maker.

use crate::byte_edits::{ByteEdit, BYTE_EDITS};
use crate::certificate_edits::set_bit_too_high;
use crate::families::any_system;
use crate::judge_cases::edit_table;
use crate::random::Random;
use crate::system::{Forms, System};
use crate::system_edits::edit_system;

pub struct MakeCase {
    pub left: Vec<u8>,
    pub right: Vec<u8>,
    pub relation: Vec<u8>,
    /// How many bytes the lent output has.
    pub output_length: usize,
    /// The last change made to the files.
    pub label: &'static str,
}

/// Gives `count` inputs for the maker. Each system serves for several of them.
pub struct MakeCases {
    forms: Forms,
    random: Random,
    remaining: usize,
    system: System,
}

const CASES_PER_SYSTEM: usize = 6;

impl MakeCases {
    pub fn new(seed: u64, count: usize) -> MakeCases {
        MakeCases::of(Forms::All, seed, count)
    }

    /// Those whose tables, before a change to their bytes, are of these forms.
    pub fn of(forms: Forms, seed: u64, count: usize) -> MakeCases {
        let mut random = Random::new(seed);
        let system = any_system(&mut random, forms);
        MakeCases {
            forms,
            random,
            remaining: count,
            system,
        }
    }
}

impl Iterator for MakeCases {
    type Item = MakeCase;

    fn next(&mut self) -> Option<MakeCase> {
        if self.remaining == 0 {
            return None;
        }
        self.remaining -= 1;
        if self.remaining % CASES_PER_SYSTEM == 0 {
            self.system = any_system(&mut self.random, self.forms);
        }

        let random = &mut self.random;
        let mut system = self.system.clone();
        let mut label = "unchanged";
        for _ in 0..random.pick(&[0, 0, 1, 1, 1, 2]) {
            label = edit_system(random, &mut system);
        }
        let mut left = system.left_bytes();
        let mut right = system.right_bytes();
        let mut relation = system.relation_bytes();
        if random.percent(15) {
            label = edit_relation(random, &system, &mut relation);
        }
        // Tables of two kinds are refused in any case, and a cause of a table comes first.
        let table_percent = if system.is_of_one_kind() { 12 } else { 30 };
        if random.percent(table_percent) {
            label = edit_table(random, &mut left);
        }
        if random.percent(table_percent) {
            label = edit_table(random, &mut right);
        }
        let output_length = output_length(random, system.layout().length());
        Some(MakeCase {
            left,
            right,
            relation,
            output_length,
            label,
        })
    }
}

/// Exactly L bytes, more, one less, or far less.
fn output_length(random: &mut Random, length: usize) -> usize {
    match random.below(20) {
        0..=10 => length,
        11..=16 => length + random.within(1, 30),
        17..=18 => length - 1,
        _ => random.below(length),
    }
}

fn edit_relation(random: &mut Random, system: &System, relation: &mut Vec<u8>) -> &'static str {
    if random.percent(50) {
        set_bit_too_high(random, system, relation);
        if random.percent(80) {
            return "15: row bit";
        }
    }
    let (label, edit) = if random.percent(50) {
        random.pick(RELATION_LENGTHS)
    } else {
        random.pick(BYTE_EDITS)
    };
    edit(random, relation);
    label
}

const RELATION_LENGTHS: &[ByteEdit] = &[
    ("20: one byte short", |_, relation| {
        relation.pop();
    }),
    ("20: one byte more", |_, relation| relation.push(0)),
    ("20: one row short", |_, relation| {
        relation.truncate(relation.len() - 8);
    }),
    ("20: one row more", |_, relation| relation.extend([0; 8])),
    ("20: no row", |_, relation| relation.clear()),
];
