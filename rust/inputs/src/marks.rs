//! Marks as large as the files of a system can have them.

use crate::random::Random;
use crate::system::System;
use oracle::Table;

/// Other numbers for marks of 16 bits, no two of them the same.
type Renumbering = fn(u32) -> u32;

/// Those that every file has room for.
const RENUMBERINGS: &[Renumbering] = &[|mark| mark, |mark| 65_535 - mark];

/// Those that need four bytes: from 65,535 on, with equal low halves, with equal high
/// halves, and from the greatest down.
const WIDE_RENUMBERINGS: &[Renumbering] = &[
    |mark| 65_535 + mark,
    |mark| mark << 16,
    |mark| mark << 16 | 1,
    |mark| 0x0102_0000 | mark,
    |mark| u32::MAX - mark,
];

/// Gives all marks other numbers, which leaves equal ones equal and others different. A
/// state that is related to none gets any mark that its file has room for.
pub fn renumber_marks(random: &mut Random, system: &mut System) {
    let wide = is_wide(&system.left) && is_wide(&system.right);
    let renumber = if wide && random.percent(70) {
        random.pick(WIDE_RENUMBERINGS)
    } else {
        random.pick(RENUMBERINGS)
    };
    for table in [&mut system.left, &mut system.right] {
        for mark in &mut table.marks {
            *mark = renumber(*mark);
        }
    }
    for s in 0..system.left.states() {
        if !system.related[s].contains(&true) {
            any_mark(random, &mut system.left, s);
        }
    }
    for t in 0..system.right.states() {
        if !system.related.iter().any(|row| row[t]) {
            any_mark(random, &mut system.right, t);
        }
    }
}

/// The marks have four bytes.
fn is_wide(table: &Table) -> bool {
    table.layout().mark_width == 4
}

/// The greatest mark that the file has room for.
pub fn greatest_mark(table: &Table) -> u32 {
    u32::MAX >> (32 - 8 * table.layout().mark_width)
}

fn any_mark(random: &mut Random, table: &mut Table, state: usize) {
    table.marks[state] = random.word() as u32 & greatest_mark(table);
}
