//! What stands in well-formed tables and in a relation, read from their bytes.

use oracle::{Kind, Step, TableLayout};

/// The layout that the form of a table gives it.
pub fn layout(table: &[u8]) -> TableLayout {
    TableLayout::of_file(table).expect("the version is known")
}

/// The steps of this table have keys.
pub fn has_keys(table: &[u8]) -> bool {
    Kind::of_file(table) == Some(Kind::Tpk)
}

pub fn version(table: &[u8]) -> u16 {
    u16::from_be_bytes([table[3], table[4]])
}

pub fn states(table: &[u8]) -> usize {
    table[5] as usize
}

/// The number of steps that stands in the header.
pub fn step_count(table: &[u8]) -> usize {
    let bytes = &table[layout(table).m()];
    bytes[0] as usize * 256 + bytes[1] as usize
}

/// The starts, rising.
pub fn starts(table: &[u8]) -> Vec<usize> {
    let layout = layout(table);
    let bytes = &table[layout.starts()];
    if layout.start_word {
        let states = 0..64;
        states.filter(|&s| contains(bytes, s)).collect()
    } else {
        vec![bytes[0] as usize]
    }
}

/// The mark of each state.
pub fn marks(table: &[u8]) -> Vec<u32> {
    let layout = layout(table);
    let bytes = &table[layout.mark(0)..layout.mark(states(table))];
    let number = |bytes: &[u8]| {
        bytes
            .iter()
            .fold(0, |high, &byte| high << 8 | u32::from(byte))
    };
    bytes.chunks_exact(layout.mark_width).map(number).collect()
}

/// The steps, in table order.
pub fn steps(table: &[u8]) -> impl Iterator<Item = Step> + '_ {
    let layout = layout(table);
    let steps = &table[layout.step(states(table), 0)..];
    steps.chunks_exact(layout.step_width).map(|step| Step {
        from: step[0] as usize,
        to: step[1] as usize,
        key: step.get(2).copied().unwrap_or(0),
    })
}

/// The left state s and the right state t are related in these rows.
pub fn related(rows: &[u8], s: usize, t: usize) -> bool {
    contains(&rows[8 * s..8 * s + 8], t)
}

/// The bit of a state stands in a word of eight bytes.
fn contains(word: &[u8], state: usize) -> bool {
    word[7 - state / 8] >> (state % 8) & 1 == 1
}
