//! Inputs for the writer: what is written, each way to each refusal, and several of them at
//! once.

use crate::random::Random;
use crate::write_edits::{all_steps, WriteEdit, OUTPUT_EDITS, WRITE_EDITS};

#[derive(Clone, PartialEq)]
pub struct WriteCase {
    pub marks: Vec<u32>,
    pub starts: u64,
    pub steps: Vec<u16>,
    /// How many bytes the lent output has.
    pub output_length: usize,
    /// The change for the first of its causes.
    pub label: &'static str,
}

impl WriteCase {
    /// How many bytes the table has, whether it is written or not.
    pub fn needed(&self) -> usize {
        16 + 4 * self.marks.len() + 2 * self.steps.len()
    }
}

/// What a case is called where nothing is changed.
const UNCHANGED: &str = "unchanged";

/// Gives `count` inputs for the writer.
pub struct WriteCases {
    random: Random,
    remaining: usize,
}

impl WriteCases {
    pub fn new(seed: u64, count: usize) -> WriteCases {
        WriteCases {
            random: Random::new(seed),
            remaining: count,
        }
    }
}

impl Iterator for WriteCases {
    type Item = WriteCase;

    fn next(&mut self) -> Option<WriteCase> {
        self.remaining = self.remaining.checked_sub(1)?;
        let random = &mut self.random;
        let mut case = any_written(random);
        let edits = match random.below(20) {
            0..=9 => 0,
            10..=13 => 1,
            14..=17 => 2,
            18 => 3,
            _ => random.within(4, 10),
        };
        let mut places: Vec<usize> = (0..edits)
            .map(|_| random.below(WRITE_EDITS.len()))
            .collect();
        places.sort();
        for &place in places.iter().rev() {
            change(random, &mut case, WRITE_EDITS[place]);
        }
        case.output_length = long_enough(random, case.needed());
        if random.percent(if edits == 0 { 15 } else { 30 }) {
            let before = case.label;
            let edit = random.pick(OUTPUT_EDITS);
            change(random, &mut case, edit);
            if before != UNCHANGED {
                case.label = before;
            }
        }
        Some(case)
    }
}

/// Changes the case, and names it after this where it lets itself be changed.
fn change(random: &mut Random, case: &mut WriteCase, (label, edit): WriteEdit) {
    let before = case.clone();
    edit(random, case);
    if *case != before {
        case.label = label;
    }
}

/// A drawing that can be written.
fn any_written(random: &mut Random) -> WriteCase {
    let n = match random.below(10) {
        0 => 1,
        1 => 2,
        2 => 16,
        3 => 63,
        4 | 5 => 64,
        _ => random.within(1, 64),
    };
    WriteCase {
        marks: any_marks(random, n),
        starts: any_starts(random, n),
        steps: any_steps(random, n),
        output_length: 0,
        label: UNCHANGED,
    }
}

/// Marks at the limits of their bytes, and one with four different bytes.
const SPECIAL_MARKS: [u32; 8] = [
    0,
    1,
    255,
    65_535,
    65_536,
    0x0102_0304,
    u32::MAX - 1,
    u32::MAX,
];

fn any_marks(random: &mut Random, n: usize) -> Vec<u32> {
    let one = random.pick(&SPECIAL_MARKS);
    let kind = random.below(5);
    let mark = |s: usize| match kind {
        0 => one,
        1 => random.pick(&SPECIAL_MARKS),
        2 => random.below(3) as u32,
        3 => s as u32,
        _ => random.word() as u32,
    };
    (0..n).map(mark).collect()
}

/// One start, the last state, all of them, or any.
fn any_starts(random: &mut Random, n: usize) -> u64 {
    let all = u64::MAX >> (64 - n);
    let one = 1 << random.below(n);
    match random.below(5) {
        0 => one,
        1 => 1 << (n - 1),
        2 => all,
        3 => all & !one | 1,
        _ => random.word() & all | one,
    }
}

/// Different steps between n states, in one of several orders.
fn any_steps(random: &mut Random, n: usize) -> Vec<u16> {
    let mut steps = all_steps(n);
    let most = steps.len().min(256);
    let m = match random.below(10) {
        0 => 0,
        1 => 1,
        2 => 255,
        3..=5 => most,
        6 => n,
        _ => random.within(0, most),
    };
    let m = m.min(most);
    for place in 0..m {
        let other = random.within(place, steps.len() - 1);
        steps.swap(place, other);
    }
    steps.truncate(m);
    match random.below(10) {
        0 => steps.sort(),
        1 => steps.sort_by(|one, other| other.cmp(one)),
        2 if m > 0 => {
            steps.sort();
            steps.swap(random.below(m), random.below(m));
        }
        _ => {}
    }
    steps
}

/// Exactly what is needed, more, or what serves every table.
fn long_enough(random: &mut Random, needed: usize) -> usize {
    match random.below(10) {
        0..=4 => needed,
        5..=8 => needed + random.within(1, 30),
        _ => needed.max(784),
    }
}

#[cfg(test)]
mod tests {
    use super::*;
    use std::collections::BTreeSet;

    fn written(case: &WriteCase) -> u64 {
        let mut output = vec![0; case.output_length];
        oracle::write(&case.marks, case.starts, &case.steps, &mut output)[0]
    }

    /// What was changed gets the number in its label, what was not is written, and every
    /// change is made.
    #[test]
    fn labels_have_the_number_of_the_answer() {
        let mut seen = BTreeSet::new();
        for case in WriteCases::new(1, 20_000) {
            let said = case.label.split(':').next();
            let said = said.and_then(|code| code.parse().ok());
            assert_eq!(said.unwrap_or(0), written(&case), "{}", case.label);
            seen.insert(case.label);
        }
        for (label, _) in WRITE_EDITS.iter().chain(OUTPUT_EDITS) {
            assert!(seen.contains(label), "{label}");
        }
    }
}
