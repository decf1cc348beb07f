//! Inputs for the judge.

use crate::byte_edits::BYTE_EDITS;
use crate::certificate_edits::KEY_RANK_EDITS;
use crate::certificate_edits::{EQUAL_EDITS, HEADER_EDITS, RANK_EDITS, START_EDITS};
use crate::certified::add_failing_step;
use crate::families::any_system;
use crate::random::Random;
use crate::system::{Forms, System};
use crate::system_edits::edit_system;
use crate::table_edits::{has_keys, KEY_EDITS, MARK_EDITS, TABLE_EDITS, TABLE_RESIZES};

pub struct JudgeCase {
    pub left: Vec<u8>,
    pub right: Vec<u8>,
    pub certificate: Vec<u8>,
    /// The last change made to the files.
    pub label: &'static str,
}

/// Gives `count` inputs for the judge. Each system serves for several of them.
pub struct JudgeCases {
    forms: Forms,
    random: Random,
    remaining: usize,
    system: System,
    certificate: Vec<u8>,
}

const CASES_PER_SYSTEM: usize = 12;

/// What a case is called where nothing is changed.
const UNCHANGED: &str = "unchanged";

impl JudgeCases {
    pub fn new(seed: u64, count: usize) -> JudgeCases {
        JudgeCases::of(Forms::All, seed, count)
    }

    /// Those whose tables, before a change to their bytes, are of these forms.
    pub fn of(forms: Forms, seed: u64, count: usize) -> JudgeCases {
        let mut random = Random::new(seed);
        let (system, certificate) = certified_system(&mut random, forms);
        JudgeCases {
            forms,
            random,
            remaining: count,
            system,
            certificate,
        }
    }
}

impl Iterator for JudgeCases {
    type Item = JudgeCase;

    fn next(&mut self) -> Option<JudgeCase> {
        if self.remaining == 0 {
            return None;
        }
        self.remaining -= 1;
        if self.remaining % CASES_PER_SYSTEM == 0 {
            (self.system, self.certificate) = certified_system(&mut self.random, self.forms);
        }

        let random = &mut self.random;
        if self.system.has_keys() && random.percent(12) {
            let (mut system, mut certificate) = (self.system.clone(), self.certificate.clone());
            let label = add_failing_step(random, &mut system, &mut certificate);
            return Some(JudgeCase {
                left: system.left_bytes(),
                right: system.right_bytes(),
                certificate,
                label,
            });
        }
        let mut left = self.system.left_bytes();
        let mut right = self.system.right_bytes();
        let mut certificate = self.certificate.clone();
        let mut label = UNCHANGED;
        // Mostly one file is changed; where two are, the order of causes decides. Tables of
        // two kinds are refused in any case, and a cause of a table comes first.
        let most = if self.system.is_of_one_kind() { 20 } else { 14 };
        let (change_left, change_right, change_certificate) = match random.below(most) {
            0..=2 => (true, false, false),
            3..=5 => (false, true, false),
            6 => (true, true, false),
            7 => (true, false, true),
            8 => (false, true, true),
            _ => (false, false, true),
        };
        if change_certificate {
            label = edit_certificate(random, &self.system, &mut certificate);
        }
        if change_left {
            label = edit_table(random, &mut left);
        }
        if change_right {
            label = edit_table(random, &mut right);
        }
        Some(JudgeCase {
            left,
            right,
            certificate,
            label,
        })
    }
}

/// A system, and the certificate made for it; where none can be made, some ranks. Where the
/// tables are of different kinds, it is made for the same tables of one kind.
fn certified_system(random: &mut Random, forms: Forms) -> (System, Vec<u8>) {
    let mut system = any_system(random, forms);
    if random.percent(30) {
        edit_system(random, &mut system);
    }
    let (answer, made) = system.in_one_kind().make();
    let certificate = if answer[0] == 0 {
        made
    } else {
        system.certificate_with_any_ranks(random, 3)
    };
    (system, certificate)
}

/// Changes the bytes of a well-formed table.
pub fn edit_table(random: &mut Random, table: &mut Vec<u8>) -> &'static str {
    let edits = match random.below(20) {
        _ if has_keys(table) && random.percent(15) => KEY_EDITS,
        0..=1 => TABLE_RESIZES,
        2..=4 => MARK_EDITS,
        5..=7 => BYTE_EDITS,
        _ => TABLE_EDITS,
    };
    let (first, second) = one_or_two(random, edits);
    if let Some((_, edit)) = second {
        edit(random, table);
    }
    let (label, edit) = first;
    edit(random, table);
    label
}

/// Changes the bytes of a certificate.
pub fn edit_certificate(
    random: &mut Random,
    system: &System,
    certificate: &mut Vec<u8>,
) -> &'static str {
    let several_starts = system.left.starts.len() + system.right.starts.len() > 2;
    let edits = match random.below(10) {
        _ if several_starts && random.percent(30) => START_EDITS,
        _ if system.has_keys() && random.percent(15) => KEY_RANK_EDITS,
        0..=1 => EQUAL_EDITS,
        2..=3 => HEADER_EDITS,
        4..=8 => RANK_EDITS,
        _ => {
            let (label, edit) = random.pick(BYTE_EDITS);
            edit(random, certificate);
            return label;
        }
    };
    let (first, second) = one_or_two(random, edits);
    if let Some((_, edit)) = second {
        edit(random, system, certificate);
    }
    let (label, edit) = first;
    edit(random, system, certificate);
    label
}

/// One of the changes, and sometimes a second one that stands later in the list
/// and is to be made before it, so that the order of the causes is tested.
pub fn one_or_two<T: Copy>(random: &mut Random, edits: &[T]) -> (T, Option<T>) {
    let (i, j) = (random.below(edits.len()), random.below(edits.len()));
    let second = (i != j && random.percent(20)).then(|| edits[i.max(j)]);
    let first = if second.is_some() { i.min(j) } else { i };
    (edits[first], second)
}

#[cfg(test)]
mod tests {
    use super::*;

    /// The changes that should not matter really do not.
    #[test]
    fn equal_edits_change_no_answer() {
        let mut random = Random::new(1);
        for _ in 0..2_000 {
            let (system, certificate) = certified_system(&mut random, Forms::All);
            let (left, right) = (system.left_bytes(), system.right_bytes());
            let before = oracle::judge(&left, &right, &certificate);
            for (label, edit) in EQUAL_EDITS {
                let mut certificate = certificate.clone();
                edit(&mut random, &system, &mut certificate);
                let after = oracle::judge(&left, &right, &certificate);
                assert_eq!(before, after, "{label}");
            }
        }
    }
}
