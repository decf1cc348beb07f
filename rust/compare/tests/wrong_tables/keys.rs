//! Wrong about tables with keys, and about tables of two kinds.

use crate::asked::{require_found, Asked, Wrong};
use inputs::{save_in, table_bytes};
use oracle::{read_table, Answer, Form, Kind, TableLayout};

/// Wrong about a table with keys.
const TABLES: [Wrong; 22] = [
    ("a table with keys is refused with 2", |asked| {
        asked.refuse_table(|table| (has_keys(table) && table.len() >= 9).then_some(2))
    }),
    ("a table with keys is refused with 3", |asked| {
        asked.refuse_table(|table| (has_keys(table) && table.len() >= 9).then_some(3))
    }),
    ("version 2 is read", |asked| asked.with_version_read(2)),
    ("version 3 is read", |asked| asked.with_version_read(3)),
    ("version 4 is read", |asked| asked.with_version_read(4)),
    ("the version's high byte is not looked at", |asked| {
        asked.with_version_read(257)
    }),
    ("1 under 16 bytes before 3", |asked| {
        asked.renamed(3, |table| {
            (has_keys(table) && table.len() < 16).then_some(1)
        })
    }),
    ("7 under 16 bytes", |asked| {
        asked.renamed(1, |table| {
            (has_keys(table) && table.len() >= 9).then_some(7)
        })
    }),
    ("28 is 5", |asked| {
        asked.renamed(28, |table| has_keys(table).then_some(5))
    }),
    ("24 is 9", |asked| {
        asked.renamed(24, |table| has_keys(table).then_some(9))
    }),
    ("9 for a step equal to the one before it", |asked| {
        let step = asked.answer[2] as usize;
        asked.renamed(24, |table| {
            let steps = steps(table)?;
            (steps[step] == steps[step - 1]).then_some(9)
        })
    }),
    ("steps of two bytes are let through", |asked| {
        asked.with_tables(|table| match layout(table) {
            Some((layout, n, m)) if table.len() == layout.step(n, 0) + 2 * m => {
                let steps = table[layout.step(n, 0)..].chunks_exact(2);
                let keyed = steps.flat_map(|step| [step[0], step[1], 0]);
                [table[..layout.step(n, 0)].to_vec(), keyed.collect()].concat()
            }
            _ => table.to_vec(),
        })
    }),
    ("one byte more is let through", |asked| {
        asked.with_tables(|table| match table.split_last() {
            Some((_, shorter)) if steps(shorter).is_some() => shorter.to_vec(),
            _ => table.to_vec(),
        })
    }),
    ("one byte short is let through", |asked| {
        asked.with_tables(|table| {
            let longer = [table, &[0]].concat();
            match steps(&longer) {
                Some(_) => longer,
                None => table.to_vec(),
            }
        })
    }),
    ("8 for a key n or more", |asked| {
        asked.refuse_step(8, |n, _, step| step[2] as usize >= n)
    }),
    ("24 for two steps that differ in their key only", |asked| {
        asked.refuse_step(24, |_, before, step| {
            before.is_some_and(|before| before[..2] == step[..2])
        })
    }),
    ("24 without the key", |asked| {
        asked.with_sorted_steps(|[from, to, _]| [from, to, 0])
    }),
    ("steps may rise by from, key, to", |asked| {
        asked.with_sorted_steps(|[from, to, key]| [from, key, to])
    }),
    ("steps may rise by key, from, to", |asked| {
        asked.with_sorted_steps(|[from, to, key]| [key, from, to])
    }),
    ("no key is looked at", |asked| asked.with_keys(|_| 0)),
    ("a key of 7 bits", |asked| asked.with_keys(|key| key & 0x7f)),
    ("every step that is not silent has one key", |asked| {
        asked.with_keys(|key| key.min(1))
    }),
];

/// Wrong about the numbers of 16 where tables have keys.
const STARTS: [Wrong; 2] = [
    ("16 names the two first starts", |asked| {
        if asked.answer[0] != 16 || !asked.tables.iter().all(|table| has_keys(table)) {
            return asked.answer;
        }
        let first = |table: &[u8]| {
            let bytes = table[6..14].try_into().expect("eight bytes");
            u64::from(u64::from_be_bytes(bytes).trailing_zeros())
        };
        let [left, right] = asked.tables.map(first);
        [16, 2, left, right, 0, 0]
    }),
    ("16 names no start", |asked| {
        let mut answer = asked.answer;
        if answer[0] == 16 && asked.tables.iter().all(|table| has_keys(table)) {
            answer[3] = 0;
        }
        answer
    }),
];

/// Wrong about 30 and its place in the order.
const KINDS: [Wrong; 12] = [
    ("30 before the left table is read", |asked| {
        asked.with_30_before(|_| true)
    }),
    ("30 before the right table is read", |asked| {
        asked.with_30_before(|file| file == 1)
    }),
    ("30 after the certificate's first bytes, or 20", |asked| {
        asked.with_30_after(&[10, 11, 12, 20])
    }),
    ("30 after the certificate's length, or 20", |asked| {
        asked.with_30_after(&[10, 11, 12, 13, 14, 20])
    }),
    ("30 after the rows", |asked| {
        asked.with_30_after(&[10, 11, 12, 13, 14, 15, 20])
    }),
    ("30 after 15 alone", |asked| asked.with_30_after(&[15])),
    ("30 after the starts", |asked| {
        asked.with_30_after(&[10, 11, 12, 13, 14, 15, 16, 20, 21])
    }),
    ("30 after all others", |asked| {
        asked.with_30_after(&[10, 11, 12, 13, 14, 15, 16, 17, 18, 19, 20, 21, 22, 23])
    }),
    ("30 is not tested", |asked| match asked.answer[0] {
        30 => asked.answer_in_one_kind(),
        _ => asked.answer,
    }),
    ("30 with file 0", |asked| match asked.answer[0] {
        30 => [30, 0, 0, 0, 0, 0],
        _ => asked.answer,
    }),
    ("30 with the file that has keys", |asked| {
        match asked.answer[0] {
            30 => [30, u64::from(has_keys(asked.tables[1])), 0, 0, 0, 0],
            _ => asked.answer,
        }
    }),
    ("2 in place of 30", |asked| match asked.answer[0] {
        30 => [2, 1, 0, 0, 0, 0],
        _ => asked.answer,
    }),
];

fn has_keys(table: &[u8]) -> bool {
    Kind::of_file(table) == Some(Kind::Tpk)
}

/// The layout, n and m of a table with keys that has its header.
fn layout(table: &[u8]) -> Option<(TableLayout, usize, usize)> {
    let layout = TableLayout::of_file(table).filter(|_| has_keys(table))?;
    let m = table.get(layout.m())?;
    Some((
        layout,
        table[5] as usize,
        m[0] as usize * 256 + m[1] as usize,
    ))
}

/// The steps of a table with keys that has its length.
fn steps(table: &[u8]) -> Option<Vec<[u8; 3]>> {
    let (layout, n, m) = layout(table)?;
    (table.len() == layout.length(n, m)).then(|| {
        let steps = table[layout.step(n, 0)..].chunks_exact(3);
        steps.map(|step| [step[0], step[1], step[2]]).collect()
    })
}

/// The table with other steps, as many.
fn with_steps(table: &[u8], steps: &[[u8; 3]]) -> Vec<u8> {
    let first = table.len() - 3 * steps.len();
    [&table[..first], &steps.concat()].concat()
}

fn rise(steps: &[[u8; 3]]) -> bool {
    steps.windows(2).all(|pair| pair[0] < pair[1])
}

impl Asked<'_> {
    /// The right answer where a table with keys of this version is read as one of version 1.
    fn with_version_read(&mut self, version: u16) -> Answer {
        self.with_tables(|table| {
            let mut read = table.to_vec();
            let form = Form {
                kind: Kind::Tpk,
                version,
            };
            if Form::of_file(table) == Some(form) {
                read[3..5].copy_from_slice(&[0, 1]);
            }
            read
        })
    }

    /// Where the left table is not refused, it is refused with this number for the first step
    /// of this kind, from n, the step before it, and the step.
    fn refuse_step(
        &self,
        code: u64,
        refused: impl Fn(usize, Option<[u8; 3]>, [u8; 3]) -> bool,
    ) -> Answer {
        let table = self.tables[0];
        if let (Ok(_), Some(steps)) = (read_table(table, 0), steps(table)) {
            let refused = (0..steps.len()).find(|&j| {
                let before = j.checked_sub(1).map(|before| steps[before]);
                refused(table[5] as usize, before, steps[j])
            });
            if let Some(j) = refused {
                return [code, 0, j as u64, 0, 0, 0];
            }
        }
        self.answer
    }

    /// The right answer where steps that rise by these numbers, or stay, are let through.
    fn with_sorted_steps(&mut self, numbers: impl Fn([u8; 3]) -> [u8; 3]) -> Answer {
        self.with_tables(|table| match steps(table) {
            Some(mut steps) if steps.is_sorted_by_key(|&step| numbers(step)) => {
                steps.sort();
                with_steps(table, &steps)
            }
            _ => table.to_vec(),
        })
    }

    /// The right answer to the tables with other keys, where their steps still rise.
    fn with_keys(&mut self, change: impl Fn(u8) -> u8) -> Answer {
        self.with_tables(|table| match steps(table) {
            Some(steps) => {
                let changed = steps.iter().map(|&[from, to, key]| [from, to, change(key)]);
                let changed: Vec<[u8; 3]> = changed.collect();
                if rise(&changed) {
                    with_steps(table, &changed)
                } else {
                    table.to_vec()
                }
            }
            None => table.to_vec(),
        })
    }

    /// Where one of these tables is refused and one table has keys and the other none, 30
    /// comes first.
    fn with_30_before(&self, refused: impl Fn(u64) -> bool) -> Answer {
        let [code, file, ..] = self.answer;
        let kinds = self.tables.map(Kind::of_file);
        let are_two = kinds.iter().all(Option::is_some) && kinds[0] != kinds[1];
        if matches!(code, 1..=9 | 24 | 28) && refused(file) && are_two {
            return [30, 1, 0, 0, 0, 0];
        }
        self.answer
    }

    /// Where 30 is the answer, those of the other causes that have these numbers come first.
    fn with_30_after(&mut self, codes: &[u64]) -> Answer {
        if self.answer[0] == 30 {
            let otherwise = self.answer_in_one_kind();
            if codes.contains(&otherwise[0]) {
                return otherwise;
            }
        }
        self.answer
    }

    /// The right answer to the same tables, both with keys.
    fn answer_in_one_kind(&mut self) -> Answer {
        self.with_tables(|table| {
            let mut table = read_table(table, 0).expect("both tables are well formed");
            save_in(&mut table, Form::TPK);
            table_bytes(&table)
        })
    }
}

#[test]
fn a_wrong_reader_of_keys_is_found() {
    require_found(&TABLES);
}

#[test]
fn wrong_numbers_of_16_are_found() {
    require_found(&STARTS);
}

#[test]
fn a_wrong_place_of_30_is_found() {
    require_found(&KINDS);
}
