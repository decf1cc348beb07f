//! Wrong about start words and the starts rule.

use crate::asked::{require_found, version, Asked, Wrong};
use oracle::{Answer, TableLayout};

/// Wrong about the starts rule and about what 16 names.
const STARTS_RULE: [Wrong; 11] = [
    ("only the left starts are looked at", |asked| {
        asked.without_starts(|asked, side, start| side == 1 && asked.is_unpaired(side, start))
    }),
    ("only the right starts are looked at", |asked| {
        asked.without_starts(|asked, side, start| side == 0 && asked.is_unpaired(side, start))
    }),
    ("one pair of starts is enough", |asked| {
        asked.without_starts(|asked, side, start| asked.is_unpaired(side, start))
    }),
    ("only the first starts are looked at", |asked| {
        asked.without_starts(|asked, side, start| start != asked.starts(side)[0])
    }),
    ("a start may be related to any state", |asked| {
        asked.without_starts(|asked, side, start| {
            asked.is_unpaired(side, start) && (0..64).any(|other| asked.related(side, start, other))
        })
    }),
    ("every start is related to every start", |asked| {
        let related_to_all = |side: usize, start: usize| {
            let mut others = asked.starts(1 - side).into_iter();
            others.all(|other| asked.related(side, start, other))
        };
        if asked.has_word() && [0, 17, 18, 19, 22, 23].contains(&asked.answer[0]) {
            let mut starts = asked.starts(0).into_iter();
            if let Some(start) = starts.find(|&start| !related_to_all(0, start)) {
                return [16, 2, 0, start as u64, 0, 0];
            }
        }
        asked.answer
    }),
    ("16 names the last unpaired start", |asked| {
        asked.at_16(|asked, side| (side, asked.unpaired(side).pop()))
    }),
    ("16 names a right start first", |asked| {
        asked.at_16(|asked, side| match asked.unpaired(1).first() {
            Some(&start) => (1, Some(start)),
            None => (side, asked.unpaired(side).first().copied()),
        })
    }),
    ("16 names the two first starts", |asked| {
        asked.at_16(|asked, _| (asked.starts(0)[0], Some(asked.starts(1)[0])))
    }),
    ("16 names two starts where each side has one", |asked| {
        asked.at_16(|asked, side| {
            let [left, right] = [asked.starts(0), asked.starts(1)];
            match (&left[..], &right[..]) {
                (&[left], &[right]) => (left, Some(right)),
                _ => (side, asked.unpaired(side).first().copied()),
            }
        })
    }),
    (
        "16 names a side only where the left table has a word",
        |asked| {
            asked.at_16(|asked, side| match asked.tables.map(has_word) {
                [false, _] => (asked.starts(0)[0], Some(asked.starts(1)[0])),
                _ => (side, asked.unpaired(side).first().copied()),
            })
        },
    ),
];

/// Wrong about a table with a start word.
const WORDS: [Wrong; 18] = [
    ("version 3 is refused", |asked| {
        asked.refuse_table(|table| (version(table) == 3).then_some(3))
    }),
    ("low byte first", |asked| {
        asked.with_words(|_, word| word.swap_bytes())
    }),
    ("a word of 32 bits", |asked| {
        asked.with_words(|_, word| word & 0xffff_ffff)
    }),
    ("28 is 5", |asked| asked.renamed(28, |_| Some(5))),
    ("28 names the start", |asked| {
        let mut answer = asked.answer;
        if answer[0] == 28 {
            answer[2] = u64::from(asked.tables[answer[1] as usize][5]);
        }
        answer
    }),
    ("the word may be 0", |asked| {
        asked.with_words(|_, word| if word == 0 { 1 } else { word })
    }),
    ("bits n and more are not looked at", |asked| {
        asked.with_words(|n, word| match word & below(n) {
            0 => word,
            starts => starts,
        })
    }),
    ("bit n is allowed", |asked| {
        asked.with_words(|n, word| match (n, word & below(n)) {
            (64.., _) | (_, 0) => word,
            _ => word & !(1 << n),
        })
    }),
    ("bit n - 1 is refused", |asked| {
        asked.refuse_table(|table| {
            let starts = word(table)?;
            let last = table[5].checked_sub(1)?;
            (starts >> last.min(63) & 1 == 1).then_some(28)
        })
    }),
    ("64 states have no word", |asked| {
        asked.refuse_table(|table| (word(table).is_some() && table[5] == 64).then_some(28))
    }),
    ("5 by byte 6", |asked| {
        asked.refuse_table(|table| (word(table).is_some() && table[6] >= table[5]).then_some(5))
    }),
    ("6 before 28", |asked| {
        asked.renamed(28, |table| (table[14..16] > [1, 0][..]).then_some(6))
    }),
    ("28 before 4", |asked| {
        asked.renamed(4, |table| {
            (word(table)? == 0 || table[5] == 0).then_some(28)
        })
    }),
    ("4 before 1 under 16 bytes", |asked| {
        asked.renamed(1, |table| {
            let n = *table.get(5).filter(|_| table.len() >= 9)?;
            (!(1..=64).contains(&n)).then_some(4)
        })
    }),
    ("7 under 16 bytes", |asked| {
        asked.renamed(1, |table| (table.len() >= 9).then_some(7))
    }),
    ("1 under 16 bytes before 2 and 3", |asked| {
        asked.refuse_table(|table| (version(table) > 2 && table.len() < 16).then_some(1))
    }),
    ("1 under 16 bytes in every version", |asked| {
        asked.refuse_table(|table| (9..16).contains(&table.len()).then_some(1))
    }),
    ("9 in version 3", |asked| {
        asked.renamed(24, |table| (version(table) == 3).then_some(9))
    }),
];

/// The bits of the states below n.
fn below(n: usize) -> u64 {
    1u64.checked_shl(n as u32).unwrap_or(0).wrapping_sub(1)
}

/// The start word, where the table has one.
fn word(table: &[u8]) -> Option<u64> {
    let bytes = table.get(6..14).filter(|_| has_word(table))?;
    Some(u64::from_be_bytes(bytes.try_into().expect("eight bytes")))
}

fn has_word(table: &[u8]) -> bool {
    table.starts_with(b"TPT") && TableLayout::of_file(table).is_some_and(|layout| layout.start_word)
}

/// The table with another start word.
fn with_word(table: &[u8], word: u64) -> Vec<u8> {
    let mut table = table.to_vec();
    table[6..14].copy_from_slice(&word.to_be_bytes());
    table
}

impl Asked<'_> {
    fn has_word(&self) -> bool {
        self.tables.iter().any(|table| has_word(table))
    }

    /// The starts of a side, whose table is well formed.
    fn starts(&self, side: usize) -> Vec<usize> {
        let table = self.tables[side];
        let word = word(table).unwrap_or_else(|| 1 << table[6]);
        (0..64).filter(|start| word >> start & 1 == 1).collect()
    }

    fn related(&self, side: usize, own: usize, other: usize) -> bool {
        let (s, t) = [(own, other), (other, own)][side];
        let row = self.rows.get(8 * s..8 * s + 8);
        row.is_some_and(|row| row[7 - t / 8] >> (t % 8) & 1 == 1)
    }

    fn is_unpaired(&self, side: usize, start: usize) -> bool {
        let mut others = self.starts(1 - side).into_iter();
        others.all(|other| !self.related(side, start, other))
    }

    fn unpaired(&self, side: usize) -> Vec<usize> {
        let starts = self.starts(side).into_iter();
        starts
            .filter(|&start| self.is_unpaired(side, start))
            .collect()
    }

    /// Where 16 is the answer and a table has a start word, other numbers a and b.
    fn at_16(&self, other: impl Fn(&Self, usize) -> (usize, Option<usize>)) -> Answer {
        if self.answer[0] != 16 || !self.has_word() {
            return self.answer;
        }
        let (a, b) = other(self, self.answer[2] as usize);
        let b = b.expect("some start is unpaired");
        [16, 2, a as u64, b as u64, 0, 0]
    }

    /// Where 16 is the answer, the answer to words without these starts; a word keeps its
    /// last start.
    fn without_starts(&mut self, taken: impl Fn(&Self, usize, usize) -> bool) -> Answer {
        if self.answer[0] != 16 || !self.has_word() {
            return self.answer;
        }
        self.answer_to([0, 1].map(|side| {
            let starts = self.starts(side).into_iter();
            let kept = starts.filter(|&start| !taken(self, side, start));
            let kept: u64 = kept.map(|start| 1 << start).sum();
            match word(self.tables[side]) {
                Some(_) if kept != 0 => with_word(self.tables[side], kept),
                _ => self.tables[side].to_vec(),
            }
        }))
    }

    /// The answer to the tables with other start words, from n and the word.
    fn with_words(&mut self, change: impl Fn(usize, u64) -> u64) -> Answer {
        self.with_tables(|table| match word(table) {
            Some(word) => with_word(table, change(table[5] as usize, word)),
            None => table.to_vec(),
        })
    }
}

#[test]
fn a_wrong_starts_rule_is_found() {
    require_found(&STARTS_RULE);
}

#[test]
fn a_wrong_reader_of_start_words_is_found() {
    require_found(&WORDS);
}
