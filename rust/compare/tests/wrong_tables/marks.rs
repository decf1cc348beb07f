//! Wrong about marks of four bytes.

use crate::asked::{require_found, version, Asked, Wrong};
use oracle::Answer;

/// Wrong about the number that a mark is.
const NUMBERS: [Wrong; 9] = [
    ("the low half alone is compared", |asked| {
        asked.with_marks(|mark| mark % 65_536)
    }),
    ("the high half alone is compared", |asked| {
        asked.with_marks(|mark| mark / 65_536 * 65_536)
    }),
    ("low byte first", |asked| asked.with_marks(u32::swap_bytes)),
    ("low half first", |asked| {
        asked.with_marks(|mark| mark.rotate_left(16))
    }),
    ("the highest byte is not looked at", |asked| {
        asked.with_marks(|mark| mark & 0x00ff_ffff)
    }),
    ("the highest bit is not looked at", |asked| {
        asked.with_marks(|mark| mark & 0x7fff_ffff)
    }),
    ("a mark above 65,535 is 65,535", |asked| {
        asked.with_marks(|mark| mark.min(65_535))
    }),
    ("a mark above 65,535 is refused", |asked| {
        asked.refuse_table(|table| {
            let marks = marks(table)?;
            marks.iter().any(|&mark| mark > 65_535).then_some(3)
        })
    }),
    ("a mark of version 3 is the high half", |asked| {
        asked.with_tables(|table| match version(table) {
            3 => in_version_4(table, |low| [low[0], low[1], 0, 0]),
            _ => table.to_vec(),
        })
    }),
];

/// Wrong about a table of version 4.
const VERSION_4: [Wrong; 10] = [
    ("version 4 is refused", |asked| {
        asked.refuse_table(|table| (version(table) == 4).then_some(3))
    }),
    ("version 5 is read", |asked| asked.with_version(5, 4)),
    ("version 4 has marks of two bytes", |asked| {
        asked.with_version(4, 3)
    }),
    ("version 3 has marks of four bytes", |asked| {
        asked.with_version(3, 4)
    }),
    ("one byte more is let through", |asked| {
        asked.with_tables(|table| match table.split_last() {
            Some((_, shorter)) if marks(shorter).is_some() => shorter.to_vec(),
            _ => table.to_vec(),
        })
    }),
    ("one byte short is let through", |asked| {
        asked.with_tables(|table| {
            let longer = [table, &[0]].concat();
            match marks(&longer) {
                Some(_) => longer,
                None => table.to_vec(),
            }
        })
    }),
    ("marks of two bytes are let through", |asked| {
        asked.with_tables(|table| match version(table) {
            4 => {
                let as_3 = with_version(table, 3);
                let wide = in_version_4(&as_3, |low| [0, 0, low[0], low[1]]);
                if marks(&wide).is_some() && marks(table).is_none() {
                    wide
                } else {
                    table.to_vec()
                }
            }
            _ => table.to_vec(),
        })
    }),
    ("7 under 16 bytes", |asked| {
        asked.renamed(1, |table| {
            (version(table) == 4 && table.len() >= 9).then_some(7)
        })
    }),
    ("28 is 5", |asked| {
        asked.renamed(28, |table| (version(table) == 4).then_some(5))
    }),
    ("24 is 9", |asked| {
        asked.renamed(24, |table| (version(table) == 4).then_some(9))
    }),
];

/// The marks of a table of version 4, where its length is 16 + 4n + 2m.
fn marks(table: &[u8]) -> Option<Vec<u32>> {
    let (n, m) = sizes(table).filter(|_| version(table) == 4)?;
    let bytes = table.get(16..16 + 4 * n)?;
    (table.len() == 16 + 4 * n + 2 * m).then(|| {
        let marks = bytes.chunks_exact(4);
        let number = |mark: &[u8]| u32::from_be_bytes(mark.try_into().expect("four bytes"));
        marks.map(number).collect()
    })
}

/// n and m, where the header has a start word.
fn sizes(table: &[u8]) -> Option<(usize, usize)> {
    let m = table.get(14..16)?;
    Some((table[5] as usize, m[0] as usize * 256 + m[1] as usize))
}

/// The table with another version and nothing else.
fn with_version(table: &[u8], version: u8) -> Vec<u8> {
    let mut table = table.to_vec();
    table[4] = version;
    table
}

/// A table of version 3 in version 4, with these four bytes for the two of a mark. Where it
/// has too few marks, it stays as it is.
fn in_version_4(table: &[u8], wide: impl Fn(&[u8]) -> [u8; 4]) -> Vec<u8> {
    let marks = sizes(table).and_then(|(n, _)| table.get(16..16 + 2 * n));
    let Some(marks) = marks else {
        return table.to_vec();
    };
    let steps = &table[16 + marks.len()..];
    let marks: Vec<u8> = marks.chunks_exact(2).flat_map(wide).collect();
    [&with_version(&table[..16], 4), &marks[..], steps].concat()
}

impl Asked<'_> {
    /// The right answer to the tables with other marks in version 4.
    fn with_marks(&mut self, change: impl Fn(u32) -> u32) -> Answer {
        self.with_tables(|table| match marks(table) {
            Some(marks) => {
                let marks = marks.into_iter().map(&change);
                let marks: Vec<u8> = marks.flat_map(u32::to_be_bytes).collect();
                [&table[..16], &marks, &table[16 + marks.len()..]].concat()
            }
            None => table.to_vec(),
        })
    }

    /// The right answer to the tables of the one version with the number of the other.
    fn with_version(&mut self, one: usize, other: u8) -> Answer {
        self.with_tables(|table| match version(table) {
            found if found == one => with_version(table, other),
            _ => table.to_vec(),
        })
    }
}

#[test]
fn a_wrong_number_is_found() {
    require_found(&NUMBERS);
}

#[test]
fn a_wrong_reader_of_version_4_is_found() {
    require_found(&VERSION_4);
}
