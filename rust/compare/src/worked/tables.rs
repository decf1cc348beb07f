//! What a writer is given, and the table that it writes or the numbers of its refusal.

use crate::{hex, Answer};

/// A writer with its output.
type Write<'a> = &'a dyn Fn(&[u32], u64, &[u16], &mut [u8]) -> Answer;

/// Marks, a start word and steps.
type Given = (Vec<u32>, u64, Vec<u16>);

/// Panics at the first worked case that is answered otherwise.
pub fn require_worked_tables(write: impl Fn(&[u32], u64, &[u16], &mut [u8]) -> Answer) {
    for (given, table) in written() {
        require_written(&write, &given, &table);
    }
    for (given, code, a) in refused() {
        // The output is long enough, and then none, which 21 would refuse.
        for length in [784, 0] {
            let found = call(&write, &given, length);
            let expected = ([code, 3, a, 0, 0, 0], vec![0xEE; length]);
            assert!(found == expected, "{code}, {a}: {:?}", found.0);
        }
    }
}

/// The answer, and an output of this length after it.
fn call(write: Write, (marks, starts, steps): &Given, length: usize) -> (Answer, Vec<u8>) {
    let mut output = vec![0xEE; length];
    let answer = write(marks, *starts, steps, &mut output);
    (answer, output)
}

/// In an exact output and in a longer one, whose last byte stays; a shorter one stays whole.
fn require_written(write: Write, given: &Given, table: &[u8]) {
    let length = table.len();
    let answer = [0, 0, length as u64, 0, 0, 0];
    let short = [21, 3, length as u64, 0, 0, 0];
    for (expected, length) in [
        ((answer, table.to_vec()), length),
        ((answer, [table, &[0xEE]].concat()), length + 1),
        ((short, vec![0xEE; length - 1]), length - 1),
        ((short, vec![]), 0),
    ] {
        let found = call(write, given, length);
        let told = hex(&found.1);
        assert!(found == expected, "{given:?}: {:?} {told}", found.0);
    }
}

/// What is written: "16 + 4n + 2m" bytes.
fn written() -> Vec<(Given, Vec<u8>)> {
    let smallest = [
        0x54, 0x50, 0x54, 0x00, 0x04, // "TPT", version 4
        0x01, // 1 state
        0x00, 0x00, 0x00, 0x00, 0x00, 0x00, 0x00, 0x01, // the start 0
        0x00, 0x00, // no step
        0xff, 0xff, 0xff, 0xff, // its mark
    ];
    // P of the scope document.
    let p = [
        0x54, 0x50, 0x54, 0x00, 0x04, // "TPT", version 4
        0x02, // 2 states
        0x00, 0x00, 0x00, 0x00, 0x00, 0x00, 0x00, 0x01, // the start 0
        0x00, 0x02, // 2 steps
        0x00, 0x00, 0x00, 0x00, 0x00, 0x00, 0x00, 0x01, // marks 0 1
        0x00, 0x01, 0x01, 0x00, // steps 0-1, 1-0
    ];
    let three = [
        0x54, 0x50, 0x54, 0x00, 0x04, // "TPT", version 4
        0x03, // 3 states
        0x00, 0x00, 0x00, 0x00, 0x00, 0x00, 0x00, 0x05, // the starts 0 and 2
        0x00, 0x05, // 5 steps
        0x01, 0x02, 0x03, 0x04, 0x00, 0x01, 0x00, 0x00, 0x00, 0x00, 0xff, 0xff, // marks
        0x00, 0x01, 0x00, 0x02, 0x01, 0x01, 0x02, 0x00, 0x02, 0x01, // steps
    ];
    let three_marks = vec![0x0102_0304, 65_536, 65_535];
    let largest = [
        &b"TPT\0\x04\x40"[..],
        &[0x80, 0, 0, 0, 0, 0, 0, 0x01], // the starts 63 and 0
        &[0x00, 0x02],
        &[0x00; 256],
        &[0x00, 0x3f, 0x3f, 0x00], // steps 0-63, 63-0
    ];
    vec![
        ((vec![u32::MAX], 1, vec![]), smallest.to_vec()),
        ((vec![0, 1], 1, vec![0x0001, 0x0100]), p.to_vec()),
        ((vec![0, 1], 1, vec![0x0100, 0x0001]), p.to_vec()),
        (
            (
                three_marks.clone(),
                0b101,
                vec![0x0201, 0x0002, 0x0101, 0x0200, 0x0001],
            ),
            three.to_vec(),
        ),
        (
            (
                three_marks,
                0b101,
                vec![0x0201, 0x0200, 0x0101, 0x0002, 0x0001],
            ),
            three.to_vec(),
        ),
        (
            (vec![0; 64], 1 << 63 | 1, vec![0x3f00, 0x003f]),
            largest.concat(),
        ),
    ]
}

/// What is refused, with its number and a.
fn refused() -> Vec<(Given, u64, u64)> {
    let marks = |n: usize| vec![7; n];
    // Every step of 16 states, and one more.
    let all: Vec<u16> = (0..256).map(|i| i / 16 * 256 + i % 16).collect();
    let with = |step: u16| [&all[..], &[step]].concat();
    vec![
        // "n not 1 to 64"
        ((marks(0), 1, vec![]), 4, 0),
        ((marks(65), 1, vec![]), 4, 0),
        ((marks(256 + 2), 1, vec![]), 4, 0),
        // "the word is 0 or has a bit n or more"
        ((marks(2), 0, vec![]), 28, 0),
        ((marks(2), 0b100, vec![]), 28, 0),
        ((marks(2), 0b101, vec![]), 28, 0),
        ((marks(63), 1 << 63, vec![]), 28, 0),
        ((marks(64), 0, vec![]), 28, 0),
        // "m over 256"
        ((marks(17), 1, with(0x1000)), 6, 0),
        // "step end n or more", "a first such step"
        ((marks(2), 1, vec![0x0200]), 8, 0),
        ((marks(2), 1, vec![0x0001, 0x0002, 0x0200]), 8, 1),
        ((marks(64), 1, vec![0x3f3f, 0x0000, 0x3f40]), 8, 2),
        ((marks(64), 1, vec![0x3f3f, 0xff00, 0x0000]), 8, 1),
        // "step equal to an earlier one", "a first such step"
        ((marks(2), 1, vec![0x0001, 0x0001]), 9, 1),
        ((marks(2), 1, vec![0x0101, 0x0001, 0x0101]), 9, 2),
        ((marks(2), 1, vec![0x0001, 0x0101, 0x0101, 0x0001]), 9, 2),
        ((marks(2), 1, vec![0x0000, 0x0101, 0x0000, 0x0000]), 9, 2),
        // "in that order": 4, 28, 6, 8, 9
        ((marks(0), 0, with(0x0000)), 4, 0),
        ((marks(65), 0, with(0xffff)), 4, 0),
        ((marks(16), 1 << 16, with(0x0000)), 28, 0),
        ((marks(16), 0, with(0xffff)), 28, 0),
        ((marks(16), 1, with(0x0000)), 6, 0),
        ((marks(16), 1, with(0xffff)), 6, 0),
        ((marks(2), 1, vec![0x0000, 0x0000, 0x0200]), 8, 2),
        ((marks(2), 1, vec![0x0002, 0x0000, 0x0002]), 8, 0),
    ]
}
