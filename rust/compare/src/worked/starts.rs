//! Tables with a start word.

use super::{Case, Refused, K, P, Q};

/// P with these starts: 2 states, 2 steps, marks 0 1, steps 0-1, 1-0.
fn p(starts: u8) -> Vec<u8> {
    let word = [0, 0, 0, 0, 0, 0, 0, starts];
    [
        &b"TPT\0\x03\x02"[..],
        &word,
        b"\0\x02",
        b"\0\0\0\x01",
        b"\0\x01\x01\0",
    ]
    .concat()
}

/// Q with these starts: 3 states, 3 steps, marks 0 0 1, steps 0-1, 1-2, 2-0.
fn q(starts: u8) -> Vec<u8> {
    let word = [0, 0, 0, 0, 0, 0, 0, starts];
    let (marks, steps) = (b"\0\0\0\0\0\x01", b"\0\x01\x01\x02\x02\0");
    [&b"TPT\0\x03\x03"[..], &word, b"\0\x03", marks, steps].concat()
}

/// Three states of mark 0 without a step: in version 3 with a start word, and in the
/// versions before with a start.
fn still(starts: u8) -> Vec<u8> {
    let word = [0, 0, 0, 0, 0, 0, 0, starts];
    [&b"TPT\0\x03\x03"[..], &word, b"\0\0", b"\0\0\0\0\0\0"].concat()
}

fn still_before(version: u8, start: u8) -> Vec<u8> {
    [
        b"TPT\0",
        &[version][..],
        b"\x03",
        &[start],
        b"\0\0",
        b"\0\0\0\0\0\0",
    ]
    .concat()
}

/// The certificate for two of these and for these rows; all ranks are 0.
fn rows(rows: [u8; 3]) -> Vec<u8> {
    let rows = rows.map(|row| [0, 0, 0, 0, 0, 0, 0, row]).concat();
    [&b"TPC\0\x01\x03\x03\0\0\0\0"[..], &rows, &[0; 18]].concat()
}

/// P and Q in every mix of a start and a start word. The rows of K are 0 ~ 0 1 and 1 ~ 2.
fn pairs_of_p_and_q() -> Vec<Case> {
    let accepted = [0, 0, 3, 4, 1, 1];
    let unpaired = |side, start| [16, 2, side, start, 0, 0];
    [
        ("P, Q wakes idle or paused", P.to_vec(), q(0b011), accepted),
        ("P, Q wakes paused", P.to_vec(), q(0b010), accepted),
        ("P in a word, Q", p(0b01), Q.to_vec(), accepted),
        ("both starts of P, two of Q", p(0b11), q(0b101), accepted),
        ("all starts", p(0b11), q(0b111), accepted),
        (
            "2 of Q is related to no start",
            P.to_vec(),
            q(0b101),
            unpaired(1, 2),
        ),
        (
            "2 of Q is unpaired, 1 of Q is not",
            P.to_vec(),
            q(0b110),
            unpaired(1, 2),
        ),
        (
            "0 of P is related to no start",
            P.to_vec(),
            q(0b100),
            unpaired(0, 0),
        ),
        (
            "1 of P, with a word on the left",
            p(0b11),
            Q.to_vec(),
            unpaired(0, 1),
        ),
        (
            "1 of P, with words on both sides",
            p(0b11),
            q(0b011),
            unpaired(0, 1),
        ),
        (
            "1 of P alone, and one start of Q",
            p(0b10),
            q(0b001),
            unpaired(0, 1),
        ),
    ]
    .map(Case::with_k)
    .into()
}

/// The starts rule alone: without a step every relation is accepted that pairs the starts.
fn starts_alone() -> Vec<Case> {
    let accepted = |pairs| [0, 0, pairs, 0, 0, 0];
    let unpaired = |side, start| [16, 2, side, start, 0, 0];
    let all = still(0b111);
    [
        (
            "0 ~ 0, 1 ~ 2",
            still(0b011),
            still(0b101),
            [1, 4, 0],
            accepted(2),
        ),
        (
            "1 and 2 unpaired",
            still(0b011),
            still(0b101),
            [1, 0, 0],
            unpaired(0, 1),
        ),
        (
            "right 2 unpaired",
            still(0b011),
            still(0b101),
            [1, 1, 0],
            unpaired(1, 2),
        ),
        (
            "only with right 1, no start",
            still(0b011),
            still(0b101),
            [1, 2, 0],
            unpaired(0, 1),
        ),
        (
            "the first left one",
            all.clone(),
            all.clone(),
            [0, 7, 7],
            unpaired(0, 0),
        ),
        (
            "the middle left one",
            all.clone(),
            all.clone(),
            [7, 0, 7],
            unpaired(0, 1),
        ),
        (
            "the last left one",
            all.clone(),
            all.clone(),
            [7, 7, 0],
            unpaired(0, 2),
        ),
        (
            "the first right one",
            all.clone(),
            all.clone(),
            [6, 6, 6],
            unpaired(1, 0),
        ),
        (
            "the middle right one",
            all.clone(),
            all.clone(),
            [5, 5, 5],
            unpaired(1, 1),
        ),
        (
            "the last right one",
            all.clone(),
            all.clone(),
            [3, 3, 3],
            unpaired(1, 2),
        ),
        (
            "two right ones",
            all.clone(),
            all.clone(),
            [2, 2, 2],
            unpaired(1, 0),
        ),
        (
            "left before right",
            all.clone(),
            all.clone(),
            [6, 6, 0],
            unpaired(0, 2),
        ),
        (
            "each with one",
            all.clone(),
            all.clone(),
            [4, 1, 2],
            accepted(3),
        ),
        (
            "one bit a side",
            still(0b100),
            still(0b010),
            [7, 7, 5],
            unpaired(0, 2),
        ),
        (
            "a start and one bit",
            still_before(1, 2),
            still(0b010),
            [7, 7, 5],
            unpaired(0, 2),
        ),
        (
            "one bit and a start",
            still(0b100),
            still_before(2, 1),
            [7, 7, 5],
            unpaired(0, 2),
        ),
        (
            "two starts",
            still_before(2, 2),
            still_before(1, 1),
            [7, 7, 5],
            unpaired(2, 1),
        ),
        (
            "a start and a word",
            still_before(2, 0),
            all.clone(),
            [5, 7, 7],
            unpaired(1, 1),
        ),
        (
            "a start for all three",
            still_before(1, 0),
            all.clone(),
            [7, 0, 0],
            accepted(3),
        ),
        (
            "a word and a start",
            all.clone(),
            still_before(1, 1),
            [2, 2, 5],
            unpaired(0, 2),
        ),
        (
            "all three for a start",
            all.clone(),
            still_before(2, 1),
            [2, 2, 2],
            accepted(3),
        ),
    ]
    .map(|(name, left, right, given, answer)| Case {
        certificate: rows(given),
        ..Case::with_k((name, left, right, answer))
    })
    .into()
}

/// In the order of the causes: 1 (under 9 bytes), 2, 3, 1 (under 16 bytes), 4, 28, 6, 7, 8, 24.
pub fn refused_tables() -> Vec<Refused> {
    let good = q(0b011);
    let with = |place: usize, bytes: &[u8]| {
        let mut table = q(0b011);
        table[place..place + bytes.len()].copy_from_slice(bytes);
        table
    };
    let cut = |length: usize, table: Vec<u8>| table[..length].to_vec();
    let word = |word: u64| with(6, &word.to_be_bytes());
    let longer = |table: Vec<u8>, byte: u8| [table, vec![byte]].concat();
    vec![
        ("8 bytes", cut(8, good.clone()), [1, 0]),
        ("8 bytes of no table", cut(8, with(0, b"X")), [1, 0]),
        ("9 bytes of no table", cut(9, with(0, b"X")), [2, 0]),
        ("9 bytes of version 5", cut(9, with(3, &[0, 5])), [3, 0]),
        ("version 259", with(3, &[1, 3]), [3, 0]),
        ("9 bytes", cut(9, good.clone()), [1, 0]),
        ("15 bytes", cut(15, good.clone()), [1, 0]),
        ("15 bytes and no state", cut(15, with(5, &[0])), [1, 0]),
        ("15 bytes and no start", cut(15, word(0)), [1, 0]),
        ("16 bytes and no state", cut(16, with(5, &[0])), [4, 0]),
        (
            "65 states and no start",
            with(5, &[65, 0, 0, 0, 0, 0, 0, 0, 0]),
            [4, 0],
        ),
        ("no start", word(0), [28, 0]),
        ("bit n", word(0b1001), [28, 0]),
        ("bit n alone", word(0b1000), [28, 0]),
        ("bit 63", word(1 << 63 | 1), [28, 0]),
        ("starts with the low byte first", word(1 << 56), [28, 0]),
        ("no start and 257 steps", with(13, &[0, 1, 1]), [28, 0]),
        ("bit n and a wrong length", cut(27, word(0b1001)), [28, 0]),
        ("257 steps", with(14, &[1, 1]), [6, 0]),
        ("16 bytes", cut(16, good.clone()), [7, 0]),
        ("one byte short", cut(27, good.clone()), [7, 0]),
        ("one byte more", longer(good.clone(), 0), [7, 0]),
        ("one step more than there are", with(14, &[0, 4]), [7, 0]),
        ("step 1 to 3", with(25, &[3]), [8, 1]),
        (
            "step 2 from 3, and step 1 equal to step 0",
            with(24, &[0, 1, 3]),
            [8, 2],
        ),
        ("step 1 equal to step 0", with(24, &[0, 1]), [24, 1]),
        ("step 2 below step 1", with(26, &[1, 1]), [24, 2]),
        // As version 3 its bytes 6 to 13 are 00 00 02 00 00 00 01 00.
        (
            "P with the number 3 alone",
            [b"TPT\0\x03", &P[5..]].concat(),
            [28, 0],
        ),
    ]
}

/// Pairs of tables that are read.
pub fn cases() -> Vec<Case> {
    [pairs_of_p_and_q(), starts_alone()].concat()
}

/// P and Q with several starts, as the files of a run.
pub fn files_of_run() -> [[Vec<u8>; 3]; 2] {
    let k = || K.to_vec();
    [[P.to_vec(), q(0b011), k()], [p(0b11), q(0b111), k()]]
}
