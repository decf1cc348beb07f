//! Tables with marks of four bytes.

use super::{Case, Refused, K, P, Q};

/// P in version 4 with these marks: 2 states, start 0, 2 steps, steps 0-1, 1-0.
fn p(marks: [[u8; 4]; 2]) -> Vec<u8> {
    let starts = b"\0\0\0\0\0\0\0\x01";
    let (marks, steps) = (marks.concat(), b"\0\x01\x01\0");
    [&b"TPT\0\x04\x02"[..], starts, b"\0\x02", &marks, steps].concat()
}

/// Q in version 4 with these marks: 3 states, start 0, 3 steps, steps 0-1, 1-2, 2-0.
fn q(marks: [[u8; 4]; 3]) -> Vec<u8> {
    let starts = b"\0\0\0\0\0\0\0\x01";
    let (marks, steps) = (marks.concat(), b"\0\x01\x01\x02\x02\0");
    [&b"TPT\0\x04\x03"[..], starts, b"\0\x03", &marks, steps].concat()
}

/// P with these marks in the versions before: 16 bits each.
fn p_before(version: u8, marks: [[u8; 2]; 2]) -> Vec<u8> {
    let starts: &[u8] = match version {
        1 | 2 => b"\0",
        _ => b"\0\0\0\0\0\0\0\x01",
    };
    let (marks, steps) = (marks.concat(), b"\0\x01\x01\0");
    let header = [b"TPT\0", &[version][..], b"\x02", starts, b"\0\x02"].concat();
    [&header[..], &marks, steps].concat()
}

/// Marks of four bytes, "the high byte first": 0, 1, 65,535, 65,536, 65,537, the byte of 1
/// at the other end, and the greatest.
const M0: [u8; 4] = [0, 0, 0, 0];
const M1: [u8; 4] = [0, 0, 0, 1];
const M65535: [u8; 4] = [0, 0, 255, 255];
const M65536: [u8; 4] = [0, 1, 0, 0];
const M65537: [u8; 4] = [0, 1, 0, 1];
const TURNED: [u8; 4] = [1, 0, 0, 0];
const GREATEST: [u8; 4] = [255, 255, 255, 255];

/// P and Q in every mix of widths. The rows of K are 0 ~ 0 1 and 1 ~ 2, so 0 of P, and 0 and
/// 1 of Q have one mark, and 1 of P and 2 of Q another.
pub fn cases() -> Vec<Case> {
    let accepted = [0, 0, 3, 4, 1, 1];
    let differ = |s, t| [17, 2, s, t, 0, 0];
    let (p1, q1) = (P.to_vec(), Q.to_vec());
    let q4 = q([M0, M0, M1]);
    [
        // "A mark from an older file is the same number in 32 bits"
        ("P in 1, Q in 4", p1.clone(), q4.clone(), accepted),
        (
            "P in 2, Q in 4",
            p_before(2, [[0, 0], [0, 1]]),
            q4.clone(),
            accepted,
        ),
        (
            "P in 3, Q in 4",
            p_before(3, [[0, 0], [0, 1]]),
            q4.clone(),
            accepted,
        ),
        ("P in 4, Q in 1", p([M0, M1]), q1.clone(), accepted),
        ("both in 4", p([M0, M1]), q4, accepted),
        (
            "65,535 in 1 and in 4",
            p_before(1, [[255, 255], [0, 1]]),
            q([M65535, M65535, M1]),
            accepted,
        ),
        (
            "65,536 and 65,537",
            p([M65536, M65537]),
            q([M65536, M65536, M65537]),
            accepted,
        ),
        (
            "0 and 65,536",
            p([M0, M65536]),
            q([M0, M0, M65536]),
            accepted,
        ),
        (
            "the greatest",
            p([GREATEST, M1]),
            q([GREATEST, GREATEST, M1]),
            accepted,
        ),
        // 17: equal in the low 16 bits and different above
        (
            "0 in 1, 65,536 in 4",
            p1.clone(),
            q([M0, M65536, M1]),
            differ(0, 1),
        ),
        (
            "1 in 1, 65,537 in 4",
            p1.clone(),
            q([M0, M0, M65537]),
            differ(1, 2),
        ),
        (
            "65,536 in 4, 0 in 1",
            p([M65536, M1]),
            q1.clone(),
            differ(0, 0),
        ),
        (
            "65,537 in 4, 1 in 1",
            p([M0, M65537]),
            q1.clone(),
            differ(1, 2),
        ),
        (
            "65,537 in 4, 1 in 3",
            p_before(3, [[0, 0], [0, 1]]),
            q([M0, M0, M65537]),
            differ(1, 2),
        ),
        (
            "1 and 65,537 in 4",
            p([M0, M1]),
            q([M0, M0, M65537]),
            differ(1, 2),
        ),
        (
            "65,535 in 1 and the greatest in 4",
            p_before(1, [[0, 0], [255, 255]]),
            q([M0, M0, GREATEST]),
            differ(1, 2),
        ),
        // 17: the last mark of 16 bits and the first of more
        (
            "65,535 in 1, 65,536 in 4",
            p_before(1, [[255, 255], [0, 1]]),
            q([M65535, M65536, M1]),
            differ(0, 1),
        ),
        (
            "65,536 and 65,535 in 4",
            p([M65536, M1]),
            q([M65536, M65535, M1]),
            differ(0, 1),
        ),
        // 17: the same bytes from the other end, and the same two bytes first
        (
            "1 in 1, 1 turned in 4",
            p1.clone(),
            q([M0, M0, TURNED]),
            differ(1, 2),
        ),
        (
            "1 and 1 turned in 4",
            p([M0, M1]),
            q([M0, M0, TURNED]),
            differ(1, 2),
        ),
        (
            "1 in 1, 1 times 65,536 in 4",
            p1,
            q([M0, M0, M65536]),
            differ(1, 2),
        ),
    ]
    .map(Case::with_k)
    .into()
}

/// In the order of the causes, which is that of version 3; the length is 16 + 4n + 2m = 34.
pub fn refused_tables() -> Vec<Refused> {
    let good = q([M0, M0, M1]);
    let with = |place: usize, bytes: &[u8]| {
        let mut table = q([M0, M0, M1]);
        table[place..place + bytes.len()].copy_from_slice(bytes);
        table
    };
    let cut = |length: usize, table: Vec<u8>| table[..length].to_vec();
    let longer = |table: Vec<u8>, bytes: &[u8]| [&table, bytes].concat();
    // Without the high half of each mark: the length 16 + 2n + 2m = 28 of version 3.
    let narrow = |version: u8| {
        let mut table = [&good[..16], b"\0\0\0\0\0\x01", &good[28..]].concat();
        table[4] = version;
        table
    };
    vec![
        ("version 4, 8 bytes", cut(8, good.clone()), [1, 0]),
        ("version 4, 9 bytes", cut(9, good.clone()), [1, 0]),
        ("version 4, 15 bytes", cut(15, good.clone()), [1, 0]),
        ("version 5", with(4, &[5]), [3, 0]),
        ("version 5, 9 bytes", cut(9, with(4, &[5])), [3, 0]),
        ("version 260", with(3, &[1, 4]), [3, 0]),
        ("version 1,024", with(3, &[4, 0]), [3, 0]),
        ("version 4, no state", with(5, &[0]), [4, 0]),
        ("version 4, 65 states", with(5, &[65]), [4, 0]),
        ("version 4, no start", with(13, &[0]), [28, 0]),
        ("version 4, start 3", with(13, &[0b1001]), [28, 0]),
        ("version 4, 257 steps", with(14, &[1, 1]), [6, 0]),
        ("version 4, 16 bytes", cut(16, good.clone()), [7, 0]),
        ("version 4, one byte short", cut(33, good.clone()), [7, 0]),
        (
            "version 4, one byte long",
            longer(good.clone(), &[0]),
            [7, 0],
        ),
        ("version 4, marks of two bytes", narrow(4), [7, 0]),
        ("version 3, marks of four bytes", with(4, &[3]), [7, 0]),
        ("version 3, one byte short", cut(27, narrow(3)), [7, 0]),
        ("version 3, one byte long", longer(narrow(3), &[0]), [7, 0]),
        (
            "version 2, one byte short",
            cut(16, p_before(2, [[0; 2]; 2])),
            [7, 0],
        ),
        (
            "version 2, one byte long",
            longer(p_before(2, [[0; 2]; 2]), &[0]),
            [7, 0],
        ),
        ("version 1, one byte short", cut(16, P.to_vec()), [7, 0]),
        ("version 1, one byte long", longer(P.to_vec(), &[0]), [7, 0]),
        ("version 4, one step more", with(15, &[4]), [7, 0]),
        ("version 4, one state more", with(5, &[4]), [7, 0]),
        ("version 4, step 2 to 3", with(33, &[3]), [8, 2]),
        (
            "version 4, step 0 from 3, and step 2 below step 1",
            with(28, &[3, 1, 1, 2, 0, 0]),
            [8, 0],
        ),
        ("version 4, steps 0 and 1 equal", with(30, &[0, 1]), [24, 1]),
        ("version 4, step 2 below step 1", with(32, &[1, 1]), [24, 2]),
    ]
}

/// P and Q with marks of four bytes, as the files of a run.
pub fn files_of_run() -> [[Vec<u8>; 3]; 2] {
    let (q1, q65536) = (q([M0, M0, M1]), q([M65536, M65536, M0]));
    let k = || K.to_vec();
    [[P.to_vec(), q1, k()], [p([M65536, M0]), q65536, k()]]
}
