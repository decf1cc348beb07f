//! P and Q of the scope document with marks of four bytes, as the path property and the
//! listing see them. What the judge, the maker and the follower answer to such tables is
//! worked out in `compare`.

use oracle::{listing_program, path_property};

const P: &[u8] = b"TPT\0\x01\x02\0\0\x02\0\0\0\x01\0\x01\x01\0";
const K: &[u8] = b"TPC\0\x01\x02\x03\0\x02\0\x03\
    \0\0\0\0\0\0\0\x03\0\0\0\0\0\0\0\x04\
    \0\0\0\0\0\0\x01\0\0\0\0\0\x01\0\0\0\0\0\0\0\0\0\0\0";

/// The rows of K: 0 ~ 0 1 and 1 ~ 2.
const ROWS: &[u8] = b"\0\0\0\0\0\0\0\x03\0\0\0\0\0\0\0\x04";

/// Q in version 4 with these marks: "16 + 4n + 2m" bytes.
fn q(marks: [u32; 3]) -> Vec<u8> {
    let marks = marks.map(u32::to_be_bytes).concat();
    let (starts, steps) = (b"\0\0\0\0\0\0\0\x01", b"\0\x01\x01\x02\x02\0");
    let table = [&b"TPT\0\x04\x03"[..], starts, b"\0\x03", &marks, steps].concat();
    assert_eq!(table.len(), 16 + 4 * 3 + 2 * 3);
    table
}

/// "A mark from an older file is the same number in 32 bits": P has the marks 0 1.
#[test]
fn the_path_property_compares_numbers() {
    for (marks, holds) in [
        ([0, 0, 1], true),
        ([0, 0, 65_537], false),
        ([65_536, 65_536, 1], false),
        ([0, 65_536, 1], false),
        ([0, 0, 1 << 24], false),
    ] {
        assert_eq!(path_property(P, &q(marks), ROWS), holds, "{marks:?}");
    }
}

#[test]
fn the_listing_reads_marks_of_four_bytes() {
    let listed = |marks| {
        let mut input = Vec::new();
        for piece in [P, &q(marks), K] {
            input.extend((piece.len() as u16).to_be_bytes());
            input.extend(piece);
        }
        listing_program(&input)
    };
    let lines = "0 0 0 0 3 1\n1 0 0 0 2 0\n0 0 1 0 1 2\n1 0 1 1 1 1\n0 1 2 1 1 0\n1 1 2 2 1 0\n";
    assert_eq!(listed([0, 0, 1]), lines);
    assert_eq!(listed([0, 65_536, 1]), "17 2 0 1 0 0\n");
    assert_eq!(listed([0, 0, 65_537]), "17 2 1 2 0 0\n");
}
