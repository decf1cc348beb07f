//! P and Q of the scope document with several starts: the starts rule as the path property
//! and the listing see it. What the judge, the maker and the follower answer to tables with
//! a start word is worked out in `compare`.

use oracle::{listing_program, path_property};

const P: &[u8] = b"TPT\0\x01\x02\0\0\x02\0\0\0\x01\0\x01\x01\0";
const Q: &[u8] = b"TPT\0\x01\x03\0\0\x03\0\0\0\0\0\x01\0\x01\x01\x02\x02\0";
const K: &[u8] = b"TPC\0\x01\x02\x03\0\x02\0\x03\
    \0\0\0\0\0\0\0\x03\0\0\0\0\0\0\0\x04\
    \0\0\0\0\0\0\x01\0\0\0\0\0\x01\0\0\0\0\0\0\0\0\0\0\0";

/// The rows of K: 0 ~ 0 1 and 1 ~ 2.
const ROWS: &[u8] = b"\0\0\0\0\0\0\0\x03\0\0\0\0\0\0\0\x04";

/// A table of version 1 in version 3: "in place of byte 6, a 64-bit word of starts".
fn with_starts(table: &[u8], starts: u8) -> Vec<u8> {
    let word = [0, 0, 0, 0, 0, 0, 0, starts];
    [b"TPT\0\x03", &table[5..6], &word, &table[7..]].concat()
}

/// "From then on the starts rule is also what the path property asks of the starts."
#[test]
fn the_path_property_asks_the_starts_rule() {
    assert!(path_property(P, Q, ROWS));
    for (left, right, holds) in [
        (0b01, 0b001, true),
        (0b01, 0b010, true),
        (0b01, 0b011, true),
        (0b10, 0b100, true),
        (0b11, 0b101, true),
        (0b11, 0b110, true),
        (0b11, 0b111, true),
        (0b01, 0b100, false),
        (0b01, 0b101, false),
        (0b01, 0b111, false),
        (0b10, 0b001, false),
        (0b10, 0b110, false),
        (0b11, 0b011, false),
        (0b11, 0b100, false),
    ] {
        let (p, q) = (with_starts(P, left), with_starts(Q, right));
        let found = path_property(&p, &q, ROWS);
        assert_eq!(found, holds, "{left:b} {right:b}");
        // A table of version 1 has the start 0.
        if left == 0b01 {
            assert_eq!(path_property(P, &q, ROWS), holds, "{right:b}");
        }
        if right == 0b001 {
            assert_eq!(path_property(&p, Q, ROWS), holds, "{left:b}");
        }
    }
}

#[test]
fn the_listing_reads_start_words() {
    let listed = |left: &[u8], right: &[u8]| {
        let mut input = Vec::new();
        for piece in [left, right, K] {
            input.extend((piece.len() as u16).to_be_bytes());
            input.extend(piece);
        }
        listing_program(&input)
    };
    let lines = "0 0 0 0 3 1\n1 0 0 0 2 0\n0 0 1 0 1 2\n1 0 1 1 1 1\n0 1 2 1 1 0\n1 1 2 2 1 0\n";
    assert_eq!(listed(P, Q), lines);
    assert_eq!(listed(P, &with_starts(Q, 0b011)), lines);
    assert_eq!(listed(&with_starts(P, 0b11), &with_starts(Q, 0b111)), lines);
    assert_eq!(listed(P, &with_starts(Q, 0b111)), "16 2 1 2 0 0\n");
    assert_eq!(listed(&with_starts(P, 0b100), Q), "28 0 0 0 0 0\n");
}
