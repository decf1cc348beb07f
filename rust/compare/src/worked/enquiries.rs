//! What an enquiry and a commit answer, worked out by hand. The causes are put right one
//! after the other, in their order.

use super::{keys, Refused, K, P, Q};
use crate::Answer;
use oracle::Slip;

/// An enquiry, and a commit.
type Enquire<'a> = &'a dyn Fn(&[u8], &[u8], &[u8]) -> (Answer, Slip);
type Commit<'a> = &'a dyn Fn(&[u8], &[u8], &[u8], Slip, &mut [u8]) -> Answer;

/// Two tables and a relation, a slip, and the length of an output.
type Given<'a> = ([&'a [u8]; 3], Slip, usize);

/// Panics at the first worked case that is answered otherwise.
pub fn require_worked_enquiries(
    enquire: impl Fn(&[u8], &[u8], &[u8]) -> (Answer, Slip),
    commit: impl Fn(&[u8], &[u8], &[u8], Slip, &mut [u8]) -> Answer,
) {
    require_made(&enquire, &commit);
    require_made_with_keys(&enquire, &commit);
    require_slips(&commit);
    require_tables(&enquire, &commit);
    require_order(&enquire, &commit);
    require_order_of_30(&enquire, &commit);
}

/// The six numbers of a refusal, where a to d are 0.
fn refusal(code: u64, file: u64) -> Answer {
    [code, file, 0, 0, 0, 0]
}

/// Rows of which the lowest bytes are these.
fn rows(lowest: [u8; 2]) -> Vec<u8> {
    let row = |lowest| [0, 0, 0, 0, 0, 0, 0, lowest];
    lowest.map(row).concat()
}

/// The answer, and an output of this length after it.
fn committed(commit: Commit, (files, slip, length): Given) -> (Answer, Vec<u8>) {
    let ([left, right, relation], mut output) = (files, vec![0xEE; length]);
    let answer = commit(left, right, relation, slip, &mut output);
    (answer, output)
}

/// The commit is refused with this answer, and the output stays.
fn require_refused(commit: Commit, given: Given, answer: Answer) {
    let expected = (answer, vec![0xEE; given.2]);
    assert_eq!(committed(commit, given), expected, "{given:?}");
}

/// The lengths of P, of Q and of rows 3, 4, and L.
const NUMBERS: Slip = [17, 21, 16, 51];

/// "the maker writes exactly K", which has 51 bytes.
fn require_made(enquire: Enquire, commit: Commit) {
    let files = [P, Q, &rows([3, 4])];
    let success = [0, 0, 51, 0, 0, 0];
    assert_eq!(enquire(P, Q, files[2]), (success, NUMBERS));
    for (length, expected) in [
        (51, (success, K.to_vec())),
        (52, (success, [K, &[0xEE]].concat())),
        (50, ([21, 3, 51, 0, 0, 0], vec![0xEE; 50])),
        (0, ([21, 3, 51, 0, 0, 0], vec![])),
    ] {
        assert_eq!(committed(commit, (files, NUMBERS, length)), expected);
    }
}

/// The same with keys: the lengths of the tables are 16 + 4n + 3m.
fn require_made_with_keys(enquire: Enquire, commit: Commit) {
    let ([left, right], relation) = (keys::p_and_q(), rows([3, 4]));
    let files = [&left[..], &right, &relation];
    let (success, numbers) = ([0, 0, 51, 0, 0, 0], [30, 37, 16, 51]);
    assert_eq!(enquire(&left, &right, &relation), (success, numbers));
    let made = committed(commit, (files, numbers, 51));
    assert_eq!(made, (success, K.to_vec()));
    // Those of tables as large without keys, in version 4.
    require_refused(commit, (files, [28, 34, 16, 51], 51), refusal(29, 2));
    require_refused(commit, (files, numbers, 50), [21, 3, 51, 0, 0, 0]);
}

/// "29 when a number on the slip is not that of the inputs", whatever the output.
fn require_slips(commit: Commit) {
    let files = [P, Q, &rows([3, 4])];
    let mut slips = vec![
        [0, 0, 0, 0],
        [21, 17, 16, 51],
        [17, 21, 51, 16],
        [51, 16, 21, 17],
        [u64::MAX; 4],
    ];
    for place in 0..4 {
        for other in [1, -1, 1 << 8, 1 << 16, 1 << 32, i64::MIN] {
            let mut slip = NUMBERS;
            slip[place] = slip[place].wrapping_add_signed(other);
            slips.push(slip);
        }
    }
    for slip in slips {
        for length in [0, 50, 51, 52] {
            require_refused(commit, (files, slip, length), refusal(29, 2));
        }
    }
}

/// P with a cause of each number for a table of version 1, and 24 in version 2.
fn refused_tables() -> Vec<Refused> {
    let with = |changes: &[(usize, u8)]| {
        let mut table = P.to_vec();
        for &(place, byte) in changes {
            table[place] = byte;
        }
        table
    };
    vec![
        ("8 bytes", P[..8].to_vec(), [1, 0]),
        ("TPU", with(&[(2, b'U')]), [2, 0]),
        ("version 5", with(&[(4, 5)]), [3, 0]),
        ("no state", with(&[(5, 0)]), [4, 0]),
        ("start 2", with(&[(6, 2)]), [5, 0]),
        ("258 steps", with(&[(7, 1)]), [6, 0]),
        ("one byte short", P[..16].to_vec(), [7, 0]),
        ("a step to 2", with(&[(16, 2)]), [8, 1]),
        ("0-1, 0-1", with(&[(15, 0), (16, 1)]), [9, 1]),
        ("0-1, 0-0", with(&[(4, 2), (15, 0), (16, 0)]), [24, 1]),
    ]
}

/// The refusals of a table are those of the enquiry, and of the commit whatever the slip and
/// the output.
fn require_tables(enquire: Enquire, commit: Commit) {
    let tables = [refused_tables(), super::refused_tables()].concat();
    let relation = &rows([3, 4])[..];
    for (name, table, [code, a]) in tables {
        for (file, left, right) in [(0, &table[..], Q), (1, P, &table)] {
            let answer = [code, file, a, 0, 0, 0];
            let enquired = enquire(left, right, relation);
            assert_eq!(enquired, (answer, [0; 4]), "{name}");
            for slip in [[0; 4], NUMBERS] {
                for length in [0, 51] {
                    require_refused(commit, ([left, right, relation], slip, length), answer);
                }
            }
        }
    }
}

/// P and "Q with step 1-1 last", for which L is 11 + 8 * 2 + 2 * 2 * 3 + 2 * 3 + 4 * 2.
const LONGER_Q: &[u8] = b"TPT\0\x01\x03\0\0\x04\0\0\0\0\0\x01\0\x01\x01\x02\x02\0\x01\x01";
const LONGER_NUMBERS: Slip = [17, 23, 16, 53];

/// Every cause that stands after the one answered still applies, or another in its place.
fn require_order(enquire: Enquire, commit: Commit) {
    let (q, good, zeros) = (LONGER_Q, LONGER_NUMBERS, [0; 4]);
    let unknown = &[b"TPT\0\x05", &q[5..]].concat();
    let too_high = &rows([2 + 8, 5]);
    let (unrelated, differing) = (&rows([2, 5]), &rows([3, 5]));
    let (unmatched, endless) = (&rows([1, 4]), &rows([3, 4]));
    let cases: [(Given, Answer); 9] = [
        // "Order: left table, right table (1 to 9 rising)": 1 and 3
        (
            ([&P[..8], unknown, &too_high[1..]], zeros, 0),
            refusal(1, 0),
        ),
        (([P, unknown, &too_high[1..]], zeros, 0), refusal(3, 1)),
        // "maker 20, 15"
        (([P, q, &too_high[1..]], zeros, 0), refusal(20, 2)),
        (([P, q, too_high], zeros, 0), refusal(15, 2)),
        // 29 and 21 come here, and then "16"
        (([P, q, unrelated], good, 53), refusal(16, 2)),
        // "then pairs and steps in judging order for 17 and 22, then 23"
        (([P, q, differing], good, 53), [17, 2, 1, 0, 0, 0]),
        (([P, q, unmatched], good, 53), refusal(22, 2)),
        (([P, q, endless], good, 53), [23, 2, 1, 0, 0, 0]),
        (([P, q, endless], good, 60), [23, 2, 1, 0, 0, 0]),
    ];
    for (given, answer) in cases {
        let [left, right, relation] = given.0;
        assert_eq!(enquire(left, right, relation), (answer, zeros));
        require_refused(commit, given, answer);
    }
    // "29 [...], tested after 15 and before 21": the enquiry is refused with 16, 17, 22 and 23.
    let short = [21, 3, 53, 0, 0, 0];
    for relation in [unrelated, differing, unmatched, endless] {
        let files = [P, q, relation];
        require_refused(commit, (files, zeros, 0), refusal(29, 2));
        require_refused(commit, (files, zeros, 53), refusal(29, 2));
        require_refused(commit, (files, NUMBERS, 53), refusal(29, 2));
        require_refused(commit, (files, good, 0), short);
        require_refused(commit, (files, good, 52), short);
    }
}

/// "30 [...], tested after both are read": after the causes of both tables, whichever has
/// keys, and before every other.
fn require_order_of_30(enquire: Enquire, commit: Commit) {
    let [p, q] = keys::p_and_q_of_two_kinds();
    let zeros = [0; 4];
    for relation in [
        vec![],
        rows([3, 4])[1..].to_vec(),
        // 15, 16, 17, 22, and nothing.
        rows([11, 4]),
        rows([2, 4]),
        rows([3, 6]),
        rows([1, 4]),
        rows([3, 4]),
    ] {
        for [left, right] in [[&p, &q], [&q, &p]] {
            let files = [&left[..], right, &relation];
            assert_eq!(enquire(left, right, &relation), (refusal(30, 1), zeros));
            let lengths = files.map(|file| file.len() as u64);
            let right_slip = [lengths[0], lengths[1], lengths[2], 51];
            for slip in [zeros, right_slip] {
                for length in [0, 50, 51] {
                    require_refused(commit, (files, slip, length), refusal(30, 1));
                }
            }
        }
    }
    let short = |table: &[u8]| table[..table.len() - 1].to_vec();
    for (left, right, answer) in [
        (short(&p), short(&q), refusal(7, 0)),
        (short(&q), short(&p), refusal(7, 0)),
        (p.clone(), short(&q), refusal(7, 1)),
        (q, short(&p), refusal(7, 1)),
    ] {
        assert_eq!(enquire(&left, &right, &[]), (answer, zeros));
        require_refused(commit, ([&left, &right, &[]], zeros, 0), answer);
    }
}
