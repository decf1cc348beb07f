//! Tables with keys.

use super::{Case, Refused, K, P, Q};
use crate::Answer;

/// A table with keys and the start 0: marks and steps, each from, to, key.
fn table<const N: usize, const M: usize>(marks: [u8; N], steps: [[u8; 3]; M]) -> Vec<u8> {
    with_starts(1, marks, steps)
}

/// The same with these starts.
fn with_starts<const N: usize, const M: usize>(
    starts: u8,
    marks: [u8; N],
    steps: [[u8; 3]; M],
) -> Vec<u8> {
    let marks = marks.map(|mark| [0, 0, 0, mark]).concat();
    let starts = [0, 0, 0, 0, 0, 0, 0, starts];
    let (n, m) = ([N as u8], [0, M as u8]);
    [b"TPK\0\x01", &n[..], &starts, &m, &marks, &steps.concat()].concat()
}

/// P with these keys: 2 states, marks 0 1, steps 0-1, 1-0.
fn p([to_1, to_0]: [u8; 2]) -> Vec<u8> {
    table([0, 1], [[0, 1, to_1], [1, 0, to_0]])
}

/// Q with these keys: 3 states, marks 0 0 1, steps 0-1, 1-2, 2-0.
fn q([pause, to_2, to_0]: [u8; 3]) -> Vec<u8> {
    table([0, 0, 1], [[0, 1, pause], [1, 2, to_2], [2, 0, to_0]])
}

/// The refusals of a duty, with the numbers of 18, 19 and 22, and of 23.
fn refused(code: u64, side: u64, left: u64, right: u64, step: u64) -> Answer {
    [code, 2, side, left, right, step]
}

/// P and Q. The rows of K are 0 ~ 0 1 and 1 ~ 2; AR(0,0) = 1 and CL(step 0, 0) = 1.
fn pairs_of_p_and_q() -> Vec<Case> {
    let accepted = [0, 0, 3, 4, 1, 1];
    // The pause is silent, so Q may pause (2b), and from its pause Q goes on to the key (2c).
    let made = [
        ("keys 1 and 2", p([1, 2]), q([0, 1, 2])),
        ("key 255", p([255, 1]), q([0, 255, 1])),
        ("one key twice", p([7, 7]), q([0, 7, 7])),
        ("every key 0", p([0, 0]), q([0, 0, 0])),
        ("one key and none", p([1, 0]), q([0, 1, 0])),
    ]
    .map(|(name, left, right)| Case::with_keys((name, left, right), accepted, accepted));
    let failing = [
        // Left step 0 at right 0: the pause has a key, so 2c takes it not, and 18 looks not at it.
        (
            "the pause has a key",
            p([1, 2]),
            q([3, 1, 2]),
            refused(18, 0, 0, 0, 0),
            refused(22, 0, 0, 0, 0),
        ),
        (
            "the pause has the key of the step that waits",
            p([1, 2]),
            q([1, 1, 2]),
            refused(18, 0, 0, 0, 0),
            refused(22, 0, 0, 0, 0),
        ),
        // At right 1 the one step has another key, and a chase from right 0 comes to it.
        (
            "keys exchanged",
            p([1, 2]),
            q([0, 2, 1]),
            refused(18, 0, 0, 1, 0),
            refused(22, 0, 0, 0, 0),
        ),
        (
            "a key for a silent step",
            p([0, 2]),
            q([0, 1, 2]),
            refused(18, 0, 0, 1, 0),
            refused(22, 0, 0, 0, 0),
        ),
        (
            "a silent step for a key",
            p([1, 2]),
            q([0, 0, 2]),
            refused(18, 0, 0, 1, 0),
            refused(22, 0, 0, 0, 0),
        ),
        // Left step 1 at right 2.
        (
            "another key on the way back",
            p([1, 2]),
            q([0, 1, 3]),
            refused(18, 0, 1, 2, 1),
            refused(22, 0, 1, 2, 1),
        ),
    ]
    .map(|(name, left, right, judged, made)| Case::with_keys((name, left, right), judged, made));
    [made.to_vec(), failing.to_vec()].concat()
}

/// P and Q with other ranks than K has: the silent pause stays with s, so it is 19 whatever
/// the key of the duty.
fn ranks_that_do_not_fall() -> Vec<Case> {
    let (al, cl) = (27, 39);
    let accepted = [0, 0, 3, 4, 1, 1];
    [
        ("CL(step 0, 0) = 0", cl, refused(19, 0, 0, 0, 0)),
        ("AR(0,0) = 0", al + 6, refused(19, 1, 0, 0, 0)),
    ]
    .map(|(name, place, judged)| {
        let mut case = Case::with_keys((name, p([1, 2]), q([0, 1, 2])), judged, accepted);
        assert_eq!(case.certificate[place], 1);
        case.certificate[place] = 0;
        case.is_made = false;
        case
    })
    .to_vec()
}

/// One left state without a step, and two right states, both related to it.
fn pauses() -> Vec<Case> {
    let still = table([0], []);
    // AR(0,0) = 1: 2b holds of the step 0-1 where it is silent.
    let pausing = b"TPC\0\x01\x01\x02\0\0\0\x01\0\0\0\0\0\0\0\x03\0\0\x01\0\0";
    let one_pause = |key| table([0, 0], [[0, 1, key]]);
    // The only state steps to itself: no rank falls.
    let looping = b"TPC\0\x01\x01\x01\0\0\0\x01\0\0\0\0\0\0\0\x01\0\0\0";
    let one_loop = |key| table([0], [[0, 0, key]]);
    let unmatched = refused(22, 1, 0, 0, 0);
    [
        (
            "a silent pause",
            one_pause(0),
            &pausing[..],
            [0, 0, 2, 0, 1, 0],
            [0, 0, 2, 0, 1, 0],
        ),
        // "2b needs key 0", and 18 and 22 come though u and t are related.
        (
            "a pause with key 1",
            one_pause(1),
            pausing,
            refused(18, 1, 0, 0, 0),
            unmatched,
        ),
        (
            "a pause with key 255",
            one_pause(255),
            pausing,
            refused(18, 1, 0, 0, 0),
            unmatched,
        ),
        (
            "a silent loop",
            one_loop(0),
            looping,
            refused(19, 1, 0, 0, 0),
            [23, 2, 1, 0, 0, 0],
        ),
        (
            "a loop with a key",
            one_loop(1),
            looping,
            refused(18, 1, 0, 0, 0),
            unmatched,
        ),
    ]
    .map(|(name, right, certificate, judged, made)| {
        let mut case = Case::with_keys((name, still.clone(), right), judged, made);
        case.certificate = certificate.to_vec();
        case
    })
    .to_vec()
}

/// One state a side, with steps to itself "that differ in their key only".
fn loops() -> Vec<Case> {
    let one = |keys: &[u8]| -> Vec<u8> {
        let steps = keys.iter().flat_map(|&key| [0, 0, key]);
        let header = [b"TPK\0\x01\x01", &[0, 0, 0, 0, 0, 0, 0, 1][..]].concat();
        let m = [0, keys.len() as u8];
        [header, m.to_vec(), vec![0; 4], steps.collect()].concat()
    };
    let accepted = |steps| [0, 0, 1, steps, 0, 0];
    let cases: [(&str, &[u8], &[u8], Answer, Answer); 6] = [
        ("two keys", &[1, 2], &[1, 2], accepted(4), accepted(4)),
        (
            "silent and a key",
            &[0, 255],
            &[0, 255],
            accepted(4),
            accepted(4),
        ),
        (
            "the right one has not key 2",
            &[1, 2],
            &[1],
            refused(18, 0, 0, 0, 1),
            refused(22, 0, 0, 0, 1),
        ),
        (
            "the left one has not key 1",
            &[2],
            &[1, 2],
            refused(18, 1, 0, 0, 0),
            refused(22, 1, 0, 0, 0),
        ),
        // The silent step stays with s, so its rank decides, and it does not fall.
        (
            "the right one is silent",
            &[0, 1],
            &[0],
            refused(19, 0, 0, 0, 1),
            refused(22, 0, 0, 0, 1),
        ),
        (
            "the left one has a key for the silent step",
            &[1],
            &[0, 1],
            refused(19, 1, 0, 0, 0),
            refused(23, 1, 0, 0, 0),
        ),
    ];
    cases
        .map(|(name, left, right, judged, made)| {
            let mut case = Case::with_keys((name, one(left), one(right)), judged, made);
            let (m1, m2) = (left.len() as u8, right.len() as u8);
            let header = [b"TPC\0\x01\x01\x01\0", &[m1, 0, m2][..]].concat();
            let ranks = vec![0; 2 + left.len() + right.len()];
            case.certificate = [header, vec![0, 0, 0, 0, 0, 0, 0, 1], ranks].concat();
            case
        })
        .to_vec()
}

/// "16 returns the side in a and the first unpaired start in b" and 17, as without keys.
fn starts_and_marks() -> Vec<Case> {
    let steps = [[0, 1, 0], [1, 2, 1], [2, 0, 2]];
    [
        (
            "right start 2",
            with_starts(0b100, [0, 0, 1], steps),
            [16, 2, 0, 0, 0, 0],
        ),
        (
            "right starts 0 and 2",
            with_starts(0b101, [0, 0, 1], steps),
            [16, 2, 1, 2, 0, 0],
        ),
        (
            "right starts 0 and 1",
            with_starts(0b011, [0, 0, 1], steps),
            [0, 0, 3, 4, 1, 1],
        ),
        ("another mark", table([0, 2, 1], steps), [17, 2, 0, 1, 0, 0]),
    ]
    .map(|(name, right, answer)| Case::with_keys((name, p([1, 2]), right), answer, answer))
    .to_vec()
}

/// "30 when one table is TPT and the other TPK", though every key is 0.
fn two_kinds() -> Vec<Case> {
    let silent = (p([0, 0]), q([0, 0, 0]));
    let q4 = [
        &b"TPT\0\x04\x03\0\0\0\0\0\0\0\x01\0\x03"[..],
        b"\0\0\0\0\0\0\0\0\0\0\0\x01",
        b"\0\x01\x01\x02\x02\0",
    ]
    .concat();
    let refusal = [30, 1, 0, 0, 0, 0];
    [
        ("P in 1 beside Q with keys", P.to_vec(), silent.1.clone(), 1),
        ("P with keys beside Q in 1", silent.0.clone(), Q.to_vec(), 0),
        ("P with keys beside Q in 4", silent.0, q4, 0),
    ]
    .map(|(name, left, right, file)| {
        let mut case = Case::with_keys((name, left, right), refusal, refusal);
        case.followed = [2, file, 0, 0, 0, 0];
        case
    })
    .to_vec()
}

pub fn cases() -> Vec<Case> {
    [
        pairs_of_p_and_q(),
        ranks_that_do_not_fall(),
        pauses(),
        loops(),
        starts_and_marks(),
        two_kinds(),
    ]
    .concat()
}

/// The good files that stand beside one that is not: P, and Q with keys that fits it.
pub fn p_and_q_of_two_kinds() -> [Vec<u8>; 2] {
    [P.to_vec(), q([0, 0, 0])]
}

/// P and Q with keys, for which the maker writes K.
pub fn p_and_q() -> [Vec<u8>; 2] {
    [p([1, 2]), q([0, 1, 2])]
}

/// In the order of the causes: 1 (under 9 bytes), 2, 3, 1 (under 16 bytes), 4, 28, 6, 7, 8, 24.
/// The length is 16 + 4n + 3m = 37.
pub fn refused_tables() -> Vec<Refused> {
    let good = q([0, 1, 2]);
    let with = |place: usize, bytes: &[u8]| {
        let mut table = q([0, 1, 2]);
        table[place..place + bytes.len()].copy_from_slice(bytes);
        table
    };
    let cut = |length: usize, table: Vec<u8>| table[..length].to_vec();
    let longer = |table: Vec<u8>, bytes: &[u8]| [&table, bytes].concat();
    let narrow_steps = [&good[..28], b"\0\x01\x01\x02\x02\0"].concat();
    let narrow_marks = [&good[..16], b"\0\0\0\0\0\x01", &good[28..]].concat();
    vec![
        ("TPK, 8 bytes", cut(8, good.clone()), [1, 0]),
        ("TPK, 8 bytes of version 2", cut(8, with(4, &[2])), [1, 0]),
        ("TPL", with(2, b"L"), [2, 0]),
        ("tPK", with(0, b"t"), [2, 0]),
        ("TPK, version 0", with(4, &[0]), [3, 0]),
        ("TPK, version 2", with(4, &[2]), [3, 0]),
        ("TPK, version 3", with(4, &[3]), [3, 0]),
        ("TPK, version 4", with(4, &[4]), [3, 0]),
        ("TPK, version 257", with(3, &[1, 1]), [3, 0]),
        ("TPK, version 256", with(3, &[1, 0]), [3, 0]),
        ("TPK, 9 bytes of version 4", cut(9, with(4, &[4])), [3, 0]),
        ("TPK, 9 bytes", cut(9, good.clone()), [1, 0]),
        ("TPK, 15 bytes", cut(15, good.clone()), [1, 0]),
        ("TPK, 15 bytes and no state", cut(15, with(5, &[0])), [1, 0]),
        ("TPK, no state", with(5, &[0]), [4, 0]),
        ("TPK, 65 states", with(5, &[65]), [4, 0]),
        ("TPK, no state and no start", with(5, &[0; 9]), [4, 0]),
        ("TPK, no start", with(13, &[0]), [28, 0]),
        ("TPK, start 3", with(13, &[0b1001]), [28, 0]),
        ("TPK, no start and 257 steps", with(13, &[0, 1, 1]), [28, 0]),
        ("TPK, 257 steps", with(14, &[1, 1]), [6, 0]),
        ("TPK, 16 bytes", cut(16, good.clone()), [7, 0]),
        ("TPK, one byte short", cut(36, good.clone()), [7, 0]),
        ("TPK, one byte long", longer(good.clone(), &[0]), [7, 0]),
        ("TPK, steps of two bytes", narrow_steps, [7, 0]),
        ("TPK, marks of two bytes", narrow_marks, [7, 0]),
        ("TPK, one step more", with(15, &[4]), [7, 0]),
        ("TPK, one state more", with(5, &[4]), [7, 0]),
        ("TPK, step 2 to 3", with(35, &[3]), [8, 2]),
        ("TPK, step 0 from 255", with(28, &[255]), [8, 0]),
        (
            "TPK, step 2 from 3, and step 1 equal to step 0",
            with(31, &[0, 1, 0, 3]),
            [8, 2],
        ),
        ("TPK, step 1 equal to step 0", with(31, &[0, 1, 0]), [24, 1]),
        (
            "TPK, 0-1 with key 9 and then with key 8",
            with(28, &[0, 1, 9, 0, 1, 8]),
            [24, 1],
        ),
        (
            "TPK, 1-2 with key 1 and then 1-1 with key 255",
            with(34, &[1, 1, 255]),
            [24, 2],
        ),
        (
            "TPK, 1-2 with key 1 and then 0-2 with key 2",
            with(34, &[0, 2, 2]),
            [24, 2],
        ),
        // As a table without keys its bytes 6 to 8 are the start 0 and no step.
        ("TPT for TPK", with(2, b"T"), [7, 0]),
        // As one with keys its bytes 6 to 13 are 00 00 02 00 00 00 01 00.
        ("TPK for TPT", [b"TPK", &P[3..]].concat(), [28, 0]),
    ]
}

/// Tables of two kinds with a certificate of which something is wrong too: each is refused
/// with 30.
pub fn certificates_after_30() -> Vec<Vec<u8>> {
    let with = |place: usize, byte: u8| {
        let mut certificate = K.to_vec();
        certificate[place] = byte;
        certificate
    };
    vec![
        vec![],
        K[..10].to_vec(),
        with(2, b'D'),
        with(4, 2),
        with(6, 4),
        K[..50].to_vec(),
        // Rows 11, 4 and 2, 4 and 3, 6 and 1, 4, and K with a rank that does not fall.
        with(18, 11),
        with(18, 2),
        with(26, 6),
        with(18, 1),
        with(39, 0),
    ]
}
