//! Tables with keys, through the C interface: an example byte by byte, and the tables without
//! keys beside those that say the same with silent steps.

mod makers;
mod shared;

use compare::Given;
use inputs::{any_system, save_in, Forms, JudgeCases, MakeCases, Random, System};
use makers::make;
use oracle::{Answer, Form};
use shared::answers;

/// The old analyser, byte by byte: it shows a reading when its key 1 is pressed, and is idle
/// again when its key 2 is.
const OLD: [u8; 30] = [
    0x54, 0x50, 0x4b, 0x00, 0x01, // "TPK", version 1
    0x02, // 2 states
    0x00, 0x00, 0x00, 0x00, 0x00, 0x00, 0x00, 0x01, // the start 0
    0x00, 0x02, // 2 steps
    0x00, 0x00, 0x00, 0x00, 0x00, 0x00, 0x00, 0x07, // marks 0 7
    0x00, 0x01, 0x01, // 0-1, key 1
    0x01, 0x00, 0x02, // 1-0, key 2
];

/// The new one, which pauses before it is idle, with these keys for the four steps 0-2, 1-0,
/// 2-0 and 2-1.
fn new(keys: [u8; 4]) -> [u8; 40] {
    [
        0x54, 0x50, 0x4b, 0x00, 0x01, // "TPK", version 1
        0x03, // 3 states
        0x00, 0x00, 0x00, 0x00, 0x00, 0x00, 0x00, 0x03, // the starts 0 and 1
        0x00, 0x04, // 4 steps
        0x00, 0x00, 0x00, 0x00, 0x00, 0x00, 0x00, 0x00, 0x00, 0x00, 0x00, 0x07, // marks 0 0 7
        0x00, 0x02, keys[0], // 0-2
        0x01, 0x00, keys[1], // 1-0
        0x02, 0x00, keys[2], // 2-0
        0x02, 0x01, keys[3], // 2-1
    ]
}

const RELATION: [u8; 16] = [
    0, 0, 0, 0, 0, 0, 0, 0b011, // old 0 is related to new 0 and 1
    0, 0, 0, 0, 0, 0, 0, 0b100, // old 1 is related to new 2
];

const CERTIFICATE: [u8; 53] = [
    0x54, 0x50, 0x43, 0x00, 0x01, 0x02, 0x03, 0x00, 0x02, 0x00, 0x04, // header
    0, 0, 0, 0, 0, 0, 0, 3, 0, 0, 0, 0, 0, 0, 0, 4, // the relation
    0, 0, 0, 0, 0, 0, // AL
    0, 0, 1, 0, 0, 0, // AR: the pause, new step 1 at old 0, is not matched
    0, 1, 0, 0, 0, 0, // CL: from the pause old step 0 is matched one step later
    0, 0, 0, 0, 0, 0, 0, 0, // CR
];

/// "Makers press keys, and a run that shows the same marks under other keys is no match."
#[test]
fn the_same_marks_under_other_keys_are_no_match() {
    let accepted = [0, 0, 3, 5, 1, 1];
    let made = [0, 0, 53, 0, 0, 0];
    let refused = |code, side, left, right, step| [code, 2, side, left, right, step];
    for (keys, expected_made, judged) in [
        // The end of the pause is silent.
        ([1, 0, 2, 2], made, accepted),
        // Old step 0 at new 1 and at new 0: the reading comes under another key, or under none.
        (
            [3, 0, 2, 2],
            refused(22, 0, 0, 0, 0),
            refused(18, 0, 0, 0, 0),
        ),
        (
            [0, 0, 2, 2],
            refused(22, 0, 0, 0, 0),
            refused(18, 0, 0, 0, 0),
        ),
        // The pause is left under a key, which the old one has not.
        (
            [1, 5, 2, 2],
            refused(22, 0, 0, 1, 0),
            refused(18, 0, 0, 1, 0),
        ),
        // Or under the key under which the reading comes, which it then does not.
        (
            [1, 1, 2, 2],
            refused(22, 0, 0, 1, 0),
            refused(18, 0, 0, 1, 0),
        ),
        // New step 3, to the pause, and new step 2 under other keys.
        (
            [1, 0, 2, 1],
            refused(22, 1, 1, 2, 3),
            refused(18, 1, 1, 2, 3),
        ),
        (
            [1, 0, 1, 2],
            refused(22, 1, 1, 2, 2),
            refused(18, 1, 1, 2, 2),
        ),
        (
            [1, 0, 0, 2],
            refused(22, 1, 1, 2, 2),
            refused(18, 1, 1, 2, 2),
        ),
        // Old step 1 at new 2: neither step has key 2.
        (
            [1, 0, 3, 3],
            refused(22, 0, 1, 2, 1),
            refused(18, 0, 1, 2, 1),
        ),
    ] {
        let new = new(keys);
        let mut output = [0xEE; 53];
        let found = make(&OLD, &new, &RELATION, &mut output);
        assert_eq!(found, expected_made, "{keys:?}");
        let written = if found[0] == 0 {
            CERTIFICATE
        } else {
            [0xEE; 53]
        };
        assert_eq!(output, written, "{keys:?}");
        assert_eq!(stutter::judge(&OLD, &new, &CERTIFICATE), judged, "{keys:?}");
        let (enquired, slip) = stutter::enquire(&OLD, &new, &RELATION);
        assert_eq!(enquired, expected_made, "{keys:?}");
        let lengths = if found[0] == 0 {
            [30, 40, 16, 53]
        } else {
            [0; 4]
        };
        assert_eq!(slip.numbers(), lengths, "{keys:?}");
    }
}

/// The judge and the maker, and the follower where it is refused, byte by byte in the order of
/// the causes. A table that is refused stands on either side, beside a good one of its kind and
/// beside one of the other.
#[test]
fn a_table_with_keys_is_refused_in_order() {
    let good = new([1, 0, 2, 2]).to_vec();
    let with = |place: usize, bytes: &[u8]| {
        let mut table = new([1, 0, 2, 2]).to_vec();
        table[place..place + bytes.len()].copy_from_slice(bytes);
        table
    };
    let cut = |length: usize| good[..length].to_vec();
    let steps_of_two_bytes = [&good[..28], &[0, 2, 1, 0, 2, 0, 2, 1]].concat();
    for (table, code, a) in [
        (vec![], 1, 0),
        (cut(8), 1, 0),
        (with(0, b"X"), 2, 0),
        (with(4, &[0]), 3, 0),
        (with(4, &[2]), 3, 0),
        (with(4, &[3]), 3, 0),
        (with(4, &[4]), 3, 0),
        (with(3, &[1]), 3, 0),
        (with(4, &[2])[..9].to_vec(), 3, 0),
        (cut(9), 1, 0),
        (cut(15), 1, 0),
        (with(5, &[0]), 4, 0),
        (with(5, &[65]), 4, 0),
        (with(13, &[0]), 28, 0),
        (with(13, &[8]), 28, 0),
        (with(6, &[128]), 28, 0),
        (with(14, &[1, 1]), 6, 0),
        (cut(16), 7, 0),
        (cut(39), 7, 0),
        ([&good[..], &[0]].concat(), 7, 0),
        (steps_of_two_bytes, 7, 0),
        (with(37, &[3, 1]), 8, 3),
        (with(29, &[3]), 8, 0),
        // Equal steps, and keys that fall.
        (with(37, &[2, 0, 2]), 24, 3),
        (with(37, &[2, 0, 1]), 24, 3),
        (with(37, &[1]), 24, 3),
        // Step 2 is too high, and step 1 is equal to step 0.
        (with(31, &[0, 2, 1, 3]), 8, 2),
    ] {
        let keyed = table.starts_with(b"TPK") && table.len() >= 9;
        let others = [OLD.to_vec(), version_4(&OLD)];
        for other in &others {
            for (file, left, right) in [(0, &table, other), (1, other, &table)] {
                let refusal = [code, file, a, 0, 0, 0];
                assert_eq!(stutter::judge(left, right, &CERTIFICATE), refusal);
                let mut output = [0xEE; 60];
                assert_eq!(make(left, right, &RELATION, &mut output), refusal);
                assert_eq!(output, [0xEE; 60]);
                let (enquired, slip) = stutter::enquire(left, right, &RELATION);
                assert_eq!((enquired, slip.numbers()), (refusal, [0; 4]));
                // The follower takes no table with keys, of which the left one comes first.
                let first = if left.starts_with(b"TPK") && left.len() >= 9 {
                    [2, 0, 0, 0, 0, 0]
                } else if keyed {
                    [2, file, 0, 0, 0, 0]
                } else {
                    refusal
                };
                assert_eq!(followed(left, right), first);
            }
        }
    }
    // A key is no end: each is read.
    for key in 0..=255 {
        let judged = stutter::judge(&OLD, &new([key, 0, 2, 2]), &CERTIFICATE);
        assert_eq!(judged[0], if key == 1 { 0 } else { 18 }, "{key}");
    }
}

/// What the follower answers to a run of the left table, with outputs that stay.
fn followed(left: &[u8], right: &[u8]) -> Answer {
    let given = Given {
        left,
        right,
        certificate: &CERTIFICATE,
        side: 0,
        start: 0,
        path: &[0, 1],
    };
    let (mut states, mut blocks) = ([0xEE; 30], [0xEE; 10]);
    let answer = given.ask(stutter::follow, &mut states, &mut blocks);
    if answer[0] != 0 {
        assert_eq!((states, blocks), ([0xEE; 30], [0xEE; 10]));
    }
    answer
}

/// The table without its keys, in version 4.
fn version_4(table: &[u8]) -> Vec<u8> {
    let mut table = oracle::read_table(table, 0).expect("the table is well formed");
    save_in(&mut table, Form::tpt(4));
    inputs::table_bytes(&table)
}

/// "30 [...], tested after both are read": before anything is asked of the certificate, the
/// relation, the slip or the output; the follower answers 2.
#[test]
fn two_kinds_are_refused_after_both_tables() {
    let refusal = [30, 1, 0, 0, 0, 0];
    let silent = new([0; 4]).to_vec();
    let (old, new) = (version_4(&OLD), version_4(&silent));
    let with = |place: usize, byte: u8| {
        let mut certificate = CERTIFICATE;
        certificate[place] = byte;
        certificate.to_vec()
    };
    let certificates = [
        vec![],
        CERTIFICATE[..10].to_vec(),
        with(0, b'X'),
        with(4, 2),
        with(5, 3),
        CERTIFICATE[..52].to_vec(),
        with(18, 0x80),
        with(18, 0),
        with(26, 2),
        CERTIFICATE.to_vec(),
    ];
    for (left, right, file) in [(&old, &silent, 1), (&OLD.to_vec(), &new, 0)] {
        assert_eq!(followed(left, right), [2, file, 0, 0, 0, 0]);
        for certificate in &certificates {
            assert_eq!(stutter::judge(left, right, certificate), refusal);
            let relation = certificate.get(11..27).unwrap_or(&[]);
            for relation in [relation, &RELATION[1..], &RELATION] {
                for length in [0, 52, 53] {
                    let mut output = vec![0xEE; length];
                    let made = make(left, right, relation, &mut output);
                    let slip = [left.len() as u64, right.len() as u64, 16, 53];
                    let committed = [[0; 4], slip].map(|slip| {
                        stutter::commit_with(left, right, relation, &slip, &mut output)
                    });
                    assert_eq!([made, committed[0], committed[1]], [refusal; 3]);
                    assert_eq!(output, vec![0xEE; length]);
                }
                let (enquired, slip) = stutter::enquire(left, right, relation);
                assert_eq!((enquired, slip.numbers()), (refusal, [0; 4]));
            }
        }
    }
}

/// The same tables with every key 0. Steps rise in both, so their order is the same.
fn silent(system: &System) -> System {
    let mut system = system.clone();
    save_in(&mut system.left, Form::TPK);
    save_in(&mut system.right, Form::TPK);
    system
}

/// Two tables of version 3 or 4 and those with the same marks, starts and steps, every key 0,
/// get the same numbers and the same bytes; only the lengths on a slip differ.
#[test]
fn silent_steps_are_steps_without_keys() {
    let mut random = Random::new(94);
    let mut seen = std::collections::BTreeMap::new();
    for _ in 0..6_000 {
        let mut system = any_system(&mut random, Forms::Tpt(&[3, 4]));
        if random.percent(30) {
            let (s, t) = (
                random.below(system.left.states()),
                random.below(system.right.states()),
            );
            system.related[s][t] = !system.related[s][t];
        }
        let keyed = silent(&system);
        let certificate = system.certificate_with_any_ranks(&mut random, 3);
        let expected = answers(&system, &certificate[11..]);
        assert!(answers(&keyed, &certificate[11..]) == expected);
        *seen.entry(expected.0[0]).or_insert(0) += 1;
        *seen.entry(100 + expected.2[0]).or_insert(0) += 1;
        require_same_slips(&system, &keyed);
    }
    // Certificates made, 16, 17, 22 and 23; certificates accepted, 18 and 19.
    for code in [0, 16, 17, 22, 23, 100, 118, 119] {
        assert!(
            seen.get(&code).is_some_and(|&times| times >= 30),
            "{code}: {seen:?}"
        );
    }
}

/// The enquiries answer the same, and so do the commits, each with its own enquiry's slip and
/// with the other's.
fn require_same_slips(system: &System, keyed: &System) {
    let relation = system.relation_bytes();
    let files = [system, keyed].map(|system| (system.left_bytes(), system.right_bytes()));
    let enquired = files
        .each_ref()
        .map(|(left, right)| stutter::enquire(left, right, &relation));
    let [(answer, slip), (keyed_answer, keyed_slip)] = enquired;
    assert_eq!(answer, keyed_answer);
    assert_eq!(slip.numbers()[2..], keyed_slip.numbers()[2..]);
    let length = system.layout().length();
    for room in [length - 1, length, length + 3] {
        let committed = [0, 1].map(|i| {
            let ((left, right), (_, slip)) = (&files[i], enquired[i]);
            let mut output = vec![0xEE; room];
            let answer = stutter::commit(left, right, &relation, slip, &mut output);
            (answer, output)
        });
        assert!(committed[0] == committed[1], "{room} bytes of {length}");
        assert_eq!(committed[0].0[0] == 0, answer[0] == 0 && room >= length);
    }
    // A table with keys has three bytes for each step, so it is longer where it has a step.
    if answer[0] == 0 && slip != keyed_slip {
        let (left, right) = &files[1];
        let mut output = vec![0xEE; length];
        let committed = stutter::commit(left, right, &relation, slip, &mut output);
        assert_eq!(committed, [29, 2, 0, 0, 0, 0]);
        assert!(output.iter().all(|&byte| byte == 0xEE));
    }
}

/// The same for every certificate, relation and output that the tests give, however bad.
#[test]
fn bad_files_get_the_same_answers_beside_silent_steps() {
    let silent = |table: &[u8]| {
        let mut table = oracle::read_table(table, 0).ok()?;
        save_in(&mut table, Form::TPK);
        Some(inputs::table_bytes(&table))
    };
    let forms = Forms::Tpt(&[3, 4]);
    let mut judged = 0;
    for case in JudgeCases::of(forms, 95, 20_000) {
        if let (Some(left), Some(right)) = (silent(&case.left), silent(&case.right)) {
            if is_rising(&case.left) && is_rising(&case.right) {
                let expected = stutter::judge(&case.left, &case.right, &case.certificate);
                assert_eq!(stutter::judge(&left, &right, &case.certificate), expected);
                judged += 1;
            }
        }
    }
    let mut made = 0;
    for case in MakeCases::of(forms, 96, 10_000) {
        if let (Some(left), Some(right)) = (silent(&case.left), silent(&case.right)) {
            if is_rising(&case.left) && is_rising(&case.right) {
                let answer_and_output = |left: &[u8], right: &[u8]| {
                    let mut output = vec![0xEE; case.output_length];
                    let answer = make(left, right, &case.relation, &mut output);
                    (answer, output)
                };
                let expected = answer_and_output(&case.left, &case.right);
                assert!(answer_and_output(&left, &right) == expected);
                made += 1;
            }
        }
    }
    assert!(judged >= 10_000 && made >= 5_000, "{judged} {made}");
}

/// A change of its bytes may have put a table into version 1 or 2.
fn is_rising(table: &[u8]) -> bool {
    table[4] >= 3
}

/// Keys are compared as numbers and nothing else is asked of them, but that 0 is silent:
/// others that are equal where these are, and differ where these differ, get the same answers.
#[test]
fn a_key_is_any_number_but_0() {
    let mut random = Random::new(98);
    let mut made = 0;
    for _ in 0..3_000 {
        let system = any_system(&mut random, Forms::Tpk);
        // To multiply by an odd number is one to one, and 0 stays 0.
        let odd = random.byte() | 1;
        let mut other = system.clone();
        let in_order = [&mut other.left, &mut other.right].map(|table| {
            for step in &mut table.steps {
                step.key = step.key.wrapping_mul(odd);
            }
            table.steps.is_sorted()
        });
        if in_order == [true, true] {
            let certificate = system.certificate_with_any_ranks(&mut random, 3);
            let expected = answers(&system, &certificate[11..]);
            assert!(answers(&other, &certificate[11..]) == expected);
            made += usize::from(expected.0[0] == 0 && other != system);
        }
    }
    assert!(made >= 200, "{made}");
}
