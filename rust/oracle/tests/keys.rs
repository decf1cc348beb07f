//! P and Q of the scope document with keys, and small tables beside them, as the path property
//! and the listing see them. What the judge, the maker and the follower answer to tables with
//! keys is worked out in `compare`.

use oracle::{listing_program, path_property};

/// A table with keys, the start 0 and these marks and steps, each from, to, key: "16 + 4n + 3m"
/// bytes.
fn table(marks: &[u8], steps: &[[u8; 3]]) -> Vec<u8> {
    let starts = [0, 0, 0, 0, 0, 0, 0, 1];
    let (n, m) = ([marks.len() as u8], [0, steps.len() as u8]);
    let marks: Vec<u8> = marks.iter().flat_map(|&mark| [0, 0, 0, mark]).collect();
    let table = [b"TPK\0\x01", &n[..], &starts, &m, &marks, &steps.concat()].concat();
    assert_eq!(table.len(), 16 + marks.len() + 3 * steps.len());
    table
}

/// Rows of which the lowest bytes are these.
fn rows(lowest: &[u8]) -> Vec<u8> {
    let row = |&lowest: &u8| [0, 0, 0, 0, 0, 0, 0, lowest];
    lowest.iter().flat_map(row).collect()
}

fn p([to_1, to_0]: [u8; 2]) -> Vec<u8> {
    table(&[0, 1], &[[0, 1, to_1], [1, 0, to_0]])
}

fn q([pause, to_2, to_0]: [u8; 3]) -> Vec<u8> {
    table(&[0, 0, 1], &[[0, 1, pause], [1, 2, to_2], [2, 0, to_0]])
}

/// "the steps that enter same-numbered blocks have equal keys", and "steps inside blocks are
/// silent", the pause of Q among them.
#[test]
fn the_path_property_looks_at_keys() {
    for (left, right, holds) in [
        ([0, 0], [0, 0, 0], true),
        ([1, 2], [0, 1, 2], true),
        ([1, 1], [0, 1, 1], true),
        ([255, 0], [0, 255, 0], true),
        ([1, 2], [0, 2, 1], false),
        ([1, 2], [0, 1, 1], false),
        ([1, 2], [0, 0, 2], false),
        ([0, 2], [0, 1, 2], false),
        ([1, 2], [1, 1, 2], false),
        ([0, 0], [1, 0, 0], false),
    ] {
        let found = path_property(&p(left), &q(right), &rows(&[3, 4]));
        assert_eq!(found, holds, "{left:?} {right:?}");
    }
}

/// "A path names its steps too": of two steps between the same states each is to be matched.
#[test]
fn each_of_two_steps_is_matched() {
    let one = |keys: &[u8]| {
        let steps: Vec<[u8; 3]> = keys.iter().map(|&key| [0, 0, key]).collect();
        table(&[0], &steps)
    };
    for (left, right, holds) in [
        (&[1, 2][..], &[1, 2][..], true),
        (&[0, 1], &[0, 1], true),
        (&[1, 2], &[1], false),
        (&[1], &[1, 2], false),
        (&[1], &[2], false),
        (&[], &[1], false),
        (&[], &[0], false),
    ] {
        let found = path_property(&one(left), &one(right), &rows(&[1]));
        assert_eq!(found, holds, "{left:?} {right:?}");
    }
}

/// A state that has steps with keys only is no dead end, and a silent step to it can stay in
/// the block of one that has the same.
#[test]
fn a_state_without_a_silent_step_is_no_dead_end() {
    let waiting = |pause| table(&[0, 0, 1], &[[0, 1, pause], [1, 2, 3]]);
    let at_once = table(&[0, 1], &[[0, 1, 3]]);
    assert!(path_property(&at_once, &waiting(0), &rows(&[3, 4])));
    assert!(!path_property(&at_once, &waiting(3), &rows(&[3, 4])));
    // Without the last step its state is a dead end, and the left one is not.
    let stopping = table(&[0, 0, 1], &[[0, 1, 0]]);
    assert!(!path_property(&at_once, &stopping, &rows(&[3, 4])));
}

/// The same path property in tables without keys and in those with silent steps.
#[test]
fn silent_steps_are_steps_without_keys() {
    let without = |table: &[u8]| {
        let (n, m) = (table[5] as usize, table[15] as usize);
        let (start, steps) = (16 + 4 * n, &table[16 + 4 * n..]);
        let steps: Vec<u8> = steps
            .chunks(3)
            .flat_map(|step| [step[0], step[1]])
            .collect();
        assert_eq!(steps.len(), 2 * m);
        [b"TPT\0\x04", &table[5..start], &steps].concat()
    };
    let (p, q) = (p([0, 0]), q([0, 0, 0]));
    for lowest in [[3, 4], [1, 4], [2, 4], [3, 0], [7, 4]] {
        let rows = rows(&lowest);
        let found = path_property(&p, &q, &rows);
        assert_eq!(found, path_property(&without(&p), &without(&q), &rows));
    }
}

const K: &[u8] = b"TPC\0\x01\x02\x03\0\x02\0\x03\
    \0\0\0\0\0\0\0\x03\0\0\0\0\0\0\0\x04\
    \0\0\0\0\0\0\x01\0\0\0\0\0\x01\0\0\0\0\0\0\0\0\0\0\0";

fn listed(left: &[u8], right: &[u8], certificate: &[u8]) -> String {
    let mut input = Vec::new();
    for piece in [left, right, certificate] {
        input.extend((piece.len() as u16).to_be_bytes());
        input.extend(piece);
    }
    listing_program(&input)
}

#[test]
fn the_listing_reads_keys() {
    let lines = "0 0 0 0 3 1\n1 0 0 0 2 0\n0 0 1 0 1 2\n1 0 1 1 1 1\n0 1 2 1 1 0\n1 1 2 2 1 0\n";
    assert_eq!(listed(&p([1, 2]), &q([0, 1, 2]), K), lines);
    assert_eq!(listed(&p([1, 2]), &q([0, 2, 1]), K), "18 2 0 0 1 0\n");
    assert_eq!(listed(&p([1, 2]), &q([1, 1, 2]), K), "18 2 0 0 0 0\n");
    let q1 = b"TPT\0\x01\x03\0\0\x03\0\0\0\0\0\x01\0\x01\x01\x02\x02\0";
    assert_eq!(listed(&p([0, 0]), q1, K), "30 1 0 0 0 0\n");
}

/// One left state with steps to itself under the keys 1 and 2, and three right states that it
/// is related to, each with steps under both keys: the answering state is the smallest to which
/// a step with the duty's key leads.
#[test]
fn the_answering_step_has_the_same_key() {
    let left = table(&[0], &[[0, 0, 1], [0, 0, 2]]);
    let steps = [0, 1, 2].map(|from| [[from, 0, 2], [from, 1, 1], [from, 2, 1]]);
    let right = table(&[0, 0, 0], &steps.concat());
    let header = b"TPC\0\x01\x01\x03\0\x02\0\x09";
    let certificate = [&header[..], &rows(&[7]), &[0; 6 + 6 + 9]].concat();
    let mut lines = String::new();
    for t in 0..3 {
        lines += &format!("0 0 {t} 0 1 1\n0 0 {t} 1 1 0\n");
        for step in 3 * t..3 * t + 3 {
            lines += &format!("1 0 {t} {step} 1 0\n");
        }
    }
    assert_eq!(listed(&left, &right, &certificate), lines);
}
