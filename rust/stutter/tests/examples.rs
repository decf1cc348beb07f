//! The systems under `examples/systems`: made and judged, or refused, with the
//! numbers that stand in their files; and runs of those accepted, followed on both sides, or
//! refused where the tables have keys.

mod makers;

use compare::Given;
use inputs::System;
use makers::make;
use oracle::{Form, Table};
use std::fs;
use std::path::Path;
use text::Example;

#[test]
fn the_systems_get_the_answers_beside_them() {
    let folder = Path::new(env!("CARGO_MANIFEST_DIR")).join("../../examples/systems");
    let mut codes = Vec::new();
    for entry in fs::read_dir(folder).expect("the folder is there") {
        let path = entry.expect("it can be read").path();
        if path.extension().is_some_and(|end| end == "relation") {
            codes.push(run(&path));
        }
    }
    codes.sort();
    assert_eq!(codes, [0, 0, 0, 0, 0, 0, 16, 17, 22, 22, 23, 23, 23]);
}

/// Makes and judges one system, follows runs of each side where it is accepted, and gives
/// the maker's code.
fn run(path: &Path) -> u64 {
    let name = path.display();
    let example = text::read(path).unwrap_or_else(|why| panic!("{why}"));
    let system = read(&example);
    let (left, right) = (&example.left, &example.right);
    let (expected, certificate) = system.make();
    let mut output = vec![0; certificate.len()];
    let made = make(left, right, &example.relation, &mut output);
    assert_eq!(made, expected, "{name}: the oracle's maker");
    assert_eq!(made, example.make, "{name}: its line 'make'");
    if made[0] == 0 {
        assert!(output == certificate, "{name}: the certificates differ");
        let judged = stutter::judge(left, right, &output);
        assert_eq!(judged, oracle::judge(left, right, &output), "{name}");
        assert_eq!(Some(judged), example.judge, "{name}: its line 'judge'");
        assert_eq!(judged[0], 0, "{name}");
        for (side, first, start) in paired_starts(&system) {
            let given = Given {
                left,
                right,
                certificate: &output,
                side: side as u64,
                start: start as u64,
                path: &long_path(system.table(side), first),
            };
            let run = format!("{name}, side {side} from {first} and {start}");
            if system.has_keys() {
                is_not_followed(&run, &given);
            } else {
                follow(&run, &given);
            }
        }
    } else {
        assert_eq!(example.judge, None, "{name}: there is nothing to judge");
    }
    made[0]
}

/// The system of these bytes, which are those that the tests' own code gives it: in version 4,
/// or with keys.
fn read(example: &Example) -> System {
    let table = |bytes: &[u8], file| {
        let table = oracle::read_table(bytes, file).expect("the table is well formed");
        assert!([Form::tpt(4), Form::TPK].contains(&table.form));
        table
    };
    let (left, right) = (table(&example.left, 0), table(&example.right, 1));
    let related = |row: &[u8]| {
        let word = u64::from_be_bytes(row.try_into().expect("a row has eight bytes"));
        (0..right.states()).map(|t| word >> t & 1 == 1).collect()
    };
    let related = example.relation.chunks(8).map(related).collect();
    let system = System {
        left,
        right,
        related,
    };
    assert_eq!(system.left_bytes(), example.left);
    assert_eq!(system.right_bytes(), example.right);
    assert_eq!(system.relation_bytes(), example.relation);
    system
}

/// Each side, each of its starts, and each start of the other side that this is related to.
fn paired_starts(system: &System) -> Vec<(usize, usize, usize)> {
    let mut paired = Vec::new();
    for &left in &system.left.starts {
        for &right in &system.right.starts {
            if system.related[left][right] {
                paired.extend([(0, left, right), (1, right, left)]);
            }
        }
    }
    paired
}

/// A path of 256 states from this one that takes the steps of each state in turn. No
/// state of these tables is a dead end.
fn long_path(table: &Table, first: usize) -> Vec<u8> {
    let mut state = first;
    let mut path = vec![state as u8];
    let mut visits = vec![0; table.states()];
    while path.len() < 256 {
        let ends: Vec<usize> = table.ends_from(state).collect();
        visits[state] += 1;
        state = ends[visits[state] % ends.len()];
        path.push(state as u8);
    }
    path
}

/// "The follower of runs takes TPT only and answers 2 for TPK."
fn is_not_followed(name: &str, given: &Given) {
    let (mut states, mut blocks) = ([0xa5; 49_152], [0xa5; 512]);
    let answer = given.ask(stutter::follow, &mut states, &mut blocks);
    assert_eq!(answer, [2, 0, 0, 0, 0, 0], "{name}");
    assert!(states == [0xa5; 49_152] && blocks == [0xa5; 512], "{name}");
}

/// Follows a run, beside the oracle, and holds it to demand 3.
fn follow(name: &str, given: &Given) {
    let (mut expected_states, mut expected_blocks) = ([0; 49_152], [0; 512]);
    let expected = given.ask(oracle::follow, &mut expected_states, &mut expected_blocks);
    let (mut states, mut blocks) = ([0; 49_152], [0; 512]);
    let followed = given.ask(stutter::follow, &mut states, &mut blocks);
    assert_eq!(followed, expected, "{name}");
    assert!(
        states == expected_states && blocks == expected_blocks,
        "{name}"
    );
    assert_eq!(followed[0], 0, "{name}");
    let matching = given.matching(followed[2], &states, &blocks);
    let matching = matching.unwrap_or_else(|why| panic!("{name}: {why}"));
    // The path comes back to its states, so it has many blocks.
    assert!(matching.len() > 20, "{name}: {} blocks", matching.len());
}
