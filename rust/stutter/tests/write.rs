//! The proved writer, through the C interface, beside the oracle; and what is promised of two
//! tables that it writes.

mod makers;

use inputs::{any_system, save_in, spaced, table_bytes, Forms, Random, VERSIONS};
use inputs::{WriteCase, WriteCases};
use makers::make;
use oracle::{read_table, Answer, Form, Step, Table};
use std::collections::{BTreeMap, BTreeSet};
use std::thread;

#[test]
fn the_writer_equals_the_oracle() {
    compare::write(100_000, 71, stutter::write).require_all();
}

/// The oracle's answer, and this output after it.
fn expected(case: &WriteCase, mut output: Vec<u8>) -> (Answer, Vec<u8>) {
    let answer = oracle::write(&case.marks, case.starts, &case.steps, &mut output);
    (answer, output)
}

fn write_into(case: &WriteCase, output: &mut [u8], answer: &mut [u64]) -> bool {
    stutter::write_into(&case.marks, case.starts, &case.steps, output, answer)
}

/// With fewer than six places neither they nor the output change.
#[test]
fn a_short_answer_leaves_all_alone() {
    let mut random = Random::new(72);
    for case in WriteCases::new(72, 500) {
        let lent = random.bytes(case.output_length);
        for length in 0..6 {
            let places: Vec<u64> = (0..length).map(|i| u64::MAX - i).collect();
            let (mut answer, mut output) = (places.clone(), lent.clone());
            let had_room = write_into(&case, &mut output, &mut answer);
            assert!(!had_room, "{length} places");
            assert_eq!(answer, places, "{length} places");
            assert!(output == lent, "{length} places");
        }
    }
}

/// With six places or more the first six are the answer, and the rest stays.
#[test]
fn a_longer_answer_keeps_its_tail() {
    let mut random = Random::new(73);
    for case in WriteCases::new(73, 500) {
        let lent = random.bytes(case.output_length);
        let (expected, written) = expected(&case, lent.clone());
        for length in 6..12 {
            let places: Vec<u64> = (0..length).map(|i| u64::MAX - i).collect();
            let (mut answer, mut output) = (places.clone(), lent.clone());
            let had_room = write_into(&case, &mut output, &mut answer);
            assert!(had_room, "{length} places");
            assert_eq!(answer[..6], expected, "{length} places");
            assert_eq!(answer[6..], places[6..], "{length} places");
            assert!(output == written, "{length} places");
        }
    }
}

/// Lists and output that lie in larger buffers: a number read past an end would change the
/// answer or a byte, and a byte written past an end is seen.
#[test]
fn only_the_numbers_lent_are_touched() {
    let mut random = Random::new(74);
    for case in WriteCases::new(74, 3_000) {
        let lent = random.bytes(case.output_length);
        let (expected, written) = expected(&case, lent.clone());
        for filler in [0x00, 0x01, 0xff] {
            let (marks, [marks_place]) = spaced([&case.marks[..]], u32::from_ne_bytes([filler; 4]));
            let (steps, [steps_place]) = spaced([&case.steps[..]], u16::from_ne_bytes([filler; 2]));
            let (mut output, [place]) = spaced([&lent[..]], filler);
            let (marks, steps) = (&marks[marks_place], &steps[steps_place]);
            let found = stutter::write(marks, case.starts, steps, &mut output[place]);
            assert_eq!(found, expected);
            assert!(output == spaced([&written[..]], filler).0);
        }
    }
}

/// The answer, and the bytes written where it is a success.
fn write(marks: &[u32], starts: u64, steps: &[u16]) -> (Answer, Option<Vec<u8>>) {
    let mut output = vec![0xa5; stutter::TABLE_MOST];
    let answer = stutter::write(marks, starts, steps, &mut output);
    output.truncate(answer[2] as usize);
    (answer, (answer[0] == 0).then_some(output))
}

/// An output of 784 bytes serves for every table.
#[test]
fn the_longest_output_always_serves() {
    let mut too_short = 0;
    for case in WriteCases::new(75, 10_000) {
        let (answer, _) = write(&case.marks, case.starts, &case.steps);
        assert_ne!(answer[0], 21);
        if case.label.starts_with("21") {
            assert_eq!(answer, [0, 0, case.needed() as u64, 0, 0, 0]);
            too_short += 1;
        }
    }
    assert!(too_short >= 500, "{too_short}");
}

/// 64 states, and 256 steps that rise, that fall, and that are shuffled.
fn largest() -> [WriteCase; 3] {
    let mut random = Random::new(76);
    let steps: Vec<u16> = (0..256).map(|j| j / 4 * 256 + (17 * j) % 64).collect();
    let mut orders = [steps.clone(), steps.clone(), steps];
    orders[0].sort();
    orders[1].sort_by(|one, other| other.cmp(one));
    random.shuffle(&mut orders[2]);
    orders.map(|steps| WriteCase {
        marks: (0..64).map(|_| random.word() as u32).collect(),
        starts: u64::MAX,
        steps,
        output_length: 784,
        label: "the largest",
    })
}

/// A stack of 1 MiB is enough for the largest tables.
#[test]
fn a_small_stack_is_enough() {
    for case in largest() {
        let expected = expected(&case, vec![0xa5; 784]);
        assert_eq!(expected.0, [0, 0, 784, 0, 0, 0]);
        let small = thread::Builder::new().stack_size(1 << 20);
        let thread = small.spawn(move || {
            let mut output = vec![0xa5; 784];
            let answer = stutter::write(&case.marks, case.starts, &case.steps, &mut output);
            (answer, output)
        });
        let found = thread.expect("the thread starts").join();
        assert!(found.expect("the thread ends") == expected);
    }
}

/// "Reading what it wrote yields the same marks, starts and set of steps."
#[test]
fn what_is_written_is_read_back() {
    let mut read_back = 0;
    for case in WriteCases::new(77, 20_000) {
        let (_, Some(bytes)) = write(&case.marks, case.starts, &case.steps) else {
            continue;
        };
        let table = read_table(&bytes, 0).expect("the table is well formed");
        assert_eq!(table.form, Form::tpt(4));
        assert_eq!(table.marks, case.marks);
        let starts = (0..64).filter(|&s| case.starts >> s & 1 == 1);
        assert!(starts.eq(table.starts));
        let given: BTreeSet<u16> = case.steps.iter().copied().collect();
        assert_eq!(table.steps.len(), given.len());
        let steps = table.steps.iter();
        assert_eq!(steps.map(number).collect::<BTreeSet<u16>>(), given);
        read_back += 1;
    }
    assert!(read_back >= 8_000, "{read_back}");
}

/// The number of a step, "from in the high byte".
fn number(step: &Step) -> u16 {
    (step.from * 256 + step.to) as u16
}

/// The steps in another order give equal bytes, and every small change that is accepted gives
/// others.
#[test]
fn equal_bytes_are_equal_tables() {
    let mut random = Random::new(78);
    let mut changed = BTreeMap::new();
    for case in WriteCases::new(78, 10_000) {
        let (answer, bytes) = write(&case.marks, case.starts, &case.steps);
        let Some(bytes) = bytes else {
            continue;
        };
        let mut shuffled = case.steps.clone();
        random.shuffle(&mut shuffled);
        let again = write(&case.marks, case.starts, &shuffled);
        assert_eq!(again, (answer, Some(bytes.clone())));
        for (name, change) in CHANGES {
            let mut other = case.clone();
            change(&mut random, &mut other);
            let told_apart = told(&other) != told(&case);
            let (_, others) = write(&other.marks, other.starts, &other.steps);
            if let Some(others) = others {
                assert_eq!(others != bytes, told_apart, "{name}");
                *changed.entry(name).or_insert(0) += usize::from(told_apart);
            }
        }
    }
    for (name, _) in CHANGES {
        assert!(changed[name] >= 300, "{changed:?}");
    }
}

/// What the bytes tell: the marks, the starts and the set of steps.
fn told(case: &WriteCase) -> (&[u32], u64, BTreeSet<u16>) {
    let steps = case.steps.iter().copied().collect();
    (&case.marks, case.starts, steps)
}

type Change = (&'static str, fn(&mut Random, &mut WriteCase));

/// Small changes. Some give what is refused, or change nothing.
const CHANGES: [Change; 9] = [
    ("one bit of a mark", |random, case| {
        let state = random.below(case.marks.len());
        case.marks[state] ^= 1 << random.below(32);
    }),
    ("two marks exchanged", |random, case| {
        let n = case.marks.len();
        case.marks.swap(random.below(n), random.below(n));
    }),
    ("one mark more", |_, case| case.marks.push(0)),
    ("one mark less", |_, case| {
        case.marks.pop();
    }),
    ("one bit of the start word", |random, case| {
        case.starts ^= 1 << random.below(case.marks.len());
    }),
    ("one step more", |random, case| {
        let step = any_step(random, case);
        case.steps.push(step);
    }),
    ("one step less", |random, case| {
        if !case.steps.is_empty() {
            case.steps.remove(random.below(case.steps.len()));
        }
    }),
    ("another step", |random, case| {
        if !case.steps.is_empty() {
            let place = random.below(case.steps.len());
            case.steps[place] = any_step(random, case);
        }
    }),
    ("one step turned round", |random, case| {
        if !case.steps.is_empty() {
            let place = random.below(case.steps.len());
            case.steps[place] = case.steps[place].swap_bytes();
        }
    }),
];

fn any_step(random: &mut Random, case: &WriteCase) -> u16 {
    let n = case.marks.len();
    (random.below(n) * 256 + random.below(n)) as u16
}

/// All tables of one or two states with three marks, every start word and every list of
/// different steps in every order: as many files as there are marks, starts and sets of
/// steps, and each file for one of them.
#[test]
fn all_small_tables_are_told_apart() {
    let marks = [0u32, 1, 1 << 24];
    let ones = marks.map(|mark| vec![mark]);
    let twos = marks.map(|one| marks.map(|other| vec![one, other]));
    let mut files = BTreeMap::new();
    let mut lists = 0;
    for marks in ones.into_iter().chain(twos.into_iter().flatten()) {
        let n = marks.len();
        let steps: Vec<u16> = (0..n * n).map(|i| (i / n * 256 + i % n) as u16).collect();
        for starts in 1..1 << n {
            for list in orders(&steps) {
                let (_, bytes) = write(&marks, starts, &list);
                let steps: BTreeSet<u16> = list.into_iter().collect();
                let table = (marks.clone(), starts, steps);
                let first = files.entry(bytes.expect("it is written"));
                assert_eq!(*first.or_insert_with(|| table.clone()), table);
                lists += 1;
            }
        }
    }
    // 3 marks and 2 sets of one state's step; 9 pairs, 3 words and 16 sets of two states'
    // steps, in 65 lists.
    assert_eq!(
        (files.len(), lists),
        (3 * 2 + 9 * 3 * 16, 3 * 2 + 9 * 3 * 65)
    );
}

/// Every list of different steps of these.
fn orders(steps: &[u16]) -> Vec<Vec<u16>> {
    let mut lists = vec![vec![]];
    for (place, &first) in steps.iter().enumerate() {
        let mut others = steps.to_vec();
        others.remove(place);
        lists.extend(
            orders(&others)
                .into_iter()
                .map(|rest| [&[first], &rest[..]].concat()),
        );
    }
    lists
}

/// A table as the proved writer writes it from shuffled steps. It is the file that the tests'
/// own code gives it in version 4.
fn written(random: &mut Random, table: &Table) -> Vec<u8> {
    let starts = table.starts.iter().map(|&s| 1u64 << s).sum();
    let mut steps: Vec<u16> = table.steps.iter().map(number).collect();
    random.shuffle(&mut steps);
    let (_, bytes) = write(&table.marks, starts, &steps);
    let bytes = bytes.expect("the table is written");
    let mut saved = table.clone();
    save_in(&mut saved, Form::tpt(4));
    assert_eq!(bytes, table_bytes(&saved));
    bytes
}

/// Two written tables with a relation get the same answers and the same certificate from the
/// proved makers and judge as from the oracle's.
#[test]
fn what_is_written_is_made_and_judged() {
    let mut random = Random::new(79);
    let (mut accepted, mut refused) = (0, 0);
    for _ in 0..2_000 {
        let system = any_system(&mut random, Forms::Tpt(VERSIONS));
        let left = written(&mut random, &system.left);
        let right = written(&mut random, &system.right);
        let relation = system.relation_bytes();
        let lent = vec![0x5a; system.layout().length()];
        let (mut output, mut expected) = (lent.clone(), lent);
        let made = make(&left, &right, &relation, &mut output);
        assert_eq!(made, oracle::make(&left, &right, &relation, &mut expected));
        assert!(output == expected, "the certificates differ");
        let any_ranks = system.certificate_with_any_ranks(&mut random, 3);
        for certificate in [output, any_ranks] {
            let judged = stutter::judge(&left, &right, &certificate);
            assert_eq!(judged, oracle::judge(&left, &right, &certificate));
            accepted += usize::from(judged[0] == 0);
            refused += usize::from(judged[0] != 0);
        }
    }
    assert!(accepted >= 500 && refused >= 500, "{accepted} {refused}");
}
