//! Enquiries and commits that are wrong in one thing each: the comparisons with the oracle find
//! every one of them, and what is promised of the two together finds those that break it.

use compare::{is_found, EnquiryAndCommit};
use inputs::{save_in, slip_numbers, table_bytes};
use oracle::{Answer, Form, Kind, Slip};

/// What an enquiry and a commit are given.
#[derive(Clone, Copy)]
struct Files<'a> {
    left: &'a [u8],
    right: &'a [u8],
    relation: &'a [u8],
}

impl<'a> Files<'a> {
    fn new(left: &'a [u8], right: &'a [u8], relation: &'a [u8]) -> Files<'a> {
        Files {
            left,
            right,
            relation,
        }
    }

    /// The numbers of the inputs, where both tables are well formed.
    fn numbers(&self) -> Option<Slip> {
        slip_numbers(self.left, self.right, self.relation)
    }

    /// What is answered where the tables are of one kind, or else to the same with keys.
    fn enquire_in_one_kind(&self) -> Answer {
        let with_keys = |file| {
            let mut table = oracle::read_table(file, 0).expect("the table is well formed");
            save_in(&mut table, Form::TPK);
            table_bytes(&table)
        };
        match self.enquire() {
            ([30, ..], _) => {
                let [left, right] = [self.left, self.right].map(with_keys);
                Files::new(&left, &right, self.relation).enquire().0
            }
            (answer, _) => answer,
        }
    }

    fn lengths(&self) -> [u64; 3] {
        [self.left, self.right, self.relation].map(|file| file.len() as u64)
    }

    /// The right enquiry. The tuned functions do what the oracle's do, and are fast.
    fn enquire(&self) -> (Answer, Slip) {
        oracle::tuned_maker::enquire(self.left, self.right, self.relation)
    }

    /// The right commit.
    fn commit(&self, slip: Slip, output: &mut [u8]) -> Answer {
        oracle::tuned_maker::commit(self.left, self.right, self.relation, slip, output)
    }

    fn make(&self, output: &mut [u8]) -> Answer {
        oracle::tuned_maker::make(self.left, self.right, self.relation, output)
    }
}

/// Whether the comparison with the oracle finds an enquiry out.
fn enquiry_differs(enquire: impl Fn(Files) -> (Answer, Slip)) -> bool {
    is_found(&["the enquiry differs"], || {
        compare::enquire(10_000, 81, |left, right, relation| {
            enquire(Files::new(left, right, relation))
        });
    })
}

/// Whether the comparison with the oracle finds a commit out.
fn commit_differs(commit: impl Fn(Files, Slip, &mut [u8]) -> Answer) -> bool {
    is_found(&["the commit with the slip"], || {
        compare::commit(10_000, 82, |left, right, relation, slip, output| {
            commit(Files::new(left, right, relation), slip, output)
        });
    })
}

/// Whether the two do not do together what is promised.
fn promise_is_broken(
    enquire: impl Fn(Files) -> (Answer, Slip),
    commit: impl Fn(Files, Slip, &mut [u8]) -> Answer,
) -> bool {
    let both = EnquiryAndCommit {
        enquire: |left: &[u8], right: &[u8], relation: &[u8]| {
            enquire(Files::new(left, right, relation))
        },
        commit: |left: &[u8], right: &[u8], relation: &[u8], slip, output: &mut [u8]| {
            commit(Files::new(left, right, relation), slip, output)
        },
        make: oracle::tuned_maker::make,
    };
    is_found(&["the enquiry does not", "the commit"], || {
        both.require_promised(2_000, 83);
    })
}

#[test]
fn the_right_ones_are_no_difference() {
    assert!(!enquiry_differs(|files| files.enquire()));
    assert!(!commit_differs(|files, slip, output| {
        files.commit(slip, output)
    }));
    assert!(!commit_differs(|files, slip, output| {
        RIGHT.call(files, slip, output)
    }));
    assert!(!promise_is_broken(
        |files| files.enquire(),
        |files, slip, output| RIGHT.call(files, slip, output)
    ));
}

/// An enquiry, by what is wrong with it.
type WrongEnquiry = (&'static str, fn(Files) -> (Answer, Slip));

/// Those with which a promise is broken.
const ENQUIRIES: [WrongEnquiry; 13] = [
    ("21 is answered", |files| match files.enquire() {
        ([0, 0, length, ..], slip) => ([21, 3, length, 0, 0, 0], slip),
        refused => refused,
    }),
    ("21 comes before 16", |files| match files.make(&mut []) {
        answer if answer[0] == 21 => (answer, [0; 4]),
        _ => files.enquire(),
    }),
    ("16, 17, 22 and 23 are not looked for", |files| {
        match (files.enquire(), files.numbers()) {
            (([16 | 17 | 22 | 23, ..], _), Some(numbers)) => ([0, 0, numbers[3], 0, 0, 0], numbers),
            (enquired, _) => enquired,
        }
    }),
    ("23 is not looked for", |files| {
        match (files.enquire(), files.numbers()) {
            (([23, ..], _), Some(numbers)) => ([0, 0, numbers[3], 0, 0, 0], numbers),
            (enquired, _) => enquired,
        }
    }),
    ("L is not answered", |files| {
        let (mut answer, slip) = files.enquire();
        if answer[0] == 0 {
            answer[2] = 0;
        }
        (answer, slip)
    }),
    ("zeros on a success", |files| (files.enquire().0, [0; 4])),
    ("the true numbers after a refusal", |files| {
        let (answer, slip) = files.enquire();
        (answer, files.numbers().unwrap_or(slip))
    }),
    ("the lengths of the tables exchanged", |files| {
        let (answer, [left, right, relation, length]) = files.enquire();
        (answer, [right, left, relation, length])
    }),
    ("L first", |files| {
        let (answer, mut slip) = files.enquire();
        slip.rotate_right(1);
        (answer, slip)
    }),
    ("the rows are counted", |files| {
        let (answer, mut slip) = files.enquire();
        slip[2] /= 8;
        (answer, slip)
    }),
    ("the longest certificate for L", |files| {
        let (answer, mut slip) = files.enquire();
        if answer[0] == 0 {
            slip[3] = 41_483;
        }
        (answer, slip)
    }),
    ("30 is not looked for", |files| match files.enquire() {
        ([30, ..], slip) => (files.enquire_in_one_kind(), slip),
        enquired => enquired,
    }),
    ("L in 8 bits", |files| {
        let (answer, mut slip) = files.enquire();
        slip[3] %= 256;
        (answer, slip)
    }),
];

/// Those that put other numbers on the slip of a refusal, which the commit refuses too.
const SLIPS_OF_REFUSALS: [WrongEnquiry; 3] = [
    ("the lengths after a refusal", |files| {
        let (answer, mut slip) = files.enquire();
        slip[..3].copy_from_slice(&files.lengths());
        (answer, slip)
    }),
    ("L after a refusal", |files| {
        let (answer, mut slip) = files.enquire();
        if let Some([.., length]) = files.numbers() {
            slip[3] = length;
        }
        (answer, slip)
    }),
    ("a of a refusal for L", |files| {
        let (answer, mut slip) = files.enquire();
        slip[3] = answer[2];
        (answer, slip)
    }),
];

#[test]
fn a_wrong_enquiry_is_found() {
    for (name, enquire) in ENQUIRIES.iter().chain(&SLIPS_OF_REFUSALS) {
        assert!(enquiry_differs(enquire), "{name}");
    }
}

#[test]
fn a_wrong_enquiry_breaks_a_promise() {
    for (name, enquire) in ENQUIRIES {
        let broken = promise_is_broken(enquire, |files, slip, output| files.commit(slip, output));
        assert!(broken, "{name}");
    }
}

/// What can be wrong with the inputs of a commit.
#[derive(Clone, Copy, Debug)]
enum Cause {
    /// The enquiry is refused with one of these numbers.
    Enquiry(&'static [u64]),
    /// One table has keys and the other has none, whatever else they have.
    Kinds,
    Slip,
    Output,
}

/// How a commit goes about its work.
#[derive(Clone, Copy)]
struct Habits {
    /// The causes in the order in which they are tried.
    order: [Cause; 9],
    /// Whether the numbers on a slip pass for those of the inputs.
    passes: fn(Slip, Slip) -> bool,
    /// The L that the output must have, from that on the slip and that of the tables.
    needed: fn(u64, u64) -> u64,
    /// The six numbers of 29, from the slip and the numbers of the inputs.
    refusal: fn(Slip, Slip) -> Answer,
}

const RIGHT: Habits = Habits {
    order: [
        Cause::Enquiry(&[1, 2, 3, 4, 5, 6, 7, 8, 9, 24, 28]),
        Cause::Kinds,
        Cause::Enquiry(&[20]),
        Cause::Enquiry(&[15]),
        Cause::Slip,
        Cause::Output,
        Cause::Enquiry(&[16]),
        Cause::Enquiry(&[17, 22]),
        Cause::Enquiry(&[23]),
    ],
    passes: |slip, numbers| slip == numbers,
    needed: |_, length| length,
    refusal: |_, _| [29, 2, 0, 0, 0, 0],
};

/// Where 30, 29 and 21 stand.
const KINDS: usize = 1;
const SLIP: usize = 4;
const OUTPUT: usize = 5;

impl Habits {
    fn call(&self, files: Files, slip: Slip, output: &mut [u8]) -> Answer {
        match self.refuse(files, slip, output.len() as u64) {
            Some(refusal) => refusal,
            None => files.make(output),
        }
    }

    fn refuse(&self, files: Files, slip: Slip, room: u64) -> Option<Answer> {
        let enquired = files.enquire_in_one_kind();
        let kinds = [files.left, files.right].map(Kind::of_file);
        let are_two = kinds.iter().all(Option::is_some) && kinds[0] != kinds[1];
        let numbers = files.numbers();
        self.order.iter().find_map(|cause| match (cause, numbers) {
            (Cause::Enquiry(codes), _) => codes.contains(&enquired[0]).then_some(enquired),
            (Cause::Kinds, _) => are_two.then_some([30, 1, 0, 0, 0, 0]),
            // There is no L, and a table is refused.
            (_, None) => None,
            (Cause::Slip, Some(numbers)) => {
                (!(self.passes)(slip, numbers)).then(|| (self.refusal)(slip, numbers))
            }
            (Cause::Output, Some(numbers)) => {
                let needed = (self.needed)(slip[3], numbers[3]);
                (room < needed).then_some([21, 3, needed, 0, 0, 0])
            }
        })
    }

    /// The same with one of the causes moved to another place.
    fn moved(mut self, from: usize, to: usize) -> Habits {
        if from < to {
            self.order[from..=to].rotate_left(1);
        } else {
            self.order[to..=from].rotate_right(1);
        }
        self
    }
}

/// 30, 29 and 21 in every other place. At the first one there is no L yet.
#[test]
fn a_wrong_order_is_found() {
    for from in [KINDS, SLIP, OUTPUT] {
        let first = if from == KINDS { 0 } else { 1 };
        for to in (first..9).filter(|&to| to != from) {
            let habits = RIGHT.moved(from, to);
            let differs = commit_differs(|files, slip, output| habits.call(files, slip, output));
            assert!(differs, "{:?}", habits.order);
        }
    }
}

/// The zeros of a refused enquiry are enough to tell where 29 is tested.
#[test]
fn a_wrong_place_of_29_breaks_a_promise() {
    for to in (1..9).filter(|&to| to != SLIP) {
        let habits = RIGHT.moved(SLIP, to);
        let broken = promise_is_broken(
            |files| files.enquire(),
            |files, slip, output| habits.call(files, slip, output),
        );
        assert!(broken, "{:?}", habits.order);
    }
}

/// A commit, by what is wrong with its habits.
type WrongHabits = (&'static str, Habits);

fn passing(passes: fn(Slip, Slip) -> bool) -> Habits {
    Habits { passes, ..RIGHT }
}

fn refusing(refusal: fn(Slip, Slip) -> Answer) -> Habits {
    Habits { refusal, ..RIGHT }
}

fn all_equal(slip: Slip, numbers: Slip, same: impl Fn(u64, u64) -> bool) -> bool {
    slip.into_iter().zip(numbers).all(|(a, b)| same(a, b))
}

fn wrong_habits() -> Vec<WrongHabits> {
    vec![
        (
            "the left length is not compared",
            passing(|slip, numbers| slip[1..] == numbers[1..]),
        ),
        (
            "the right length is not compared",
            passing(|[a, _, b, c], [d, _, e, f]| [a, b, c] == [d, e, f]),
        ),
        (
            "the relation's length is not compared",
            passing(|[a, b, _, c], [d, e, _, f]| [a, b, c] == [d, e, f]),
        ),
        (
            "L is not compared",
            passing(|slip, numbers| slip[..3] == numbers[..3]),
        ),
        (
            "the slip's L is taken",
            Habits {
                passes: |slip, numbers| slip[..3] == numbers[..3],
                needed: |slip, _| slip,
                ..RIGHT
            },
        ),
        ("nothing is compared", passing(|_, _| true)),
        (
            "L alone is compared",
            passing(|slip, numbers| slip[3] == numbers[3]),
        ),
        (
            "one number is enough",
            passing(|slip, numbers| slip.iter().zip(numbers).any(|(a, b)| *a == b)),
        ),
        (
            "the sums are compared",
            passing(|slip, numbers| {
                let sum = |slip: Slip| slip.into_iter().fold(0, u64::wrapping_add);
                sum(slip) == sum(numbers)
            }),
        ),
        (
            "the order is not looked at",
            passing(|mut slip, mut numbers| {
                slip.sort();
                numbers.sort();
                slip == numbers
            }),
        ),
        (
            "a longer certificate may be on the slip",
            passing(|slip, numbers| slip[..3] == numbers[..3] && slip[3] >= numbers[3]),
        ),
        (
            "a shorter certificate may be on the slip",
            passing(|slip, numbers| slip[..3] == numbers[..3] && slip[3] <= numbers[3]),
        ),
        (
            "zeros are let through",
            passing(|slip, numbers| slip == [0; 4] || slip == numbers),
        ),
        (
            "the low 8 bits are compared",
            passing(|slip, numbers| all_equal(slip, numbers, |a, b| a as u8 == b as u8)),
        ),
        (
            "the low 16 bits are compared",
            passing(|slip, numbers| all_equal(slip, numbers, |a, b| a as u16 == b as u16)),
        ),
        (
            "the low 32 bits are compared",
            passing(|slip, numbers| all_equal(slip, numbers, |a, b| a as u32 == b as u32)),
        ),
        (
            "the low 63 bits are compared",
            passing(|slip, numbers| all_equal(slip, numbers, |a, b| a << 1 == b << 1)),
        ),
        ("29 is one of file 3", refusing(|_, _| [29, 3, 0, 0, 0, 0])),
        (
            "29 names L",
            refusing(|_, numbers| [29, 2, numbers[3], 0, 0, 0]),
        ),
        (
            "29 names the first wrong number",
            refusing(|slip, numbers| {
                let place = (0..4).find(|&place| slip[place] != numbers[place]);
                [29, 2, place.unwrap_or(0) as u64, 0, 0, 0]
            }),
        ),
        (
            "an exact output is refused",
            Habits {
                needed: |_, length| length + 1,
                ..RIGHT
            },
        ),
    ]
}

#[test]
fn a_wrong_commit_is_found() {
    for (name, habits) in wrong_habits() {
        let differs = commit_differs(|files, slip, output| habits.call(files, slip, output));
        assert!(differs, "{name}");
    }
}

/// A byte is written and the inputs then refused, or one after the certificate is cleared.
#[test]
fn a_touched_byte_is_found() {
    for code in [0, 1, 15, 16, 17, 20, 21, 22, 23, 29, 30] {
        let differs = commit_differs(|files, slip, output| {
            let answer = files.commit(slip, output);
            let place = if code == 0 { answer[2] as usize } else { 0 };
            match output.get_mut(place) {
                Some(byte) if answer[0] == code => *byte = !*byte,
                _ => {}
            }
            answer
        });
        assert!(differs, "{code}");
    }
}
