//! Writers that are wrong in one thing each: the comparison with the oracle finds every one of
//! them.

use compare::is_found;
use oracle::Answer;

/// What a writer is given, and the length of its output.
struct Given<'a> {
    marks: &'a [u32],
    starts: u64,
    steps: &'a [u16],
    output_length: usize,
}

impl Given<'_> {
    fn n(&self) -> usize {
        self.marks.len()
    }

    fn m(&self) -> usize {
        self.steps.len()
    }

    fn needed(&self) -> usize {
        16 + 4 * self.n() + 2 * self.m()
    }

    /// The start word from bit n on.
    fn starts_too_high(&self) -> u64 {
        self.starts.checked_shr(self.n() as u32).unwrap_or(0)
    }

    /// The first step of which this holds, where there is one.
    fn first(&self, wrong: impl Fn(usize) -> bool) -> Option<usize> {
        (0..self.m()).find(|&j| wrong(j))
    }

    /// The ends of a step, from and to.
    fn ends(&self, j: usize) -> [usize; 2] {
        self.steps[j].to_be_bytes().map(usize::from)
    }

    fn ends_too_high(&self, j: usize) -> bool {
        self.ends(j).iter().any(|&end| end >= self.n())
    }

    /// The step equals an earlier one.
    fn is_doubled(&self, j: usize) -> bool {
        self.steps[..j].contains(&self.steps[j])
    }

    /// The oracle's writer.
    fn right(&self, output: &mut [u8]) -> Answer {
        oracle::write(self.marks, self.starts, self.steps, output)
    }
}

/// Whether the comparison with the oracle finds a writer out.
fn differs(write: impl Fn(&Given, &mut [u8]) -> Answer) -> bool {
    is_found(&["the writer differs"], || {
        compare::write(10_000, 71, |marks, starts, steps, output| {
            let given = Given {
                marks,
                starts,
                steps,
                output_length: output.len(),
            };
            write(&given, output)
        });
    })
}

/// A number, and its a where it applies.
type Cause = (u64, fn(&Given) -> Option<usize>);

/// How a writer goes about its work.
#[derive(Clone, Copy)]
struct Habits {
    /// The causes in the order in which they are tried.
    causes: [Cause; 6],
    version: u16,
    starts: fn(u64) -> Vec<u8>,
    mark: fn(u32) -> Vec<u8>,
    step: fn(u16) -> [u8; 2],
    /// Puts the steps into the order in which they are written.
    arrange: fn(&mut Vec<u16>),
}

const RIGHT: Habits = Habits {
    causes: [
        (4, |given| (given.n() < 1 || given.n() > 64).then_some(0)),
        (28, |given| {
            (given.starts == 0 || given.starts_too_high() != 0).then_some(0)
        }),
        (6, |given| (given.m() > 256).then_some(0)),
        (8, |given| given.first(|j| given.ends_too_high(j))),
        (9, |given| given.first(|j| given.is_doubled(j))),
        (21, |given| {
            (given.output_length < given.needed()).then_some(given.needed())
        }),
    ],
    version: 4,
    starts: |starts| starts.to_be_bytes().to_vec(),
    mark: |mark| mark.to_be_bytes().to_vec(),
    step: u16::to_be_bytes,
    arrange: |steps| steps.sort(),
};

impl Habits {
    fn call(&self, given: &Given, output: &mut [u8]) -> Answer {
        for (code, applies) in self.causes {
            if let Some(a) = applies(given) {
                return [code, 3, a as u64, 0, 0, 0];
            }
        }
        let table = self.table(given);
        for (place, byte) in output.iter_mut().zip(&table) {
            *place = *byte;
        }
        [0, 0, table.len() as u64, 0, 0, 0]
    }

    fn table(&self, given: &Given) -> Vec<u8> {
        let mut steps = given.steps.to_vec();
        (self.arrange)(&mut steps);
        let mut table = b"TPT".to_vec();
        table.extend(self.version.to_be_bytes());
        table.push(given.n() as u8);
        table.extend((self.starts)(given.starts));
        table.extend((steps.len() as u16).to_be_bytes());
        table.extend(given.marks.iter().flat_map(|&mark| (self.mark)(mark)));
        table.extend(steps.into_iter().flat_map(self.step));
        table
    }

    /// The place of the cause with this number.
    fn place(&self, code: u64) -> usize {
        let place = self.causes.iter().position(|cause| cause.0 == code);
        place.expect("there is such a cause")
    }
}

/// The right habits but for the order of the causes: this one comes before that one.
fn with_order(this: u64, that: u64) -> Habits {
    let mut habits = RIGHT;
    let (that, this) = (habits.place(that), habits.place(this));
    habits.causes[that..=this].rotate_right(1);
    habits
}

/// Causes that are looked at wrongly.
const CAUSES: [(&str, Cause); 26] = [
    (
        "64 states are refused",
        (4, |given| (given.n() < 1 || given.n() > 63).then_some(0)),
    ),
    (
        "65 states are let through",
        (4, |given| (given.n() < 1 || given.n() > 65).then_some(0)),
    ),
    (
        "no state is let through",
        (4, |given| (given.n() > 64).then_some(0)),
    ),
    (
        "the states are counted in 8 bits",
        (4, |given| {
            (!(1..=64).contains(&(given.n() % 256))).then_some(0)
        }),
    ),
    (
        "the states are counted in 16 bits",
        (4, |given| {
            (!(1..=64).contains(&(given.n() % 65_536))).then_some(0)
        }),
    ),
    (
        "no start is let through",
        (28, |given| (given.starts_too_high() != 0).then_some(0)),
    ),
    (
        "bit n is let through",
        (28, |given| {
            (given.starts == 0 || given.starts_too_high() > 1).then_some(0)
        }),
    ),
    (
        "the word is only asked for bit n",
        (28, |given| {
            (given.starts == 0 || given.starts_too_high() & 1 == 1).then_some(0)
        }),
    ),
    (
        "a start below n is enough",
        (28, |given| {
            (given.starts == 0 || given.starts.trailing_zeros() as usize >= given.n()).then_some(0)
        }),
    ),
    (
        "several starts are refused",
        (28, |given| {
            (given.starts.count_ones() != 1 || given.starts_too_high() != 0).then_some(0)
        }),
    ),
    (
        "256 steps are refused",
        (6, |given| (given.m() > 255).then_some(0)),
    ),
    (
        "257 steps are let through",
        (6, |given| (given.m() > 257).then_some(0)),
    ),
    (
        "the steps are counted in 16 bits",
        (6, |given| (given.m() % 65_536 > 256).then_some(0)),
    ),
    (
        "to is not looked at",
        (8, |given| given.first(|j| given.ends(j)[0] >= given.n())),
    ),
    (
        "from is not looked at",
        (8, |given| given.first(|j| given.ends(j)[1] >= given.n())),
    ),
    (
        "an end n is let through",
        (8, |given| {
            given.first(|j| given.ends(j).iter().any(|&end| end > given.n()))
        }),
    ),
    (
        "the last step with a wrong end is named",
        (8, |given| {
            (0..given.m()).rev().find(|&j| given.ends_too_high(j))
        }),
    ),
    (
        "neighbours alone are compared",
        (9, |given| {
            given.first(|j| j > 0 && given.steps[j - 1] == given.steps[j])
        }),
    ),
    (
        "the earlier of two equal steps is named",
        (9, |given| {
            let j = given.first(|j| given.is_doubled(j))?;
            given.first(|i| given.steps[i] == given.steps[j])
        }),
    ),
    (
        "the first step with a later one is looked for",
        (9, |given| {
            let i = given.first(|i| given.steps[i + 1..].contains(&given.steps[i]))?;
            (i + 1..given.m()).find(|&j| given.steps[j] == given.steps[i])
        }),
    ),
    (
        "the place in rising order is named",
        (9, |given| {
            let mut rising = given.steps.to_vec();
            rising.sort();
            (1..rising.len()).find(|&j| rising[j - 1] == rising[j])
        }),
    ),
    (
        "the last of several doubled steps is named",
        (9, |given| {
            (0..given.m()).rev().find(|&j| given.is_doubled(j))
        }),
    ),
    (
        "the last step is not compared",
        (9, |given| {
            given.first(|j| j + 1 < given.m() && given.is_doubled(j))
        }),
    ),
    (
        "an exact output is refused",
        (21, |given| {
            (given.output_length <= given.needed()).then_some(given.needed())
        }),
    ),
    (
        "one byte short is let through",
        (21, |given| {
            (given.output_length + 1 < given.needed()).then_some(given.needed())
        }),
    ),
    (
        "the bytes that are missing are named",
        (21, |given| {
            let missing = given.needed().saturating_sub(given.output_length);
            (missing > 0).then_some(missing)
        }),
    ),
];

/// Tables with something wrong in them.
fn tables() -> Vec<(&'static str, Habits)> {
    let arranged = |arrange| Habits { arrange, ..RIGHT };
    let marked = |mark| Habits { mark, ..RIGHT };
    let started = |starts| Habits { starts, ..RIGHT };
    vec![
        ("steps as given", arranged(|_| {})),
        (
            "steps by to first",
            arranged(|steps| steps.sort_by_key(|step| step.swap_bytes())),
        ),
        (
            "steps by from alone",
            arranged(|steps| steps.sort_by_key(|step| step / 256)),
        ),
        (
            "steps that fall",
            arranged(|steps| {
                steps.sort();
                steps.reverse();
            }),
        ),
        ("steps given in reverse", arranged(|steps| steps.reverse())),
        (
            "one round of exchanges",
            arranged(|steps| {
                for j in 1..steps.len() {
                    if steps[j] < steps[j - 1] {
                        steps.swap(j, j - 1);
                    }
                }
            }),
        ),
        (
            "the last of 256 steps is not sorted",
            arranged(|steps| {
                let sorted = steps.len().min(255);
                steps[..sorted].sort();
            }),
        ),
        (
            "to before from",
            Habits {
                step: u16::to_le_bytes,
                ..RIGHT
            },
        ),
        (
            "low byte of a mark first",
            marked(|mark| mark.to_le_bytes().to_vec()),
        ),
        (
            "low half of a mark first",
            marked(|mark| mark.rotate_left(16).to_be_bytes().to_vec()),
        ),
        (
            "marks of two bytes",
            marked(|mark| mark.to_be_bytes()[2..].to_vec()),
        ),
        (
            "marks to 65,535",
            marked(|mark| mark.min(65_535).to_be_bytes().to_vec()),
        ),
        (
            "low byte of the start word first",
            started(|starts| starts.to_le_bytes().to_vec()),
        ),
        (
            "a start word of seven bytes",
            started(|starts| starts.to_be_bytes()[1..].to_vec()),
        ),
        (
            "the first start alone",
            started(|starts| (starts & starts.wrapping_neg()).to_be_bytes().to_vec()),
        ),
        (
            "version 3",
            Habits {
                version: 3,
                ..RIGHT
            },
        ),
        (
            "version 1024",
            Habits {
                version: 4 << 8,
                ..RIGHT
            },
        ),
    ]
}

type Write = fn(&Given, &mut [u8]) -> Answer;

/// Wrong in what is answered or touched.
const CALLS: [(&str, Write); 7] = [
    ("8 and 9 are looked for together", |given, output| {
        let answer = given.right(output);
        match given.first(|j| given.ends_too_high(j) || given.is_doubled(j)) {
            Some(j) if answer[0] == 8 && !given.ends_too_high(j) => [9, 3, j as u64, 0, 0, 0],
            _ => answer,
        }
    }),
    ("doubled steps are dropped", |given, output| {
        let mut steps = given.steps.to_vec();
        steps.sort();
        steps.dedup();
        let steps = &steps[..];
        match given.right(output) {
            [9, ..] => Given { steps, ..*given }.right(output),
            answer => answer,
        }
    }),
    ("the length is that without steps", |given, output| {
        let mut answer = given.right(output);
        if answer[0] == 0 {
            answer[2] -= 2 * given.m() as u64;
        }
        answer
    }),
    ("a refusal is one of file 0", |given, output| {
        let mut answer = given.right(output);
        answer[1] = 0;
        answer
    }),
    ("4 names the states", |given, output| {
        let mut answer = given.right(output);
        if answer[0] == 4 {
            answer[2] = given.n() as u64;
        }
        answer
    }),
    ("the byte after the table is cleared", |given, output| {
        let answer = given.right(output);
        match output.get_mut(given.needed()) {
            Some(after) if answer[0] == 0 => *after = 0,
            _ => {}
        }
        answer
    }),
    ("the last byte lent is cleared", |given, output| {
        let answer = given.right(output);
        match output.last_mut() {
            Some(last) if given.output_length > given.needed() => *last = 0,
            _ => {}
        }
        answer
    }),
];

/// The writer by habits is right where its habits are.
#[test]
fn right_habits_are_no_difference() {
    assert!(!differs(|given, output| RIGHT.call(given, output)));
    assert!(!differs(|given, output| given.right(output)));
}

/// Each cause before each that comes before it.
#[test]
fn a_wrong_order_is_found() {
    for (i, (that, _)) in RIGHT.causes.into_iter().enumerate() {
        for (this, _) in &RIGHT.causes[i + 1..] {
            let habits = with_order(*this, that);
            let found = differs(|given, output| habits.call(given, output));
            assert!(found, "{this} before {that}");
        }
    }
}

#[test]
fn a_wrong_cause_is_found() {
    for (name, cause) in CAUSES {
        let mut habits = RIGHT;
        habits.causes[RIGHT.place(cause.0)] = cause;
        let found = differs(|given, output| habits.call(given, output));
        assert!(found, "{name}");
    }
}

#[test]
fn a_wrong_table_is_found() {
    for (name, habits) in tables() {
        let found = differs(|given, output| habits.call(given, output));
        assert!(found, "{name}");
    }
}

#[test]
fn a_wrong_call_is_found() {
    for (name, call) in CALLS {
        assert!(differs(call), "{name}");
    }
}

/// A byte is written and the table then refused.
#[test]
fn a_byte_written_on_a_refusal_is_found() {
    for (code, _) in RIGHT.causes {
        let found = differs(|given, output| {
            let answer = given.right(output);
            if answer[0] == code && !output.is_empty() {
                output[0] = !output[0];
            }
            answer
        });
        assert!(found, "{code}");
    }
}
