//! Followers that are wrong in one thing each: the comparison with the oracle finds every
//! one of them, and demand 3 alone those whose paths do not match.

use compare::{is_found, Accepted, Given};
use inputs::{save_in, table_bytes, FollowCases};
use oracle::{Answer, Form, Kind, TableLayout};

/// Such a follower, by what is wrong with it.
type Wrong<F> = (&'static str, F);
type Follow = fn(&Given, &mut [u8], &mut [u8]) -> Answer;

/// The right follower. The tuned one does what the oracle's does, and is fast.
fn right(given: &Given, states: &mut [u8], blocks: &mut [u8]) -> Answer {
    given.ask(oracle::tuned_follow::follow, states, blocks)
}

/// Whether the comparison with the oracle finds a follower out.
fn differs(follow: impl Fn(&Given, &mut [u8], &mut [u8]) -> Answer) -> bool {
    is_found(&["the follower differs"], || {
        compare::follow(
            4_000,
            61,
            |left, right, certificate, side, start, path, states, blocks| {
                let given = Given {
                    left,
                    right,
                    certificate,
                    side,
                    start,
                    path,
                };
                follow(&given, states, blocks)
            },
        );
    })
}

/// What demand 3 alone says of the first run that this follower does not match.
fn not_matched(follow: impl Fn(&Given, &mut [u8], &mut [u8]) -> Answer) -> Option<String> {
    FollowCases::new(62, 3_000).find_map(|case| {
        let given = Given::of(&case);
        let (mut states, mut blocks) = (vec![0; 3 * MOST], vec![0; 512]);
        let answer = follow(&given, &mut states, &mut blocks);
        if answer[0] != 0 {
            return None;
        }
        given.matching(answer[2], &states, &blocks).err()
    })
}

/// How a follower goes about its work.
#[derive(Clone, Copy)]
struct Habits {
    /// The clauses in the order in which they are tried.
    clauses: [u64; 3],
    /// Which of the states that serve a clause is taken; they come in table order.
    choose: fn(u64, &[u64]) -> u64,
    /// The clauses at which a new block begins.
    new_block_at: &'static [u64],
    /// Whether it goes on at the end, from whether the path given ends in a dead end.
    goes_on: fn(bool) -> bool,
    /// Whether a new block begins with each state that it goes on to.
    new_block_going_on: bool,
    /// The ranks of 2c are not looked at.
    chases_blindly: bool,
}

/// The clause by which `choose` is told of the way on to a dead end.
const GOING_ON: u64 = 4;

const RIGHT: Habits = Habits {
    clauses: [1, 2, 3],
    choose: |_, states| smallest(states),
    new_block_at: &[1],
    goes_on: |dead_end| dead_end,
    new_block_going_on: false,
    chases_blindly: false,
};

fn smallest(states: &[u64]) -> u64 {
    states.iter().copied().min().expect("some state serves")
}

/// No right path is as long; a wrong one might have no end.
const MOST: usize = 20_000;

/// States with their block numbers.
type Numbered = Vec<(u64, u64)>;

impl Habits {
    /// The oracle's refusals, and the path that is found by these habits.
    fn call(&self, given: &Given, states: &mut [u8], blocks: &mut [u8]) -> Answer {
        let answer = right(given, states, blocks);
        if answer[0] != 0 {
            return answer;
        }
        let (numbered, numbers) = self.follow(given);
        let number = |block: u64| [(block / 256) as u8, block as u8];
        let bytes = numbered.iter().flat_map(|&(state, block)| {
            let [high, low] = number(block);
            [state as u8, high, low]
        });
        for (place, byte) in states.iter_mut().zip(bytes) {
            *place = byte;
        }
        for (place, byte) in blocks.iter_mut().zip(numbers.into_iter().flat_map(number)) {
            *place = byte;
        }
        [0, 0, numbered.len() as u64, 0, 0, 0]
    }

    /// The states written and the block numbers of the states given.
    fn follow(&self, given: &Given) -> (Numbered, Vec<u64>) {
        let files = Accepted::of(given.left, given.right, given.certificate);
        let (mut t, mut block) = (given.start, 0);
        let (mut states, mut blocks) = (vec![(t, block)], vec![block]);
        for pair in given.path.windows(2) {
            let (s, u) = (u64::from(pair[0]), u64::from(pair[1]));
            while states.len() < MOST {
                let (clause, v) = self.answer(&files, given, s, u, t);
                t = v;
                block += u64::from(self.new_block_at.contains(&clause));
                if clause != 2 {
                    states.push((t, block));
                }
                if clause != 3 {
                    break;
                }
            }
            blocks.push(block);
        }
        let last = u64::from(given.path[given.path.len() - 1]);
        if (self.goes_on)(ends(given.own(), last).is_empty()) {
            while !ends(given.other(), t).is_empty() && states.len() < MOST {
                t = (self.choose)(GOING_ON, &ends(given.other(), t));
                block += u64::from(self.new_block_going_on);
                states.push((t, block));
            }
        }
        (states, blocks)
    }

    /// The clause by which the step from s to u is met at t, and the state taken.
    fn answer(&self, files: &Accepted, given: &Given, s: u64, u: u64, t: u64) -> (u64, u64) {
        let (left, right) = [(s, t), (t, s)][given.side as usize];
        let step = steps(given.own()).position(|step| step == (s, u));
        let step = step.expect("neighbours are a step") as u64;
        for clause in self.clauses {
            let line = [given.side, left, right, step, clause, 0];
            if clause == 2 {
                if files.pauses(line) {
                    return (clause, t);
                }
                continue;
            }
            let states = if clause == 3 && self.chases_blindly {
                files.waiting(line)
            } else {
                files.serving(line)
            };
            if !states.is_empty() {
                return (clause, (self.choose)(clause, &states));
            }
        }
        panic!("no clause holds");
    }
}

/// The steps of a table without keys, each from and to.
fn steps(table: &[u8]) -> impl Iterator<Item = (u64, u64)> + '_ {
    let layout = TableLayout::of_file(table).expect("the version is known");
    let steps = table[layout.step(table[5] as usize, 0)..].chunks_exact(2);
    steps.map(|step| (u64::from(step[0]), u64::from(step[1])))
}

/// The states to which a state steps, in table order.
fn ends(table: &[u8], state: u64) -> Vec<u64> {
    let from_here = steps(table).filter(|&(from, _)| from == state);
    from_here.map(|(_, to)| to).collect()
}

/// The right habits but for one change.
fn with(change: impl FnOnce(&mut Habits)) -> Habits {
    let mut habits = RIGHT;
    change(&mut habits);
    habits
}

/// These habits give paths that do not match.
fn unmatched() -> [Wrong<Habits>; 9] {
    [
        ("2b before 2a", with(|habits| habits.clauses = [2, 1, 3])),
        ("2c before 2a", with(|habits| habits.clauses = [3, 1, 2])),
        (
            "new block at 2b",
            with(|habits| habits.new_block_at = &[1, 2]),
        ),
        (
            "new block at 2c",
            with(|habits| habits.new_block_at = &[1, 3]),
        ),
        ("no new block", with(|habits| habits.new_block_at = &[])),
        (
            "new block going on",
            with(|habits| habits.new_block_going_on = true),
        ),
        ("never goes on", with(|habits| habits.goes_on = |_| false)),
        ("always goes on", with(|habits| habits.goes_on = |_| true)),
        (
            "2c without ranks",
            with(|habits| habits.chases_blindly = true),
        ),
    ]
}

/// These give other paths that match as well.
fn matched() -> [Wrong<Habits>; 7] {
    let choosing = |choose| with(|habits| habits.choose = choose);
    [
        ("2c before 2b", with(|habits| habits.clauses = [1, 3, 2])),
        (
            "greatest by 2a",
            choosing(|clause, states| greatest_at(1, clause, states)),
        ),
        (
            "greatest by 2c",
            choosing(|clause, states| greatest_at(3, clause, states)),
        ),
        (
            "greatest going on",
            choosing(|clause, states| greatest_at(GOING_ON, clause, states)),
        ),
        (
            "first by 2a",
            choosing(|clause, states| first_at(1, clause, states)),
        ),
        (
            "first by 2c",
            choosing(|clause, states| first_at(3, clause, states)),
        ),
        (
            "first going on",
            choosing(|clause, states| first_at(GOING_ON, clause, states)),
        ),
    ]
}

/// The greatest state at this clause, and the smallest one at the others.
fn greatest_at(this: u64, clause: u64, states: &[u64]) -> u64 {
    if clause == this {
        states.iter().copied().max().expect("some state serves")
    } else {
        smallest(states)
    }
}

/// The first state in table order at this clause, and the smallest one at the others.
fn first_at(this: u64, clause: u64, states: &[u64]) -> u64 {
    if clause == this {
        states[0]
    } else {
        smallest(states)
    }
}

/// These are wrong in what they answer or write.
const CALLS: [Wrong<Follow>; 17] = [
    ("low bytes first", |given, states, blocks| {
        let answer = right(given, states, blocks);
        for entry in entries(answer, states) {
            entry[1..].reverse();
        }
        answer
    }),
    ("block numbers exchanged", |given, states, blocks| {
        let answer = right(given, states, blocks);
        let entries = entries(answer, states);
        for (entry, number) in entries.zip(blocks.chunks_exact_mut(2)) {
            entry[1..].swap_with_slice(number);
        }
        answer
    }),
    ("bytes counted", |given, states, blocks| {
        let mut answer = right(given, states, blocks);
        if answer[0] == 0 {
            answer[2] *= 3;
        }
        answer
    }),
    ("first output cleared", |given, states, blocks| {
        let answer = right(given, states, blocks);
        if answer[0] == 0 {
            states[3 * answer[2] as usize..].fill(0);
        }
        answer
    }),
    ("second output cleared", |given, states, blocks| {
        let answer = right(given, states, blocks);
        if answer[0] == 0 {
            blocks[2 * given.path.len()..].fill(0);
        }
        answer
    }),
    ("27 after the states", |given, states, blocks| {
        right(given, states, &mut [0; 512]);
        right(given, states, blocks)
    }),
    ("27 after the blocks", |given, states, blocks| {
        right(given, &mut vec![0; 3 * MOST], blocks);
        right(given, states, blocks)
    }),
    ("27 with a length", |given, states, blocks| {
        let mut answer = right(given, states, blocks);
        if answer[0] == 27 {
            answer[2] = 3;
        }
        answer
    }),
    ("26 with file 3", |given, states, blocks| {
        let mut answer = right(given, states, blocks);
        if answer[0] == 26 {
            answer[1] = 3;
        }
        answer
    }),
    ("26 before 25", |given, states, blocks| {
        let answer = right(given, states, blocks);
        if answer[0] == 25 && given.start > 63 {
            return [26, 4, 0, 0, 0, 0];
        }
        answer
    }),
    ("27 before 26", |given, states, blocks| {
        let answer = right(given, states, blocks);
        if answer[0] == 26 && states.len() < 3 {
            return [27, 3, 0, 0, 0, 0];
        }
        answer
    }),
    ("25 before the judge's", |given, states, blocks| {
        let answer = right(given, states, blocks);
        if answer[0] != 0 && given.path.is_empty() {
            return [25, 4, 0, 0, 0, 0];
        }
        answer
    }),
    ("a side of 32 bits", |given, states, blocks| {
        let side = u64::from(given.side as u32);
        right(&Given { side, ..*given }, states, blocks)
    }),
    ("a start of 32 bits", |given, states, blocks| {
        let start = u64::from(given.start as u32);
        right(&Given { start, ..*given }, states, blocks)
    }),
    ("a start of 8 bits", |given, states, blocks| {
        let start = u64::from(given.start as u8);
        right(&Given { start, ..*given }, states, blocks)
    }),
    ("257 states", |given, states, blocks| {
        let path = &given.path[..given.path.len().min(256)];
        right(&Given { path, ..*given }, states, blocks)
    }),
    ("the last step is not tested", |given, states, blocks| {
        let answer = right(given, states, blocks);
        match given.path {
            [path @ .., _] if answer[0] == 25 => right(&Given { path, ..*given }, states, blocks),
            _ => answer,
        }
    }),
];

/// These are wrong about tables with keys.
const KEYS: [Wrong<Follow>; 9] = [
    ("tables with keys are taken", |given, states, blocks| {
        without_keys(given, |given| right(given, states, blocks))
    }),
    ("two tables with keys are taken", |given, states, blocks| {
        let both = [given.left, given.right]
            .iter()
            .all(|table| has_keys(table));
        match both {
            true => without_keys(given, |given| right(given, states, blocks)),
            false => right(given, states, blocks),
        }
    }),
    ("30 for tables of two kinds", |given, states, blocks| {
        judged_first(given, states, blocks, |code| code == 30)
    }),
    (
        "2 after the other causes of a table",
        |given, states, blocks| {
            judged_first(given, states, blocks, |code| {
                matches!(code, 1..=9 | 24 | 28)
            })
        },
    ),
    (
        "2 after the certificate's causes",
        |given, states, blocks| {
            judged_first(given, states, blocks, |code| (10..=15).contains(&code))
        },
    ),
    ("2 after the judge's causes", |given, states, blocks| {
        judged_first(given, states, blocks, |code| (10..=19).contains(&code))
    }),
    ("2 under 9 bytes", |given, states, blocks| {
        let [code, file, rest @ ..] = right(given, states, blocks);
        let refused = [given.left, given.right].get(file as usize).copied();
        let code = match refused {
            Some(table) if code == 1 && has_keys(table) => 2,
            _ => code,
        };
        let mut answer = [code, file, 0, 0, 0, 0];
        answer[2..].copy_from_slice(&rest);
        answer
    }),
    ("3 for a table with keys", |given, states, blocks| {
        let mut answer = right(given, states, blocks);
        if answer[0] == 2 && has_keys([given.left, given.right][answer[1] as usize]) {
            answer[0] = 3;
        }
        answer
    }),
    ("a right table with keys first", |given, states, blocks| {
        let answer = right(given, states, blocks);
        if answer[..2] == [2, 0] && has_keys(given.right) && given.right.len() >= 9 {
            return [2, 1, 0, 0, 0, 0];
        }
        answer
    }),
];

fn has_keys(table: &[u8]) -> bool {
    Kind::of_file(table) == Some(Kind::Tpk)
}

/// What is answered where the keys of well-formed tables are taken off.
fn without_keys(given: &Given, mut follow: impl FnMut(&Given) -> Answer) -> Answer {
    let saved = |file: &[u8]| match oracle::read_table(file, 0) {
        Ok(mut table) if has_keys(file) => {
            save_in(&mut table, Form::tpt(4));
            table_bytes(&table)
        }
        _ => file.to_vec(),
    };
    let [left, right] = [given.left, given.right].map(saved);
    let (left, right) = (&left[..], &right[..]);
    follow(&Given {
        left,
        right,
        ..*given
    })
}

/// Where a table with keys is refused, the judge's answer in its place where it has such a
/// number.
fn judged_first(
    given: &Given,
    states: &mut [u8],
    blocks: &mut [u8],
    first: impl Fn(u64) -> bool,
) -> Answer {
    let answer = right(given, states, blocks);
    let judged = oracle::judge(given.left, given.right, given.certificate);
    if answer[0] == 2 && first(judged[0]) {
        judged
    } else {
        answer
    }
}

/// The entries of the first output that a success has written.
fn entries(answer: Answer, states: &mut [u8]) -> impl Iterator<Item = &mut [u8]> {
    let count = if answer[0] == 0 { answer[2] } else { 0 };
    states.chunks_exact_mut(3).take(count as usize)
}

/// The follower by habits is right where its habits are.
#[test]
fn right_habits_are_no_difference() {
    assert!(!differs(
        |given, states, blocks| RIGHT.call(given, states, blocks)
    ));
    assert_eq!(not_matched(right), None);
}

#[test]
fn wrong_habits_are_found() {
    for (name, habits) in unmatched().into_iter().chain(matched()) {
        let found = differs(|given, states, blocks| habits.call(given, states, blocks));
        assert!(found, "{name}");
    }
}

#[test]
fn wrong_calls_are_found() {
    for (name, call) in CALLS.into_iter().chain(KEYS) {
        assert!(differs(call), "{name}");
    }
}

/// Demand 3 alone, without the oracle's follower.
#[test]
fn paths_that_do_not_match_are_found() {
    let found =
        |habits: Habits| not_matched(|given, states, blocks| habits.call(given, states, blocks));
    for (name, habits) in unmatched() {
        assert!(found(habits).is_some(), "{name}");
    }
    for (name, habits) in matched() {
        assert_eq!(found(habits), None, "{name}");
    }
    for (name, call) in &CALLS[..2] {
        assert!(not_matched(call).is_some(), "{name}");
    }
}
