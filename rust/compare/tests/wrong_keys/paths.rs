//! Wrong about the keys of the path property. It is decided here once more, by its own words:
//! every path of a few steps is given, and every path and every cut of both is tried.

use inputs::{relation_bytes, table_bytes, Random};
use oracle::{Form, Step, Table};

/// What the path property asks for.
#[derive(Clone, Copy)]
struct Habits {
    /// A step with this key stands inside a block of the path given, and of the other one.
    inside: [fn(u8) -> bool; 2],
    /// Steps with these keys enter same-numbered blocks.
    enter: fn(u8, u8) -> bool,
    /// A state is a dead end, from its steps.
    dead_end: [fn(&[Step]) -> bool; 2],
}

const RIGHT: Habits = Habits {
    // "steps inside blocks are silent"
    inside: [|key| key == 0, |key| key == 0],
    // "the steps that enter same-numbered blocks have equal keys"
    enter: |given, other| given == other,
    // "A dead end is a state with no step from it."
    dead_end: [|steps| steps.is_empty(), |steps| steps.is_empty()],
};

/// How many steps a path has that is given. All that fails in tables of two states fails with
/// fewer.
const MOST_STEPS: usize = 5;

struct System {
    tables: [Table; 2],
    related: Vec<Vec<bool>>,
}

/// One direction: the paths of one table, to be matched on the other.
struct Side<'a> {
    habits: Habits,
    system: &'a System,
    number: usize,
}

impl Habits {
    /// Has this system, whose marks are equal and whose one start a side is state 0, the path
    /// property as far as paths of `MOST_STEPS` steps tell?
    fn hold(&self, system: &System) -> bool {
        let sides = [0, 1].map(|number| Side {
            habits: *self,
            system,
            number,
        });
        system.related[0][0] && sides.iter().all(Side::every_path_is_matched)
    }
}

impl Side<'_> {
    fn own(&self) -> &Table {
        &self.system.tables[self.number]
    }

    fn other(&self) -> &Table {
        &self.system.tables[1 - self.number]
    }

    fn related(&self, own: usize, other: usize) -> bool {
        let (s, t) = [(own, other), (other, own)][self.number];
        self.system.related[s][t]
    }

    fn every_path_is_matched(&self) -> bool {
        let states = 0..self.own().states();
        states.into_iter().all(|s| {
            let mut others = 0..self.other().states();
            let paths = paths(self.own(), s, MOST_STEPS);
            others.all(|t| {
                !self.related(s, t) || paths.iter().all(|path| self.is_matched(s, path, t))
            })
        })
    }

    /// Both paths begin a block here: the one given, which goes on by these steps, with the
    /// state `own`, and the other one with the state `other`.
    fn is_matched(&self, own: usize, steps: &[Step], other: usize) -> bool {
        let [inside, other_inside] = self.habits.inside;
        let longest = self.own().states() - 1;
        let within = steps.iter().take_while(|step| inside(step.key)).count();
        for length in 0..=within.min(longest) {
            let (block, rest) = steps.split_at(length);
            for other_block in paths(self.other(), other, self.other().states() - 1) {
                if !other_block.iter().all(|step| other_inside(step.key)) {
                    continue;
                }
                let own_states = || states(own, block);
                let mut others = states(other, &other_block);
                let all_related = others.all(|t| own_states().all(|s| self.related(s, t)));
                let own_last = own_states().last().expect("a block is not empty");
                let other_last = states(other, &other_block).last();
                let other_last = other_last.expect("a block is not empty");
                if all_related && self.goes_on(own_last, rest, other_last) {
                    return true;
                }
            }
        }
        false
    }

    /// Both paths end here, or both enter their next blocks.
    fn goes_on(&self, own: usize, rest: &[Step], other: usize) -> bool {
        let Some((step, rest)) = rest.split_first() else {
            let [given, matching] = self.habits.dead_end;
            return !given(&from(self.own(), own)) || matching(&from(self.other(), other));
        };
        let enter = |other: &Step| (self.habits.enter)(step.key, other.key);
        let mut entering = from(self.other(), other).into_iter().filter(enter);
        entering.any(|entered| self.is_matched(step.to, rest, entered.to))
    }
}

/// The steps from a state.
fn from(table: &Table, state: usize) -> Vec<Step> {
    let steps = table.steps.iter().copied();
    steps.filter(|step| step.from == state).collect()
}

/// The steps of every path from this state with at most so many.
fn paths(table: &Table, state: usize, most: usize) -> Vec<Vec<Step>> {
    let mut paths = vec![vec![]];
    if most > 0 {
        for step in from(table, state) {
            let further = self::paths(table, step.to, most - 1).into_iter();
            paths.extend(further.map(|path| [&[step], &path[..]].concat()));
        }
    }
    paths
}

/// The states of a block that begins with this one.
fn states(first: usize, steps: &[Step]) -> impl Iterator<Item = usize> + '_ {
    [first].into_iter().chain(steps.iter().map(|step| step.to))
}

/// Systems of one or two states a side, with the keys 0 and 1, or with 0, 1 and 2 where there
/// are fewer steps to choose.
fn systems() -> impl Iterator<Item = System> {
    let mut random = Random::new(7);
    (0..6_000).map(move |_| {
        let percent = random.pick(&[15, 30, 45]);
        let mut table = || {
            let states = random.within(1, 2);
            let keys = if states == 1 { 3 } else { 2 };
            let mut steps = Vec::new();
            for from in 0..states {
                for to in 0..states {
                    let chosen = (0..keys).filter(|_| random.percent(percent));
                    let chosen: Vec<u8> = chosen.collect();
                    steps.extend(chosen.into_iter().map(|key| Step { from, to, key }));
                }
            }
            Table {
                form: Form::TPK,
                starts: vec![0],
                marks: vec![0; states],
                steps,
            }
        };
        let tables = [table(), table()];
        let row = |random: &mut Random| {
            let states = 0..tables[1].states();
            states.map(|_| random.percent(70)).collect()
        };
        let related = (0..tables[0].states()).map(|_| row(&mut random)).collect();
        System { tables, related }
    })
}

/// How many systems have the path property by these habits and by the oracle's search, by the
/// first alone, by the second alone, and by neither.
fn counts(habits: Habits) -> [usize; 4] {
    let mut counts = [0; 4];
    for system in systems() {
        let [left, right] = system.tables.each_ref().map(table_bytes);
        let holds = oracle::path_property(&left, &right, &relation_bytes(&system.related));
        let place = match (habits.hold(&system), holds) {
            (true, true) => 0,
            (true, false) => 1,
            (false, true) => 2,
            (false, false) => 3,
        };
        counts[place] += 1;
    }
    counts
}

#[test]
fn the_path_property_is_that_of_the_words() {
    let [both, first, second, neither] = counts(RIGHT);
    assert_eq!([first, second], [0, 0]);
    assert!(both > 500 && neither > 500, "{both} {neither}");
}

/// A path property, by what is wrong with it, and whether it asks for too much.
type Wrong = (&'static str, fn(&mut Habits), bool);

const WRONG: [Wrong; 7] = [
    (
        "steps with keys inside blocks",
        |habits| habits.inside = [|_| true; 2],
        false,
    ),
    (
        "steps with keys inside blocks of the path given",
        |habits| habits.inside[0] = |_| true,
        false,
    ),
    (
        "steps with keys inside blocks of the other path",
        |habits| habits.inside[1] = |_| true,
        false,
    ),
    (
        "no step inside a block",
        |habits| habits.inside = [|_| false; 2],
        true,
    ),
    (
        "any keys enter same-numbered blocks",
        |habits| habits.enter = |_, _| true,
        false,
    ),
    (
        "a silent step enters with any key",
        |habits| habits.enter = |given, other| given == other || other == 0,
        false,
    ),
    (
        "the path given is at a dead end where it has no silent step",
        |habits| habits.dead_end[0] = no_silent_step,
        true,
    ),
];

fn no_silent_step(steps: &[Step]) -> bool {
    steps.iter().all(|step| step.key != 0)
}

#[test]
fn a_wrong_path_property_is_found() {
    for (name, change, asks_too_much) in WRONG {
        let mut habits = RIGHT;
        change(&mut habits);
        let [_, first, second, _] = counts(habits);
        let found = if asks_too_much { second } else { first };
        assert!(found > 0, "{name}: {first} {second}");
    }
}

/// A path property that took a state without a silent step for a dead end would be the same.
/// Where the path given ends in such a state, the silent steps of each state related to it
/// stay with it, which they can do only so often; so they come to a state without one. And
/// where it ends in a true dead end, a step with a key from there would have to be matched.
#[test]
fn dead_ends_without_a_silent_step_make_no_difference() {
    let [true_dead_end, _] = RIGHT.dead_end;
    let without: fn(&[Step]) -> bool = no_silent_step;
    for dead_end in [[without, without], [true_dead_end, without]] {
        let [_, first, second, _] = counts(Habits { dead_end, ..RIGHT });
        assert_eq!([first, second], [0, 0]);
    }
}
