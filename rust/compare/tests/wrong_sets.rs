//! Makers by sets that are wrong in one thing each: the comparison finds every one of them.

use compare::is_found;
use oracle::{Side, Step};

/// How a maker grows the set of states at which a step from s to u is matched.
struct Habits {
    /// The step whose set is grown for the step of this number.
    step: fn(usize) -> usize,
    /// A step leads into the states related to u, from the key of the duty and its own.
    last: fn(u8, u8) -> bool,
    /// A step leads into the set, from the same keys.
    inside: fn(u8, u8) -> bool,
    /// Between which states such a step leads.
    ends: fn(&Step) -> (usize, usize),
    /// The first set, from the states that lead into those related to u and those related to s.
    first: fn(u64, u64) -> u64,
    /// The states to which a round looks for steps, from those that came in last.
    looked_at: fn(u64) -> u64,
    /// The states that come in, from those that lead to these, those related to s and the set.
    fresh: fn(u64, u64, u64) -> u64,
    /// The length of the states that come in with the round of this number.
    length: fn(usize) -> usize,
    /// The set is done with the round of this number, from the states that came in with it and
    /// the number of all states.
    is_done: fn(usize, u64, usize) -> bool,
}

const RIGHT: Habits = Habits {
    step: |j| j,
    last: |duty, step| duty == step,
    inside: |_, step| step == 0,
    ends: |step| (step.from, step.to),
    first: |leading, related| leading & related,
    looked_at: |fresh| fresh,
    fresh: |leading, related, set| leading & related & !set,
    length: |k| k,
    is_done: |_, _, _| false,
};

impl Habits {
    fn lengths(&self, side: &Side) -> Vec<Vec<Option<usize>>> {
        let steps = &side.own.steps;
        let lengths = |j| self.grown(side, steps[(self.step)(j)]);
        (0..steps.len()).map(lengths).collect()
    }

    fn grown(&self, side: &Side, duty: Step) -> Vec<Option<usize>> {
        let states = side.other.states();
        let has = |word: u64, t: usize| word >> t & 1 == 1;
        let word = |s: usize| {
            let related = (0..states).filter(|&t| side.related[s][t]);
            related.fold(0, |word, t| word | 1 << t)
        };
        let leading = |into: u64, serves: fn(u8, u8) -> bool, ends: fn(&Step) -> _| {
            let steps = side.other.steps.iter();
            let ends = steps.filter(|step| serves(duty.key, step.key)).map(ends);
            let froms = ends.filter(|&(_, to)| has(into, to)).map(|(from, _)| from);
            froms.fold(0, |word: u64, from: usize| word | 1 << from)
        };
        let related = word(duty.from);
        let mut lengths = vec![None; states];
        let mut fresh = (self.first)(leading(word(duty.to), self.last, RIGHT.ends), related);
        let (mut set, mut k) = (0, 0);
        while fresh & !set != 0 {
            for t in (0..states).filter(|&t| has(fresh, t)) {
                lengths[t] = Some((self.length)(k));
            }
            if (self.is_done)(k, fresh, states) {
                break;
            }
            set |= fresh;
            k += 1;
            let leading = leading((self.looked_at)(fresh), self.inside, self.ends);
            fresh = (self.fresh)(leading, related, set);
        }
        lengths
    }
}

/// The right habits but for one change, and what this is called.
type Wrong = (&'static str, fn(&mut Habits));

const WRONG: [Wrong; 19] = [
    ("the set of step 0 for all", |habits| habits.step = |_| 0),
    ("the set of the step before", |habits| {
        habits.step = |j| j.saturating_sub(1)
    }),
    ("a first set without the key", |habits| {
        habits.last = |_, _| true
    }),
    ("a first set by silent steps", |habits| {
        habits.last = |_, step| step == 0
    }),
    ("a first set by silent steps too", |habits| {
        habits.last = |duty, step| step == 0 || duty == step
    }),
    ("a first set with unrelated states", |habits| {
        habits.first = |leading, _| leading
    }),
    ("rounds over steps with any key", |habits| {
        habits.inside = |_, _| true
    }),
    ("rounds over steps with the duty's key", |habits| {
        habits.inside = |duty, step| duty == step
    }),
    ("rounds over steps ahead", |habits| {
        habits.ends = |step| (step.to, step.from)
    }),
    ("a round that adds unrelated states", |habits| {
        habits.fresh = |leading, _, set| leading & !set
    }),
    (
        "a round that puts its number at states of the set",
        |habits| habits.fresh = |leading, related, _| leading & related,
    ),
    (
        "a round that looks at the first state that came in",
        |habits| habits.looked_at = |fresh| fresh & fresh.wrapping_neg(),
    ),
    ("a word of 32 bits", |habits| {
        habits.looked_at = |fresh| fresh & 0xffff_ffff
    }),
    ("a word without its highest bit", |habits| {
        habits.looked_at = |fresh| fresh & u64::MAX >> 1
    }),
    ("lengths of the round after", |habits| {
        habits.length = |k| k + 1
    }),
    (
        "lengths of the round after, but for the first set",
        |habits| habits.length = |k| if k == 0 { 0 } else { k + 1 },
    ),
    ("the first set alone", |habits| {
        habits.is_done = |_, _, _| true
    }),
    ("one round too few", |habits| {
        habits.is_done = |k, _, states| k + 2 >= states
    }),
    ("done after a round that adds one state", |habits| {
        habits.is_done = |k, fresh, _| k > 0 && fresh.count_ones() == 1
    }),
];

fn maker_differs(habits: Habits) -> bool {
    is_found(&["the maker differs"], || {
        compare::make(10_000, 85, |left, right, relation, output| {
            oracle::make_by(&|side| habits.lengths(side), left, right, relation, output)
        });
    })
}

/// The maker by habits is right where its habits are.
#[test]
fn right_habits_are_no_difference() {
    assert!(!maker_differs(RIGHT));
}

#[test]
fn a_wrong_maker_by_sets_is_found() {
    for (name, change) in WRONG {
        let mut habits = RIGHT;
        change(&mut habits);
        assert!(maker_differs(habits), "{name}");
    }
}
