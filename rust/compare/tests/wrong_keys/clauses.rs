//! Wrong about the keys of a clause, of a matched list or of a chain.

use compare::is_found;
use oracle::{read_table, Answer, Layout, Step, Table};

/// How a judge and a maker go about keys. Most of these say whether a step with a key serves,
/// from the key of the duty and that of the step.
#[derive(Clone, Copy)]
struct Habits {
    /// A step answers in 2a.
    answers: fn(u8, u8) -> bool,
    /// 2b may hold of a duty with this key.
    pauses: fn(u8) -> bool,
    /// 2c takes a step.
    waits: fn(u8, u8) -> bool,
    /// 2c asks that u, t are unrelated or the key is not 0.
    waits_only_where_none_pauses: bool,
    /// What 18 asks of u, t and the key, from whether u, t are related.
    hopeless: fn(bool, u8) -> bool,
    /// 18 looks at a step.
    stays: fn(u8, u8) -> bool,
    /// A step stands inside a matched list.
    inside: fn(u8, u8) -> bool,
    /// A step is the last of a matched list.
    last: fn(u8, u8) -> bool,
    /// What 22 asks of u, t and the key, from whether u, t are related.
    lost: fn(bool, u8) -> bool,
    /// A step with this key stands in a chain, from whether it is matched.
    chained: fn(u8, bool) -> bool,
}

const RIGHT: Habits = Habits {
    answers: |duty, step| duty == step,
    pauses: |duty| duty == 0,
    waits: |_, step| step == 0,
    waits_only_where_none_pauses: false,
    hopeless: |related, duty| !related || duty != 0,
    stays: |_, step| step == 0,
    inside: |_, step| step == 0,
    last: |duty, step| duty == step,
    lost: |related, duty| !related || duty != 0,
    chained: |step, matched| step == 0 && !matched,
};

/// One side of two tables and their relation.
struct Side<'a> {
    own: &'a Table,
    other: &'a Table,
    /// `related[own state][other state]`
    related: Vec<Vec<bool>>,
}

impl Side<'_> {
    fn steps_from(&self, s: usize) -> impl Iterator<Item = (usize, Step)> + '_ {
        let steps = self.own.steps.iter().copied().enumerate();
        steps.filter(move |(_, step)| step.from == s)
    }

    fn other_steps_from(&self, t: usize) -> impl Iterator<Item = Step> + '_ {
        let steps = self.other.steps.iter().copied();
        steps.filter(move |step| step.from == t)
    }
}

/// Both sides, from rows of eight bytes.
fn sides<'a>(left: &'a Table, right: &'a Table, rows: &[u8]) -> [Side<'a>; 2] {
    let related = |s: usize, t: usize| rows[8 * s + 7 - t / 8] >> (t % 8) & 1 == 1;
    let (n1, n2) = (left.states(), right.states());
    [
        Side {
            own: left,
            other: right,
            related: (0..n1)
                .map(|s| (0..n2).map(|t| related(s, t)).collect())
                .collect(),
        },
        Side {
            own: right,
            other: left,
            related: (0..n2)
                .map(|t| (0..n1).map(|s| related(s, t)).collect())
                .collect(),
        },
    ]
}

/// The pairs and their steps in judging order: `look` is given the side, the own state, the
/// other state, the step's number and the step, and gives a number to refuse with.
fn in_judging_order(
    sides: &[Side; 2],
    mut look: impl FnMut(usize, usize, usize, usize, Step) -> Option<u64>,
) -> Option<Answer> {
    let (left, right) = (sides[0].own, sides[1].own);
    for s in 0..left.states() {
        for t in (0..right.states()).filter(|&t| sides[0].related[s][t]) {
            if left.marks[s] != right.marks[t] {
                return Some([17, 2, s as u64, t as u64, 0, 0]);
            }
            for (side, own, other) in [(0, s, t), (1, t, s)] {
                for (j, step) in sides[side].steps_from(own) {
                    if let Some(code) = look(side, own, other, j, step) {
                        let numbers = [side, s, t, j].map(|number| number as u64);
                        let [side, s, t, j] = numbers;
                        return Some([code, 2, side, s, t, j]);
                    }
                }
            }
        }
    }
    None
}

impl Habits {
    /// The answer of a judge, whose refusals before 17 are right.
    fn judge(&self, left: &[u8], right: &[u8], certificate: &[u8]) -> Answer {
        let answer = oracle::tuned::judge(left, right, certificate);
        if !matches!(answer[0], 0 | 17 | 18 | 19) {
            return answer;
        }
        let left = read_table(left, 0).expect("the left table is well formed");
        let right = read_table(right, 1).expect("the right table is well formed");
        let layout = Layout::new(&left, &right);
        let sides = sides(&left, &right, &certificate[11..]);
        let mut met = [0; 3];
        let refusal = in_judging_order(&sides, |side, s, t, j, step| {
            let a_rank = |own| certificate[[Layout::al, Layout::ar][side](&layout, own, t)];
            let c_rank = |other| certificate[[Layout::cl, Layout::cr][side](&layout, j, other)];
            match self.outcome(&sides[side], s, t, step, a_rank, c_rank) {
                Ok(clause) => {
                    met[clause] += 1;
                    None
                }
                Err(code) => Some(code),
            }
        });
        let pairs = sides[0].related.iter().flatten();
        let pairs = pairs.filter(|&&related| related).count() as u64;
        refusal.unwrap_or([0, 0, pairs, met[0], met[1], met[2]])
    }

    fn outcome(
        &self,
        side: &Side,
        s: usize,
        t: usize,
        duty: Step,
        a_rank: impl Fn(usize) -> u8,
        c_rank: impl Fn(usize) -> u8,
    ) -> Result<usize, u64> {
        let u = duty.to;
        let u_t_related = side.related[u][t];
        let mut steps = side.other_steps_from(t);
        if steps.any(|step| (self.answers)(duty.key, step.key) && side.related[u][step.to]) {
            return Ok(0);
        }
        if (self.pauses)(duty.key) && u_t_related && a_rank(u) < a_rank(s) {
            return Ok(1);
        }
        let mut steps = side.other_steps_from(t);
        let may_wait = !(self.waits_only_where_none_pauses && u_t_related && duty.key == 0);
        let waits = steps.any(|step| {
            let taken = (self.waits)(duty.key, step.key) && side.related[s][step.to];
            taken && c_rank(step.to) < c_rank(t)
        });
        if may_wait && waits {
            return Ok(2);
        }
        let mut steps = side.other_steps_from(t);
        let stays = steps.any(|step| (self.stays)(duty.key, step.key) && side.related[s][step.to]);
        if (self.hopeless)(u_t_related, duty.key) && !stays {
            Err(18)
        } else {
            Err(19)
        }
    }

    /// The answer of a maker, whose refusals before 17 are right, and what it writes.
    fn make(&self, left: &[u8], right: &[u8], relation: &[u8], output: &mut [u8]) -> Answer {
        let mut right_output = output.to_vec();
        let answer = oracle::tuned_maker::make(left, right, relation, &mut right_output);
        if !matches!(answer[0], 0 | 17 | 22 | 23) {
            return answer;
        }
        let left = read_table(left, 0).expect("the left table is well formed");
        let right = read_table(right, 1).expect("the right table is well formed");
        let layout = Layout::new(&left, &right);
        let sides = sides(&left, &right, relation);
        let chases = [0, 1].map(|side| self.chases(&sides[side]));
        let refusal = in_judging_order(&sides, |side, _, t, j, step| {
            let u_t_related = sides[side].related[step.to][t];
            let unmatched = chases[side][j][t].is_none();
            (unmatched && (self.lost)(u_t_related, step.key)).then_some(22)
        });
        if let Some(refusal) = refusal {
            return refusal;
        }
        let chains = [0, 1].map(|side| self.chains(&sides[side], &chases[side]));
        for (side, chains) in chains.iter().enumerate() {
            let states = sides[side].own.states();
            for (t, lengths) in chains.iter().enumerate() {
                if let Some(s) = lengths.iter().position(|&length| length == states) {
                    return [23, 2, side as u64, t as u64, s as u64, 0];
                }
            }
        }
        let file = &mut output[..layout.length()];
        file.fill(0);
        file[..11].copy_from_slice(&layout.header());
        file[11..11 + relation.len()].copy_from_slice(relation);
        let a_places = [Layout::al, Layout::ar];
        let c_places = [Layout::cl, Layout::cr];
        for side in [0, 1] {
            for (t, lengths) in chains[side].iter().enumerate() {
                for (s, &length) in lengths.iter().enumerate() {
                    file[a_places[side](&layout, s, t)] = length as u8;
                }
            }
            for (j, lengths) in chases[side].iter().enumerate() {
                for (t, &length) in lengths.iter().enumerate() {
                    file[c_places[side](&layout, j, t)] = length.unwrap_or(0) as u8;
                }
            }
        }
        [0, 0, layout.length() as u64, 0, 0, 0]
    }

    /// The chase length of each own step at each other state: `[j][t]`.
    fn chases(&self, side: &Side) -> Vec<Vec<Option<usize>>> {
        let states = side.other.states();
        let chase = |duty: &Step| {
            let related_to_s = &side.related[duty.from];
            let mut lengths = vec![None; states];
            for step in &side.other.steps {
                let ends = related_to_s[step.from] && side.related[duty.to][step.to];
                if ends && (self.last)(duty.key, step.key) {
                    lengths[step.from] = Some(0);
                }
            }
            for length in 1..states {
                let before = lengths.clone();
                for step in &side.other.steps {
                    let further = related_to_s[step.from] && lengths[step.from].is_none();
                    let nearer = before[step.to] == Some(length - 1);
                    if further && nearer && (self.inside)(duty.key, step.key) {
                        lengths[step.from] = Some(length);
                    }
                }
            }
            lengths
        };
        side.own.steps.iter().map(chase).collect()
    }

    /// The longest chain at each other state from each own state: `[t][s]`.
    fn chains(&self, side: &Side, chases: &[Vec<Option<usize>>]) -> Vec<Vec<usize>> {
        let states = side.own.states();
        let at = |t: usize| {
            let mut lengths = vec![0; states];
            for _ in 0..states {
                let shorter = std::mem::replace(&mut lengths, vec![0; states]);
                for (j, step) in side.own.steps.iter().enumerate() {
                    let inside = side.related[step.from][t] && side.related[step.to][t];
                    if inside && (self.chained)(step.key, chases[j][t].is_some()) {
                        lengths[step.from] = lengths[step.from].max(1 + shorter[step.to]);
                    }
                }
            }
            lengths
        };
        (0..side.other.states()).map(at).collect()
    }
}

/// The right habits but for one change, and what this is called.
type Wrong = (&'static str, fn(&mut Habits));

const WRONG_JUDGES: [Wrong; 17] = [
    ("2a without the key", |habits| habits.answers = |_, _| true),
    ("2a by a silent step too", |habits| {
        habits.answers = |duty, step| step == duty || step == 0
    }),
    ("2a by a step with any key", |habits| {
        habits.answers = |duty, step| (duty == 0) == (step == 0)
    }),
    ("2a by a key of 7 bits", |habits| {
        habits.answers = |duty, step| duty % 128 == step % 128
    }),
    ("2b on a step with a key", |habits| habits.pauses = |_| true),
    ("2b on a step with key 1", |habits| {
        habits.pauses = |duty| duty <= 1
    }),
    ("2b never", |habits| habits.pauses = |_| false),
    ("2c by a step with a key", |habits| {
        habits.waits = |_, _| true
    }),
    ("2c by a step with the duty's key", |habits| {
        habits.waits = |duty, step| duty == step
    }),
    ("2c by a step with the duty's key too", |habits| {
        habits.waits = |duty, step| step == 0 || duty == step
    }),
    ("2c of a silent duty alone", |habits| {
        habits.waits = |duty, step| duty == 0 && step == 0
    }),
    ("2c asks something of u, t", |habits| {
        habits.waits_only_where_none_pauses = true
    }),
    ("18 looks at all steps", |habits| habits.stays = |_, _| true),
    ("18 looks at steps with the duty's key", |habits| {
        habits.stays = |duty, step| duty == step
    }),
    ("18 looks at no step", |habits| habits.stays = |_, _| false),
    ("18 without 'or the key not 0'", |habits| {
        habits.hopeless = |related, _| !related
    }),
    ("18 asks for u, t unrelated and a key", |habits| {
        habits.hopeless = |related, duty| !related && duty != 0
    }),
];

const WRONG_MAKERS: [Wrong; 12] = [
    ("a matched list with keys inside", |habits| {
        habits.inside = |_, _| true
    }),
    ("a matched list with the duty's key inside", |habits| {
        habits.inside = |duty, step| duty == step
    }),
    ("a matched list with the duty's key inside too", |habits| {
        habits.inside = |duty, step| step == 0 || duty == step
    }),
    ("no matched list of more than one state", |habits| {
        habits.inside = |_, _| false
    }),
    ("a last step of any key", |habits| habits.last = |_, _| true),
    ("a silent last step", |habits| {
        habits.last = |_, step| step == 0
    }),
    ("a silent last step too", |habits| {
        habits.last = |duty, step| step == 0 || duty == step
    }),
    ("22 without 'or the key not 0'", |habits| {
        habits.lost = |related, _| !related
    }),
    ("22 asks for u, t unrelated and a key", |habits| {
        habits.lost = |related, duty| !related && duty != 0
    }),
    ("chains through steps with keys", |habits| {
        habits.chained = |step, matched| step != 0 || !matched
    }),
    ("chains of steps with keys alone", |habits| {
        habits.chained = |step, matched| step != 0 && !matched
    }),
    ("chains through silent steps that are matched", |habits| {
        habits.chained = |step, _| step == 0
    }),
];

fn judge_differs(habits: Habits) -> bool {
    is_found(&["the judge differs"], || {
        compare::judge(20_000, 73, |left, right, certificate| {
            habits.judge(left, right, certificate)
        });
    })
}

fn maker_differs(habits: Habits) -> bool {
    is_found(&["the maker differs"], || {
        compare::make(10_000, 74, |left, right, relation, output| {
            habits.make(left, right, relation, output)
        });
    })
}

fn with(change: fn(&mut Habits)) -> Habits {
    let mut habits = RIGHT;
    change(&mut habits);
    habits
}

/// The judge and the maker by habits are right where their habits are.
#[test]
fn right_habits_are_no_difference() {
    assert!(!judge_differs(RIGHT));
    assert!(!maker_differs(RIGHT));
}

#[test]
fn a_wrong_judge_of_keys_is_found() {
    for (name, change) in WRONG_JUDGES {
        assert!(judge_differs(with(change)), "{name}");
    }
}

#[test]
fn a_wrong_maker_of_keys_is_found() {
    for (name, change) in WRONG_MAKERS {
        assert!(maker_differs(with(change)), "{name}");
    }
}

/// "chains are of silent steps". A step with a key that is unmatched is refused with 22, so
/// it makes no difference whether a chain takes those that are unmatched.
#[test]
fn unmatched_steps_with_keys_are_in_no_chain() {
    let mut habits = RIGHT;
    habits.chained = |_, matched| !matched;
    assert!(!maker_differs(habits));
}
