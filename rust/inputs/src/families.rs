//! Families of systems. Many of them have the path property, and a good part of
//! the rest fails to have it only just.

use crate::keys::{any_keys, pick_key, NO_KEYS};
use crate::marks::renumber_marks;
use crate::random::Random;
use crate::split::{relate_copies, split, SplitInto};
use crate::starts::add_some_starts;
use crate::system::{save_in, Forms, System, VERSIONS};
use oracle::{Form, Kind, Step, Table};

/// A system from one of the families, its tables of these forms.
pub fn any_system(random: &mut Random, forms: Forms) -> System {
    match forms {
        Forms::Tpt(versions) => {
            let system = any_family(random, NO_KEYS);
            in_some_form(random, system, some_version(versions))
        }
        Forms::Tpk => {
            let keys = any_keys(random);
            let system = any_family(random, &keys);
            in_some_form(random, system, |_| Form::TPK)
        }
        Forms::All => match random.below(20) {
            0..=8 => any_system(random, Forms::Tpt(VERSIONS)),
            9..=17 => any_system(random, Forms::Tpk),
            _ => of_two_kinds(random),
        },
    }
}

/// A system from one of the families, the steps of which have keys of these.
fn any_family(random: &mut Random, keys: &[u8]) -> System {
    match random.below(100) {
        0..=9 => random_system(random, keys),
        10..=34 => pruned_system(random, keys),
        35..=59 => thinned_system(random, keys),
        // Without keys these are for the listing and the follower, which look at choices.
        60..=64 if keys.len() > 1 => layered_system(random, keys),
        60..=88 => split_system(random, keys),
        89..=92 => cycles(random, keys),
        93..=95 => long_system(random, keys),
        96..=97 => round_trip(random, keys),
        98 => stepless_system(random),
        _ if random.percent(25) => all_related_under(four(keys)),
        _ => full_system(random, keys),
    }
}

/// Rings with a choice of clauses, each table without keys in one of these versions.
pub fn any_pruned_rings(random: &mut Random, versions: &[u16]) -> System {
    let system = pruned_rings(random);
    in_some_form(random, system, some_version(versions))
}

/// A layered system, its tables of this kind, without keys in any version.
pub fn any_layered_system(random: &mut Random, kind: Kind) -> System {
    match kind {
        Kind::Tpt => {
            let system = layered_system(random, NO_KEYS);
            in_some_form(random, system, some_version(VERSIONS))
        }
        Kind::Tpk => {
            let keys = any_keys(random);
            let system = layered_system(random, &keys);
            in_some_form(random, system, |_| Form::TPK)
        }
    }
}

/// The form of one of these versions.
fn some_version(versions: &[u16]) -> impl Fn(&mut Random) -> Form + '_ {
    |random| Form::tpt(random.pick(versions))
}

/// The system or the one with left and right exchanged, each table in such a form, with
/// several starts and with large marks where the form has them.
fn in_some_form(
    random: &mut Random,
    mut system: System,
    form: impl Fn(&mut Random) -> Form,
) -> System {
    if random.percent(50) {
        system = system.exchanged();
    }
    for table in [&mut system.left, &mut system.right] {
        save_in(table, form(random));
    }
    add_some_starts(random, &mut system);
    renumber_marks(random, &mut system);
    system
}

/// A system of which one table has keys and the other has none. Otherwise they may belong
/// together: mostly every key is 0.
fn of_two_kinds(random: &mut Random) -> System {
    // 9 is a cause of version 1 alone, and 5 of versions 1 and 2.
    let versions = Forms::Tpt(&[1, 1, 2, 3, 4]);
    let forms = random.pick(&[versions, versions, Forms::Tpk]);
    let mut system = any_system(random, forms);
    let one = if random.percent(50) {
        &mut system.left
    } else {
        &mut system.right
    };
    let form = match one.form.kind {
        Kind::Tpt => Form::TPK,
        Kind::Tpk => Form::tpt(random.pick(VERSIONS)),
    };
    save_in(one, form);
    system
}

/// Four of these keys, each as often as the others as far as this goes.
fn four(keys: &[u8]) -> [u8; 4] {
    [0, 1, 2, 3].map(|place| keys[place % keys.len()])
}

/// Random tables of at most six states, and a random relation. With keys they are often
/// smaller: the fewer duties there are, the more often the one that fails is a near miss.
pub fn random_system(random: &mut Random, keys: &[u8]) -> System {
    let most = if keys.len() > 1 && random.percent(70) {
        2
    } else {
        6
    };
    let left = random_table(random, most, keys);
    let right = random_table(random, most, keys);
    let density = random.pick(&[20, 50, 80, 100]);
    let mut related = relation(&left, &right, |_, _| random.percent(density));
    related[left.starts[0]][right.starts[0]] = true;
    System {
        left,
        right,
        related,
    }
}

/// Random tables, and what pruning leaves of a relation between equal marks. Where
/// it leaves nothing, other tables are tried.
pub fn pruned_system(random: &mut Random, keys: &[u8]) -> System {
    some_pruned(|| {
        let left = random_table(random, 5, keys);
        let right = random_table(random, 5, keys);
        let density = random.pick(&[70, 100, 100]);
        let related = relation(&left, &right, |s, t| {
            left.marks[s] == right.marks[t] && random.percent(density)
        });
        System {
            left,
            right,
            related,
        }
    })
}

/// Two small rings, and what pruning leaves of a random relation. Where a state and the
/// next one are both related to a state, but not to the next one there, 2b and 2c may
/// hold of the same step.
pub fn pruned_rings(random: &mut Random) -> System {
    some_pruned(|| {
        let (mut left, mut right) = (ring(random.within(2, 6)), ring(random.within(2, 6)));
        random.shuffle(&mut left.steps);
        random.shuffle(&mut right.steps);
        let density = random.pick(&[50, 70, 85]);
        let related = relation(&left, &right, |_, _| random.percent(density));
        System {
            left,
            right,
            related,
        }
    })
}

/// A split system, and what pruning leaves when some pairs have been taken out.
pub fn thinned_system(random: &mut Random, keys: &[u8]) -> System {
    some_pruned(|| {
        let mut system = split_system(random, keys);
        for row in &mut system.related {
            for pair in row {
                *pair &= random.percent(85);
            }
        }
        system
    })
}

/// Of the systems that are made, what pruning leaves of the first that keeps a pair.
fn some_pruned(mut make: impl FnMut() -> System) -> System {
    loop {
        let system = prune(make());
        if !system.pairs().is_empty() {
            return system;
        }
    }
}

/// Takes out each pair at which the maker refuses, until it succeeds or no pair is
/// left. Where the starts go, they are moved to a pair that is still there. Tables whose
/// steps have keys are pruned as such tables.
fn prune(mut system: System) -> System {
    let has_keys = |table: &Table| table.steps.iter().any(|step| !step.is_silent());
    if has_keys(&system.left) || has_keys(&system.right) {
        save_in(&mut system.left, Form::TPK);
        save_in(&mut system.right, Form::TPK);
    }
    loop {
        let ([code, _, a, b, c, _], _) = system.make();
        let (a, b, c) = (a as usize, b as usize, c as usize);
        match (code, a) {
            (17, _) => system.related[a][b] = false,
            (22, _) | (23, 1) => system.related[b][c] = false,
            (23, _) => system.related[c][b] = false,
            (16, _) => match system.pairs().first() {
                Some(&(s, t)) => {
                    system.left.starts = vec![s];
                    system.right.starts = vec![t];
                }
                None => return system,
            },
            _ => return system,
        }
    }
}

/// A small random table, each state of it split into stuttering copies, once for
/// the left and once for the right; copies of the same state are related.
pub fn split_system(random: &mut Random, keys: &[u8]) -> System {
    let small = random_table(random, 4, keys);
    let extra = random.pick(&[2, 4, 4, 9]);
    let left = split(random, &small, keys, SplitInto::few(extra));
    let right = split(random, &small, keys, SplitInto::few(extra));
    relate_copies(left, right)
}

/// Two cycles; states at the same place, counted in rounds of `round`, are related, and the
/// steps from them have the same key.
pub fn cycles(random: &mut Random, keys: &[u8]) -> System {
    let round = random.within(1, 8);
    let shift = random.below(round);
    let key_at: Vec<u8> = (0..round).map(|_| pick_key(random, keys)).collect();
    let mut cycle = |states: usize, first: usize| {
        let mut order: Vec<Step> = (0..states)
            .map(|from| Step {
                from,
                to: (from + 1) % states,
                key: key_at[(first + from) % round],
            })
            .collect();
        random.shuffle(&mut order);
        Table {
            form: Form::tpt(1),
            starts: vec![0],
            marks: (0..states).map(|s| (s % round) as u32 * 257).collect(),
            steps: order,
        }
    };
    let left = cycle(round * (64 / round), 0);
    let mut right = cycle(round, shift);
    right.starts = vec![(round - shift) % round];
    right.marks.rotate_right((round - shift) % round);
    let related = relation(&left, &right, |s, t| s % round == (t + shift) % round);
    System {
        left,
        right,
        related,
    }
}

/// Long chains and long cycles of copies: one side has 63 or 64 states, the other
/// few. The ranks become as high as they can.
pub fn long_system(random: &mut Random, keys: &[u8]) -> System {
    let steps: &[(usize, usize)] = random.pick(&[
        &[] as &[(usize, usize)],
        &[(0, 0)],
        &[(0, 1)],
        &[(0, 1), (1, 0)],
        &[(0, 1), (0, 0)],
    ]);
    let states = steps
        .iter()
        .map(|step| step.0.max(step.1))
        .max()
        .unwrap_or(0)
        + 1;
    let step = |&(from, to): &(usize, usize)| Step {
        from,
        to,
        key: pick_key(random, keys),
    };
    let small = Table {
        form: Form::tpt(1),
        starts: vec![0],
        marks: (0..states as u32).collect(),
        steps: steps.iter().map(step).collect(),
    };
    let long = SplitInto {
        states: (63, 64),
        straight: true,
        steps: (0, 0),
        spare_percent: 0,
    };
    let left = split(random, &small, keys, long);
    let right = split(random, &small, keys, SplitInto::few(2));
    relate_copies(left, right)
}

/// Chases with a choice. The right states but one, the goal, stand in layers. They step
/// ahead silently within their layer and to the next one, from the last layer to the goal
/// with a key. The left states but one are related to all of these and step with this key to
/// the last left state, which is related to the goal only. So at each state before the last
/// layer the steps to the next layer serve 2c, often several, and those within do not.
///
/// Where there is a second key, there are shortcuts with it. They serve nothing but the steps
/// with it from each left state to itself, which the last layer's states have too.
pub fn layered_system(random: &mut Random, keys: &[u8]) -> System {
    let key = pick_key(random, keys);
    let second = keys
        .iter()
        .copied()
        .find(|&second| second != key && second != 0);
    let width = random.within(2, 4);
    let goal = width * random.within(2, 63 / width);
    let mut steps = Vec::new();
    for from in 0..goal {
        let next_layer = (from / width + 1) * width;
        let sure = goal.min(next_layer + random.below(width));
        for to in from + 1..=goal.min(next_layer + width - 1) {
            if to == sure || random.percent(50) {
                let key = if to == goal { key } else { 0 };
                steps.push(Step { from, to, key });
            }
        }
        if let Some(key) = second {
            let ahead = (from + random.within(1, 2 * width)).min(goal - 1);
            if next_layer == goal {
                steps.push(Step {
                    from,
                    to: from,
                    key,
                });
            } else if random.percent(25) {
                steps.push(Step {
                    from,
                    to: ahead,
                    key,
                });
            }
        }
    }
    let right = renumbered(random, goal, steps);
    let last = random.within(1, 4);
    let mut steps: Vec<Step> = (0..last)
        .map(|from| Step {
            from,
            to: last,
            key,
        })
        .collect();
    if let Some(key) = second {
        steps.extend((0..last).map(|from| Step {
            from,
            to: from,
            key,
        }));
    }
    let left = renumbered(random, last, steps);
    let related = relation(&left, &right, |s, t| left.marks[s] == right.marks[t]);
    System {
        left,
        right,
        related,
    }
}

/// A table with these steps, its states and steps in any order. The last state has a
/// mark of its own, and another one is the start.
fn renumbered(random: &mut Random, last: usize, mut steps: Vec<Step>) -> Table {
    let mut numbers: Vec<usize> = (0..=last).collect();
    random.shuffle(&mut numbers);
    for step in &mut steps {
        (step.from, step.to) = (numbers[step.from], numbers[step.to]);
    }
    random.shuffle(&mut steps);
    let mut marks = vec![0; last + 1];
    marks[numbers[last]] = 0x0100;
    Table {
        form: Form::tpt(1),
        starts: vec![numbers[random.below(last)]],
        marks,
        steps,
    }
}

/// Two states that step to each other, and a cycle. The first state is related to
/// the whole cycle and the second to one state of it only, so that a step to the
/// second is chased all the way round: the highest chase rank there can be. The step to the
/// second state and that to the one state may have a key.
pub fn round_trip(random: &mut Random, keys: &[u8]) -> System {
    let states = random.pick(&[2, 3, 63, 64]);
    let (mut left, mut right) = (ring(2), ring(states));
    right.starts = vec![random.below(states)];
    let met = random.below(states);
    let key = pick_key(random, keys);
    left.steps[0].key = key;
    right.steps[(met + states - 1) % states].key = key;
    let related = relation(&left, &right, |s, t| s == 0 || t == met);
    System {
        left,
        right,
        related,
    }
}

/// States with one mark, each stepping to the next and the last to the first.
fn ring(states: usize) -> Table {
    let step = |from| Step {
        from,
        to: (from + 1) % states,
        key: 0,
    };
    Table {
        form: Form::tpt(1),
        starts: vec![0],
        marks: vec![0x0101; states],
        steps: (0..states).map(step).collect(),
    }
}

/// 63 or 64 states on both sides, and up to 255 or 256 steps.
pub fn full_system(random: &mut Random, keys: &[u8]) -> System {
    let small = random_table(random, 6, keys);
    let full = SplitInto {
        states: (63, 64),
        straight: false,
        steps: (255, 256),
        spare_percent: random.pick(&[0, 10, 50, 80]),
    };
    let left = split(random, &small, keys, full);
    let right = split(random, &small, keys, full);
    relate_copies(left, right)
}

/// 64 states with 4 steps each on both sides, one mark, and every pair related: the
/// longest certificate and the most duties, all of them met by 2a.
pub fn all_related() -> System {
    all_related_under([0; 4])
}

/// The same with keys, a quarter of the steps under each of four: from each state one.
pub fn all_related_with_keys() -> System {
    under_keys(all_related_under(FOUR_KEYS))
}

/// Each state has a step under each of these keys.
fn all_related_under(keys: [u8; 4]) -> System {
    let step = |j: usize| Step {
        from: j / 4,
        to: (j / 4 + j % 4 + 1) % 64,
        key: keys[j % 4],
    };
    let table = full_table((0..256).map(step).collect());
    System {
        left: table.clone(),
        right: table,
        related: vec![vec![true; 64]; 64],
    }
}

/// The keys of the fullest systems that have some.
const FOUR_KEYS: [u8; 4] = [0, 1, 2, 255];

/// The system with both tables as tables with keys.
fn under_keys(mut system: System) -> System {
    save_in(&mut system.left, Form::TPK);
    save_in(&mut system.right, Form::TPK);
    system
}

/// The fullest systems that have keys, 64 states and 256 steps a side.
pub fn fullest_with_keys() -> [System; 3] {
    [
        all_related_with_keys(),
        long_chains_with_keys(),
        long_distances_with_keys(),
    ]
}

/// 64 states with one mark and these steps.
fn full_table(steps: Vec<Step>) -> Table {
    Table {
        form: Form::tpt(1),
        starts: vec![0],
        marks: vec![0; 64],
        steps,
    }
}

/// The longest chains there can be, with 64 states and 256 steps on both sides. The
/// left states stand in a line with steps ahead only, each related to the right
/// states 0 to 59, which are dead ends; so every left step is unmatched at each of
/// them. The right steps leave the states 60 to 63, which are related to nothing.
pub fn long_chains() -> System {
    long_chains_under([0; 4])
}

/// The same with keys. A left step that has a key would have to be matched, so all are
/// silent; of the right ones a quarter is under each of four keys.
pub fn long_chains_with_keys() -> System {
    under_keys(long_chains_under(FOUR_KEYS))
}

fn long_chains_under(keys: [u8; 4]) -> System {
    let ahead = (1..64).flat_map(|by| {
        (by..64).map(move |to| Step {
            from: to - by,
            to,
            key: 0,
        })
    });
    let all_from = |from| {
        (0..64).map(move |to| Step {
            from,
            to,
            key: keys[to % 4],
        })
    };
    let left = full_table(ahead.take(256).collect());
    let right = full_table((60..64).flat_map(all_from).collect());
    let related = relation(&left, &right, |_, t| t < 60);
    System {
        left,
        right,
        related,
    }
}

/// The longest chases there can be, with 64 states and 256 steps on both sides. The
/// right states stand in a cycle, with further steps that only lead back. The left
/// states 0 to 31 are related to all of them and the others to the last one only,
/// so that a step from the first kind to the second is chased round the cycle. In
/// every version the steps of the cycle rise, so that relaxing over the steps in
/// their order settles one more state in a round, and a chased step takes 63 rounds.
pub fn long_distances() -> System {
    long_distances_under([0; 4])
}

/// The same with keys. The left steps that are chased, 160 of them, have four keys, and so
/// have the steps to the last right state, of which there is one under each; the steps of a
/// chase are silent.
pub fn long_distances_with_keys() -> System {
    under_keys(long_distances_under(FOUR_KEYS))
}

fn long_distances_under(keys: [u8; 4]) -> System {
    let silent = |from, to| Step { from, to, key: 0 };
    let steps_at = |i: usize| {
        let to_last = (0..5).map(move |k| Step {
            from: i,
            to: 32 + (i + k) % 32,
            key: keys[(i + k) % 4],
        });
        let next = (i + 1) % 32;
        let to_all = [(i, next), (32 + i, i), (32 + i, next)];
        to_last.chain(to_all.map(|(from, to)| silent(from, to)))
    };
    let cycle = (0..64).map(|from| silent(from, (from + 1) % 64));
    let further_keys = keys.into_iter().filter(|&key| key != 0);
    let to_last = further_keys.map(|key| Step {
        from: 62,
        to: 63,
        key,
    });
    let back = (1..63).flat_map(|by| (by..63).map(move |from| silent(from, from - by)));
    let left = full_table((0..32).flat_map(steps_at).collect());
    let right = full_table(cycle.chain(to_last).chain(back).take(256).collect());
    let related = relation(&left, &right, |s, t| s < 32 || t == 63);
    System {
        left,
        right,
        related,
    }
}

/// Two left states that step to each other, and a ring of 64 right states. The left
/// state 0 is related to all of them but the last one, and the left state 1 to this one
/// only. So each second step of the left path 0 1 0 1 .. is followed all the way round:
/// 256 states of it give 8,192.
pub fn long_waits() -> System {
    let (left, right) = (ring(2), ring(64));
    let related = relation(&left, &right, |s, t| (s == 1) == (t == 63));
    System {
        left,
        right,
        related,
    }
}

/// No step at all, and states with equal marks related.
pub fn stepless_system(random: &mut Random) -> System {
    let mut table = || {
        let states = random.pick(&[1, 2, 3, 63, 64]);
        Table {
            form: Form::tpt(1),
            starts: vec![random.below(states)],
            marks: vec![0x0100; states],
            steps: Vec::new(),
        }
    };
    let (left, right) = (table(), table());
    let related = relation(&left, &right, |_, _| true);
    System {
        left,
        right,
        related,
    }
}

/// A table of at most `most` states with few marks and random steps under these keys.
pub fn random_table(random: &mut Random, most: usize, keys: &[u8]) -> Table {
    let states = random.within(1, most);
    let marks_used = random.within(1, 3);
    let density = random.pick(&[10, 25, 40, 70]);
    let mut steps = Vec::new();
    for from in 0..states {
        for to in 0..states {
            for &key in keys {
                if random.percent(density) {
                    steps.push(Step { from, to, key });
                }
            }
        }
    }
    random.shuffle(&mut steps);
    Table {
        form: Form::tpt(1),
        starts: vec![random.below(states)],
        // Marks that differ in the high byte only, or in the low byte only.
        marks: (0..states)
            .map(|_| [0x0000, 0x0001, 0x0100][random.below(marks_used)])
            .collect(),
        steps,
    }
}

fn relation(
    left: &Table,
    right: &Table,
    mut related: impl FnMut(usize, usize) -> bool,
) -> Vec<Vec<bool>> {
    (0..left.states())
        .map(|s| (0..right.states()).map(|t| related(s, t)).collect())
        .collect()
}

#[cfg(test)]
mod tests {
    use super::*;

    /// These families have the path property before anything is changed.
    #[test]
    fn certificates_can_be_made() {
        let mut random = Random::new(1);
        let families: [(&str, fn(&mut Random, &[u8]) -> System); 10] = [
            ("pruned", pruned_system),
            ("pruned rings", |random, _| pruned_rings(random)),
            ("thinned", thinned_system),
            ("split", split_system),
            ("cycles", cycles),
            ("long", long_system),
            ("layered", layered_system),
            ("round trip", round_trip),
            ("full", full_system),
            ("stepless", |random, _| stepless_system(random)),
        ];
        for (name, family) in families {
            for i in 0..200 {
                let system = if i % 2 == 0 {
                    family(&mut random, NO_KEYS)
                } else {
                    let keys = any_keys(&mut random);
                    let system = family(&mut random, &keys);
                    in_some_form(&mut random, system, |_| Form::TPK)
                };
                let (answer, _) = system.make();
                assert_eq!(answer[0], 0, "{name}: {answer:?}");
            }
        }
    }

    /// 64 states and 256 steps a side, and the ranks that the names promise.
    #[test]
    fn the_fullest_systems_are_made() {
        for (system, ranks) in [
            (all_related(), [0, 0, 0, 0]),
            (long_chains(), [63, 0, 0, 0]),
            (long_distances(), [0, 0, 63, 0]),
            (all_related_with_keys(), [0, 0, 0, 0]),
            (long_chains_with_keys(), [63, 0, 0, 0]),
            (long_distances_with_keys(), [0, 0, 63, 0]),
        ] {
            let (layout, (answer, made)) = (system.layout(), system.make());
            assert_eq!(answer[..3], [0, 0, 41_483]);
            let places = [
                layout.al(0, 0),
                layout.ar(0, 0),
                layout.cl(0, 0),
                layout.cr(0, 0),
                layout.length(),
            ];
            let highest = [0, 1, 2, 3].map(|run| {
                let run = &made[places[run]..places[run + 1]];
                run.iter().copied().max().unwrap_or(0)
            });
            assert_eq!(highest, ranks);
        }
    }

    /// In every order of the steps, with keys and without.
    #[test]
    fn the_longest_distances_take_63_rounds_of_relaxing() {
        let mut systems = long_distances().in_all_versions();
        systems.push(long_distances_with_keys());
        for system in systems {
            let steps = system.left.steps.iter();
            let chased = steps.filter(|step| step.from < 32 && step.to >= 32);
            let rounds: Vec<usize> = chased.map(|&step| rounds(&system, step)).collect();
            assert_eq!(rounds, [63; 160]);
        }
    }

    /// How often the row of a left step is relaxed over the right steps, the last time without
    /// a change.
    fn rounds(system: &System, duty: Step) -> usize {
        let (from, to) = (&system.related[duty.from], &system.related[duty.to]);
        let steps = &system.right.steps;
        let mut row = vec![system.right.states(); system.right.states()];
        for step in steps.iter().filter(|step| step.key == duty.key) {
            if from[step.from] && to[step.to] {
                row[step.from] = 0;
            }
        }
        let mut rounds = 0;
        loop {
            let before = row.clone();
            for step in steps.iter().filter(|step| step.is_silent()) {
                if from[step.from] {
                    row[step.from] = row[step.from].min(row[step.to] + 1);
                }
            }
            rounds += 1;
            if row == before {
                return rounds;
            }
        }
    }

    /// Ranks are below the number of states, so 63 is the highest one made.
    #[test]
    fn the_highest_ranks_are_reached() {
        let mut random = Random::new(2);
        let mut highest = [0, 0];
        for _ in 0..100 {
            let systems = [long_system, round_trip].map(|family| family(&mut random, NO_KEYS));
            for system in systems {
                let (layout, (_, made)) = (system.layout(), system.make());
                let (stutter, chase) = made[layout.al(0, 0)..].split_at(2 * layout.n1 * layout.n2);
                highest[0] = highest[0].max(stutter.iter().copied().max().unwrap_or(0));
                highest[1] = highest[1].max(chase.iter().copied().max().unwrap_or(0));
            }
        }
        assert_eq!(highest, [63, 63]);
    }

    /// Four keys are in use on both sides, a quarter of the steps under each where nothing
    /// forbids it.
    #[test]
    fn the_fullest_systems_with_keys_have_four() {
        let counts = |table: &Table| {
            let of = |key| table.steps.iter().filter(|step| step.key == key).count();
            FOUR_KEYS.map(of)
        };
        for (system, left, right) in [
            (all_related_with_keys(), [64; 4], [64; 4]),
            (long_chains_with_keys(), [256, 0, 0, 0], [64; 4]),
            (
                long_distances_with_keys(),
                [136, 40, 40, 40],
                [253, 1, 1, 1],
            ),
        ] {
            assert_eq!(counts(&system.left), left);
            assert_eq!(counts(&system.right), right);
        }
    }
}
