//! Inputs for the follower: runs of systems with accepted certificates, each way to each
//! refusal, tables with keys, which it does not take, and long runs of the fullest systems.

use crate::certified::{any_certified, changed, in_all_forms, replace_ranks};
use crate::families::{all_related, any_pruned_rings, long_chains, long_distances, long_waits};
use crate::judge_cases::{edit_certificate, edit_table, one_or_two};
use crate::random::Random;
use crate::run_edits::{Run, RunEdit, RUN_EDITS};
use crate::system::{save_in, System, VERSIONS};
use crate::walks::{walk, Aim};
use oracle::{Form, Kind};

pub struct FollowCase {
    pub left: Vec<u8>,
    pub right: Vec<u8>,
    pub certificate: Vec<u8>,
    pub run: Run,
    /// The last change made to the run or to the files.
    pub label: &'static str,
    /// The change to the run that was made before it, where there were two.
    pub earlier: Option<&'static str>,
}

/// Gives `count` inputs for the follower, the fullest systems last. Each system serves
/// for several of them.
pub struct FollowCases {
    random: Random,
    remaining: usize,
    accepted: Accepted,
    fullest: Vec<FollowCase>,
}

/// A system and a certificate of it that the judge accepts.
struct Accepted {
    system: System,
    certificate: Vec<u8>,
}

/// The last but one of them has tables with keys.
const CASES_PER_SYSTEM: usize = 9;

/// Outputs of these lengths serve for every run.
const MOST: [usize; 2] = [49_152, 512];

impl FollowCases {
    pub fn new(seed: u64, count: usize) -> FollowCases {
        let mut random = Random::new(seed);
        let accepted = Accepted::any(&mut random);
        let fullest = fullest(&mut random);
        FollowCases {
            random,
            remaining: count,
            accepted,
            fullest,
        }
    }
}

impl Iterator for FollowCases {
    type Item = FollowCase;

    fn next(&mut self) -> Option<FollowCase> {
        self.remaining = self.remaining.checked_sub(1)?;
        if self.remaining < self.fullest.len() {
            return self.fullest.pop();
        }
        let random = &mut self.random;
        if self.remaining % CASES_PER_SYSTEM == 0 {
            self.accepted = Accepted::any(random);
        }
        if self.remaining % CASES_PER_SYSTEM == 1 {
            return Some(with_keys(random, &self.accepted));
        }
        let run = self.accepted.any_run(random);
        Some(match random.below(10) {
            0..=4 => self.accepted.followed(random, run),
            5..=7 => self.accepted.with_changed_run(random, run),
            _ => self.accepted.with_changed_files(random, run),
        })
    }
}

/// Long runs of the fullest systems, on either side, by the smallest states and by the
/// greatest.
fn fullest(random: &mut Random) -> Vec<FollowCase> {
    let systems = [all_related(), long_distances(), long_chains(), long_waits()];
    let systems = in_all_forms(random, &systems).into_iter().enumerate();
    systems
        .map(|(i, system)| {
            let certificate = system.certificate();
            let accepted = Accepted {
                system,
                certificate,
            };
            let (side, aim) = (i % 2, [Aim::Smallest, Aim::Greatest][i / 2 % 2]);
            let run = accepted.longest_run(random, side, aim);
            accepted.case(run, UNCHANGED)
        })
        .collect()
}

/// What a case is called where nothing is changed.
const UNCHANGED: &str = "unchanged";

/// What it is called where nothing is wrong with it but that tables have keys.
const KEYS: &str = "2: tables with keys";

/// A run of tables of which one or both have keys: those of this system with silent steps, or
/// those of a system with any keys. The judge accepts them where both have keys. In some cases
/// something else is wrong besides.
fn with_keys(random: &mut Random, without: &Accepted) -> FollowCase {
    let keyed = random.pick(&[[true, true], [true, false], [false, true]]);
    let accepted = if random.percent(50) {
        without.saved_with_keys(keyed)
    } else {
        let (mut system, certificate) = any_certified(random, Kind::Tpk);
        for (table, keyed) in [&mut system.left, &mut system.right].into_iter().zip(keyed) {
            if !keyed {
                save_in(table, Form::tpt(random.pick(VERSIONS)));
            }
        }
        Accepted {
            system,
            certificate,
        }
    };
    let run = accepted.run_with_room(random);
    match random.below(10) {
        0..=3 => accepted.case(run, KEYS),
        4..=8 => accepted.with_changed_files(random, run),
        _ => accepted.with_changed_run(random, run),
    }
}

impl Accepted {
    /// A system and the certificate made for it, or another one that is accepted.
    fn any(random: &mut Random) -> Accepted {
        let (mut system, mut certificate) = if random.percent(10) {
            let system = any_pruned_rings(random, VERSIONS);
            let certificate = system.certificate();
            (system, certificate)
        } else {
            any_certified(random, Kind::Tpt)
        };
        if random.percent(30) {
            certificate = changed(random, &system, &certificate);
            system = system.with_rows_of(&certificate);
        }
        if random.percent(70) {
            replace_ranks(random, &system, &mut certificate);
        }
        Accepted {
            system,
            certificate,
        }
    }

    /// The same with these tables as tables with keys, whose steps are silent.
    fn saved_with_keys(&self, keyed: [bool; 2]) -> Accepted {
        let mut system = self.system.clone();
        for (table, keyed) in [&mut system.left, &mut system.right].into_iter().zip(keyed) {
            if keyed {
                save_in(table, Form::TPK);
            }
        }
        Accepted {
            system,
            certificate: self.certificate.clone(),
        }
    }

    /// The related pairs, the state of this side first.
    fn pairs(&self, side: usize) -> Vec<(usize, usize)> {
        let pairs = self.system.pairs().into_iter();
        pairs.map(|(s, t)| [(s, t), (t, s)][side]).collect()
    }

    /// A run from any related pair, with outputs that are just long enough.
    fn any_run(&self, random: &mut Random) -> Run {
        let (side, start, path) = self.any_path(random);
        self.run(side, start, path)
    }

    /// A run from any related pair, with the longest outputs.
    fn run_with_room(&self, random: &mut Random) -> Run {
        let (side, start, path) = self.any_path(random);
        Run {
            side: side as u64,
            start: start as u64,
            path,
            states_length: MOST[0],
            blocks_length: MOST[1],
        }
    }

    /// A side, a start and a path from a state that is related to it.
    fn any_path(&self, random: &mut Random) -> (usize, usize, Vec<u8>) {
        let side = random.below(2);
        let table = self.system.table(side);
        let pairs = self.pairs(side);
        let (mut first, mut start) = random.pick(&pairs);
        // A path from a dead end has no second state.
        for _ in 0..3 {
            if table.is_dead_end(first) {
                (first, start) = random.pick(&pairs);
            }
        }
        let most = match random.below(10) {
            0 => 1,
            1..=5 => random.within(2, 12),
            6..=7 => random.within(13, 256),
            _ => random.pick(&[255, 256]),
        };
        let aim = random.pick(&[Aim::Any, Aim::Endless, Aim::DeadEnd]);
        (side, start, walk(random, table, first, most, aim))
    }

    /// A run from the table's first start, with outputs that are just long enough. Its steps and
    /// the start on the other side are the smallest or the greatest, as the aim says.
    fn longest_run(&self, random: &mut Random, side: usize, aim: Aim) -> Run {
        let table = self.system.table(side);
        let first = table.starts[0];
        let starts = self
            .pairs(side)
            .into_iter()
            .filter(|&(state, _)| state == first)
            .map(|(_, start)| start);
        let start = match aim {
            Aim::Greatest => starts.max(),
            _ => starts.min(),
        };
        let start = start.expect("the table's start is related");
        let path = walk(random, table, first, 256, aim);
        self.run(side, start, path)
    }

    /// The run with this path, with outputs that are just long enough. The tuned follower
    /// says how long that is: it writes the same as the plain one and is fast.
    fn run(&self, side: usize, start: usize, path: Vec<u8>) -> Run {
        let [mut states, mut blocks] = MOST.map(|length| vec![0; length]);
        let (side, start) = (side as u64, start as u64);
        let answer = oracle::tuned_follow::follow(
            &self.system.left_bytes(),
            &self.system.right_bytes(),
            &self.certificate,
            side,
            start,
            &path,
            &mut states,
            &mut blocks,
        );
        assert_eq!(answer[0], 0, "a run is not followed");
        Run {
            side,
            start,
            states_length: 3 * answer[2] as usize,
            blocks_length: 2 * path.len(),
            path,
        }
    }

    fn case(&self, run: Run, label: &'static str) -> FollowCase {
        FollowCase {
            left: self.system.left_bytes(),
            right: self.system.right_bytes(),
            certificate: self.certificate.clone(),
            run,
            label,
            earlier: None,
        }
    }

    /// The run with outputs that are long enough.
    fn followed(&self, random: &mut Random, mut run: Run) -> FollowCase {
        run.states_length = long_enough(random, run.states_length, MOST[0]);
        run.blocks_length = long_enough(random, run.blocks_length, MOST[1]);
        self.case(run, UNCHANGED)
    }

    /// The run after one change, or after two, so that the order of the causes is tested.
    fn with_changed_run(&self, random: &mut Random, mut run: Run) -> FollowCase {
        let (first, second) = one_or_two(random, RUN_EDITS);
        let earlier = second.and_then(|second| self.change(random, &mut run, second));
        let label = self.change(random, &mut run, first).or(earlier);
        FollowCase {
            earlier: earlier.filter(|_| label != earlier),
            ..self.case(run, label.unwrap_or(UNCHANGED))
        }
    }

    /// Changes the run, and gives what this is called where the system lets it.
    fn change(
        &self,
        random: &mut Random,
        run: &mut Run,
        (label, edit): RunEdit,
    ) -> Option<&'static str> {
        let before = run.clone();
        edit(random, &self.system, run);
        (*run != before).then_some(label)
    }

    /// A changed file, and sometimes a changed run.
    fn with_changed_files(&self, random: &mut Random, mut run: Run) -> FollowCase {
        let mut earlier = None;
        if random.percent(50) {
            let edit = random.pick(RUN_EDITS);
            earlier = self.change(random, &mut run, edit);
        }
        let mut case = self.case(run, UNCHANGED);
        case.earlier = earlier;
        case.label = match random.below(3) {
            0 => edit_table(random, &mut case.left),
            1 => edit_table(random, &mut case.right),
            _ => edit_certificate(random, &self.system, &mut case.certificate),
        };
        case
    }
}

/// Just this length, more, or the most that can be needed.
fn long_enough(random: &mut Random, length: usize, most: usize) -> usize {
    match random.below(10) {
        0..=4 => length,
        5..=8 => length + random.within(1, 30),
        _ => most,
    }
}

#[cfg(test)]
mod tests {
    use super::*;

    fn followed(case: &FollowCase) -> [u64; 6] {
        let run = &case.run;
        oracle::follow(
            &case.left,
            &case.right,
            &case.certificate,
            run.side,
            run.start,
            &run.path,
            &mut vec![0; run.states_length],
            &mut vec![0; run.blocks_length],
        )
    }

    /// A run that was changed gets the number in its label, and one that was not is
    /// followed.
    #[test]
    fn labels_have_the_number_of_the_answer() {
        let mut seen = 0;
        for case in FollowCases::new(1, 10_000) {
            let mut files = [&case.left, &case.right].into_iter();
            let has_keys = files.any(|table| table.starts_with(b"TPK"));
            let is_run_edit = RUN_EDITS.iter().any(|(label, _)| *label == case.label);
            if case.label == KEYS {
                let answer = followed(&case);
                let file = u64::from(!case.left.starts_with(b"TPK"));
                assert_eq!(answer, [2, file, 0, 0, 0, 0]);
            } else if !has_keys && (is_run_edit || case.label == UNCHANGED) {
                let code = followed(&case)[0];
                let said = case
                    .label
                    .split(':')
                    .next()
                    .and_then(|code| code.parse().ok());
                assert_eq!(said.unwrap_or(0), code, "{}", case.label);
                seen += 1;
            }
        }
        assert!(seen > 7_000, "{seen}");
    }
}
