//! The maker succeeds exactly when the path property holds, which is decided here
//! without ranks, matched duties or chains.

use crate::tables::{states, steps};
use crate::Answer;
use inputs::{relation_bytes, table_bytes, Forms, MakeCases, Random, VERSIONS};
use oracle::{Form, Layout, Step, Table};
use std::thread;

/// A maker, and the judge that is to accept what it makes and nothing that cannot be
/// made.
#[derive(Clone, Copy)]
pub struct Implementation {
    pub make: fn(&[u8], &[u8], &[u8], &mut [u8]) -> Answer,
    pub judge: fn(&[u8], &[u8], &[u8]) -> Answer,
}

/// How many relations had the path property, and how many had not.
#[derive(Default, Debug)]
struct Seen {
    with: usize,
    without: usize,
}

impl Seen {
    fn require(&self, least: usize) {
        assert!(self.with >= least && self.without >= least, "{self:?}");
    }
}

impl Implementation {
    /// Panics at the first system where the maker succeeds without the path property
    /// or is refused with it, and where too few systems had it or had it not.
    pub fn require_path_property(self) {
        let small = [(1, 1), (1, 2), (2, 1), (2, 2), (1, 3), (3, 1)];
        thread::scope(|scope| {
            scope.spawn(move || small.map(|(n1, n2)| self.check_all(n1, n2, 1).require(1)));
            scope.spawn(move || self.check_all(2, 3, 3).require(1_000));
            scope.spawn(move || self.check_all(3, 2, 3).require(1_000));
            scope.spawn(move || self.check_starts_and_marks().require(1_000));
            scope.spawn(move || self.check_start_words().require(1_000));
            scope.spawn(move || self.check_three_states(100_000).require(1_000));
            let without_keys = Forms::Tpt(VERSIONS);
            scope.spawn(move || self.check_generated(without_keys, 100_000).require(1_000));
            scope.spawn(move || self.check_generated(Forms::Tpk, 50_000).require(1_000));
            scope.spawn(move || self.check_keys(1, 1, 3, 1).require(8));
            scope.spawn(move || self.check_keys(1, 2, 3, 1).require(100));
            scope.spawn(move || self.check_keys(2, 1, 3, 1).require(100));
            scope.spawn(move || self.check_keys(2, 2, 2, 7).require(1_000));
            scope.spawn(move || self.check_three_states_with_keys(40_000).require(1_000));
        });
    }

    /// All tables of these sizes with the one start 0 and equal marks, and one in `apart` of all
    /// relations, beginning with another for each pair of tables.
    fn check_all(self, n1: usize, n2: usize, apart: usize) -> Seen {
        let mut check = Check::new(self, 1);
        for left_steps in 0..1 << (n1 * n1) {
            let left = table(1, &vec![0; n1], left_steps);
            for right_steps in 0..1 << (n2 * n2) {
                let right = table(1, &vec![0; n2], right_steps);
                let first = (left_steps + right_steps) % apart;
                for pairs in (first..1 << (n1 * n2)).step_by(apart) {
                    check.system(&left, &right, &relation(n1, n2, pairs));
                }
            }
        }
        check.seen
    }

    /// All tables of these sizes with the keys 0 to `keys` - 1, the one start 0 and equal
    /// marks, and one in `apart` of all relations.
    fn check_keys(self, n1: usize, n2: usize, keys: usize, apart: usize) -> Seen {
        let mut check = Check::new(self, 7);
        for left_steps in 0..1 << (keys * n1 * n1) {
            let left = keyed_table(1, n1, keys, left_steps);
            for right_steps in 0..1 << (keys * n2 * n2) {
                let right = keyed_table(1, n2, keys, right_steps);
                let first = (left_steps + right_steps) % apart;
                for pairs in (first..1 << (n1 * n2)).step_by(apart) {
                    check.system(&left, &right, &relation(n1, n2, pairs));
                }
            }
        }
        check.seen
    }

    /// A sample of the systems of three states a side with the keys 0, 1 and 2, half of them
    /// with any starts.
    fn check_three_states_with_keys(self, count: usize) -> Seen {
        let mut check = Check::new(self, 8);
        let mut random = Random::new(!8);
        for i in 0..count {
            // Few steps that are nearly the same on both sides, and each state related to the
            // same one, let the property hold more often.
            let mut some = |of| random.below(of) & random.below(of);
            let (steps, changed) = (some(1 << 27), some(1 << 27) & some(1 << 27));
            let pairs = 0b100_010_001 | some(1 << 9);
            let starts = if i % 2 == 0 {
                [1, 1]
            } else {
                [some(7) + 1, some(7) + 1]
            };
            let left = keyed_table(starts[0], 3, 3, steps);
            let right = keyed_table(starts[1], 3, 3, steps ^ changed);
            check.system(&left, &right, &relation(3, 3, pairs));
        }
        check.seen
    }

    /// Two states a side with every one start and every choice of two marks.
    fn check_starts_and_marks(self) -> Seen {
        let mut check = Check::new(self, 2);
        for choice in 0..1 << 18 {
            let bits = |place: usize, count: usize| choice >> place & ((1 << count) - 1);
            let bit = |place| bits(place, 1);
            let left = table(1 << bit(0), &[bit(1) as u32, bit(2) as u32], bits(3, 4));
            let right = table(1 << bit(7), &[bit(8) as u32, bit(9) as u32], bits(10, 4));
            check.system(&left, &right, &relation(2, 2, bits(14, 4)));
        }
        check.seen
    }

    /// Two states a side with every word of starts and equal marks.
    fn check_start_words(self) -> Seen {
        let mut check = Check::new(self, 6);
        for (left_starts, right_starts) in (1..4).flat_map(|l| (1..4).map(move |r| (l, r))) {
            for choice in 0..1 << 12 {
                let left = table(left_starts, &[0; 2], choice % 16);
                let right = table(right_starts, &[0; 2], choice / 16 % 16);
                check.system(&left, &right, &relation(2, 2, choice / 256));
            }
        }
        check.seen
    }

    /// A sample of the systems of three states a side, half of them with any starts.
    fn check_three_states(self, count: usize) -> Seen {
        let mut check = Check::new(self, 3);
        let mut random = Random::new(!3);
        for i in 0..count {
            let mut table = || {
                let starts = if i % 2 == 0 { 1 } else { random.within(1, 7) };
                // Fewer steps and more pairs than half let the property hold more often.
                table(starts, &[0; 3], random.below(512) & random.below(512))
            };
            let (left, right) = (table(), table());
            let pairs = random.below(512) | random.below(512) | 1;
            check.system(&left, &right, &relation(3, 3, pairs));
        }
        check.seen
    }

    /// Those of `count` generated inputs of the maker with tables of these forms that are well
    /// formed and have at most four states a side.
    fn check_generated(self, forms: Forms, count: usize) -> Seen {
        let mut check = Check::new(self, 4);
        for case in MakeCases::of(forms, 5, count) {
            let (left, right, relation) = (&case.left, &case.right, &case.relation);
            let mut output = vec![0; case.output_length];
            let code = oracle::make(left, right, relation, &mut output)[0];
            let is_small = |table: &[u8]| states(table) <= 4;
            if [0, 16, 17, 22, 23].contains(&code) && is_small(left) && is_small(right) {
                check.system(left, right, relation);
            }
        }
        check.seen
    }
}

struct Check {
    implementation: Implementation,
    random: Random,
    seen: Seen,
}

impl Check {
    fn new(implementation: Implementation, seed: u64) -> Check {
        Check {
            implementation,
            random: Random::new(seed),
            seen: Seen::default(),
        }
    }

    /// Checks one system: the maker succeeds exactly when the path property holds,
    /// the judge accepts what it made, and without the path property the judge
    /// accepts none of some certificates with random ranks.
    fn system(&mut self, left: &[u8], right: &[u8], relation: &[u8]) {
        let Implementation { make, judge } = self.implementation;
        let layout = Layout {
            n1: states(left),
            n2: states(right),
            m1: steps(left).count(),
            m2: steps(right).count(),
        };
        let mut certificate = vec![0; layout.length()];
        let answer = make(left, right, relation, &mut certificate);
        let holds = oracle::path_property(left, right, relation);
        let system = || format!("left {left:?}\nright {right:?}\nrelation {relation:?}");
        assert!(
            [0, 16, 17, 22, 23].contains(&answer[0]),
            "{answer:?}\n{}",
            system()
        );
        assert_eq!(answer[0] == 0, holds, "{answer:?}\n{}", system());

        if holds {
            self.seen.with += 1;
            let judged = judge(left, right, &certificate);
            assert_eq!(judged[0], 0, "{judged:?}\n{}", system());
        } else {
            self.seen.without += 1;
            certificate[..11].copy_from_slice(&layout.header());
            certificate[11..layout.al(0, 0)].copy_from_slice(relation);
            for highest in [1, 3, 255] {
                for rank in &mut certificate[layout.al(0, 0)..] {
                    *rank = self.random.within(0, highest) as u8;
                }
                let judged = judge(left, right, &certificate);
                assert_ne!(judged[0], 0, "{certificate:?}\n{}", system());
            }
        }
    }
}

/// The table with these marks whose starts are the bits of `starts` and whose steps, which
/// rise, are the bits of `steps`. The versions that can have so many starts take turns.
fn table(starts: usize, marks: &[u32], steps: usize) -> Vec<u8> {
    let n = marks.len();
    let version = match starts.count_ones() {
        1 => 1 + (steps % 4) as u16,
        _ => 3 + (steps % 2) as u16,
    };
    let steps = (0..n * n)
        .filter(|pair| steps >> pair & 1 == 1)
        .map(|pair| Step {
            from: pair / n,
            to: pair % n,
            key: 0,
        })
        .collect();
    table_bytes(&Table {
        form: Form::tpt(version),
        starts: (0..n).filter(|s| starts >> s & 1 == 1).collect(),
        marks: marks.to_vec(),
        steps,
    })
}

/// The table with keys, n states and equal marks whose starts are the bits of `starts` and
/// whose steps, which rise, are the bits of `steps`: so many for each two states.
fn keyed_table(starts: usize, n: usize, keys: usize, steps: usize) -> Vec<u8> {
    let steps = (0..keys * n * n)
        .filter(|step| steps >> step & 1 == 1)
        .map(|step| Step {
            from: step / keys / n,
            to: step / keys % n,
            key: (step % keys) as u8,
        })
        .collect();
    table_bytes(&Table {
        form: Form::TPK,
        starts: (0..n).filter(|s| starts >> s & 1 == 1).collect(),
        marks: vec![0; n],
        steps,
    })
}

/// The relation whose pairs are the bits of `pairs`.
fn relation(n1: usize, n2: usize, pairs: usize) -> Vec<u8> {
    let row = |s| (0..n2).map(|t| pairs >> (s * n2 + t) & 1 == 1).collect();
    relation_bytes(&(0..n1).map(row).collect::<Vec<_>>())
}
