//! Inputs for the commit: those for the maker, each with a slip.

use crate::make_cases::{MakeCase, MakeCases};
use crate::random::Random;
use crate::slips::Measured;
use oracle::Slip;

pub struct CommitCase {
    pub inputs: MakeCase,
    pub slip: Slip,
    /// What the slip is called.
    pub slip_label: String,
}

/// The slip that an enquiry gives for these inputs: their numbers, or zeros on a refusal.
pub const OF_ENQUIRY: &str = "of the enquiry";

/// The numbers of the inputs, whether an enquiry is refused or not. Where a table is not well
/// formed there is no L, and the length of the output stands for it.
pub const OF_INPUTS: &str = "of the inputs";

/// The slip of an enquiry for earlier inputs, which was not refused.
pub const OF_EARLIER: &str = "of an earlier enquiry";

/// Gives `count` inputs for the commit.
pub struct CommitCases {
    random: Random,
    inputs: MakeCases,
    /// The slip of the last enquiry that was not refused, or any before the first.
    earlier: Slip,
}

impl CommitCases {
    pub fn new(seed: u64, count: usize) -> CommitCases {
        CommitCases {
            random: Random::new(seed.rotate_left(32)),
            inputs: MakeCases::new(seed, count),
            earlier: [1; 4],
        }
    }

    /// A slip for these inputs, and what it is called.
    fn slip(&mut self, inputs: &MakeCase) -> (String, Slip) {
        let MakeCase {
            left,
            right,
            relation,
            ..
        } = inputs;
        let (answer, enquired) = oracle::tuned_maker::enquire(left, right, relation);
        let earlier = self.earlier;
        if answer[0] == 0 {
            self.earlier = enquired;
        }
        let random = &mut self.random;
        let measured = Measured::read(left, right, relation);
        if random.percent(50) {
            let other = measured
                .as_ref()
                .and_then(|measured| measured.other_slip(random));
            if let Some(other) = other {
                return other;
            }
        }
        let (label, slip) = match random.below(6) {
            0..=1 => (OF_ENQUIRY, enquired),
            2..=4 => (OF_EARLIER, earlier),
            _ => (OF_INPUTS, numbers(inputs, measured)),
        };
        (label.to_string(), slip)
    }
}

fn numbers(inputs: &MakeCase, measured: Option<Measured>) -> Slip {
    match measured {
        Some(measured) => measured.numbers,
        None => {
            let files = [&inputs.left, &inputs.right, &inputs.relation];
            let [left, right, relation] = files.map(|file| file.len() as u64);
            [left, right, relation, inputs.output_length as u64]
        }
    }
}

impl Iterator for CommitCases {
    type Item = CommitCase;

    fn next(&mut self) -> Option<CommitCase> {
        let mut inputs = self.inputs.next()?;
        let (slip_label, slip) = self.slip(&inputs);
        if self.random.percent(3) {
            inputs.output_length = 0;
        }
        Some(CommitCase {
            inputs,
            slip,
            slip_label,
        })
    }
}
