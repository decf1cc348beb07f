//! Inputs for the program: the three pieces of a judge input, each after its
//! length, and everything that can be wrong with such an input.

use crate::judge_cases::JudgeCases;
use crate::random::Random;

pub struct ProgramCase {
    pub input: Vec<u8>,
    /// Which of the `PROGRAM_FORMS` the input has.
    pub label: &'static str,
}

/// The forms of input, each of which is given from time to time.
pub const PROGRAM_FORMS: [&str; 14] = [
    "three whole pieces",
    "trailing bytes",
    "cut short anywhere",
    "first piece missing",
    "second piece missing",
    "third piece missing",
    "half a first length",
    "half a second length",
    "half a third length",
    "a piece of length 0",
    "a length of 65,535",
    "a length one too low",
    "a length one too high",
    "random bytes",
];

/// Gives `count` inputs for the program.
pub struct ProgramCases {
    random: Random,
    judge_cases: JudgeCases,
}

impl ProgramCases {
    pub fn new(seed: u64, count: usize) -> ProgramCases {
        ProgramCases {
            random: Random::new(!seed),
            judge_cases: JudgeCases::new(seed, count),
        }
    }
}

impl Iterator for ProgramCases {
    type Item = ProgramCase;

    fn next(&mut self) -> Option<ProgramCase> {
        let case = self.judge_cases.next()?;
        let random = &mut self.random;
        let label = if random.percent(30) {
            PROGRAM_FORMS[0]
        } else {
            random.pick(&PROGRAM_FORMS)
        };
        let pieces = [case.left, case.right, case.certificate];
        let input = input_of_form(random, pieces, label);
        Some(ProgramCase { input, label })
    }
}

/// The pieces joined in one of the `PROGRAM_FORMS`.
pub fn input_of_form(random: &mut Random, mut pieces: [Vec<u8>; 3], form: &str) -> Vec<u8> {
    let one = random.below(3);
    match form {
        "trailing bytes" => {
            let further = random.within(1, 50);
            let mut input = joined(&pieces);
            input.extend(random.bytes(further));
            input
        }
        "cut short anywhere" => {
            let mut input = joined(&pieces);
            input.truncate(random.below(input.len()));
            input
        }
        "first piece missing" => joined(&pieces[..0]),
        "second piece missing" => joined(&pieces[..1]),
        "third piece missing" => joined(&pieces[..2]),
        "half a first length" => half_a_length(&pieces, 0),
        "half a second length" => half_a_length(&pieces, 1),
        "half a third length" => half_a_length(&pieces, 2),
        "a piece of length 0" => {
            pieces[one].clear();
            joined(&pieces)
        }
        "a length of 65,535" => with_length(&pieces, one, |_| 65_535),
        "a length one too low" => with_length(&pieces, one, |length| length.saturating_sub(1)),
        "a length one too high" => with_length(&pieces, one, |length| length + 1),
        "random bytes" => {
            let length = random.below(200);
            let mut input = random.bytes(length);
            // A low first length lets the bytes reach the other pieces.
            if let Some(high) = input.first_mut() {
                *high = 0;
            }
            input
        }
        _ => joined(&pieces),
    }
}

/// The pieces, each after its length.
pub fn joined(pieces: &[Vec<u8>]) -> Vec<u8> {
    with_length(pieces, pieces.len(), |length| length)
}

/// The pieces before the `missing` one, and the first byte of its length.
fn half_a_length(pieces: &[Vec<u8>], missing: usize) -> Vec<u8> {
    let mut input = joined(&pieces[..missing]);
    input.push(pieces[missing].len().to_be_bytes()[6]);
    input
}

/// The pieces joined, where piece `changed` says another length than it has.
fn with_length(pieces: &[Vec<u8>], changed: usize, said: impl Fn(u16) -> u16) -> Vec<u8> {
    let mut input = Vec::new();
    for (i, piece) in pieces.iter().enumerate() {
        let length = u16::try_from(piece.len()).expect("every piece is shorter than 65,536");
        let length = if i == changed { said(length) } else { length };
        input.extend(length.to_be_bytes());
        input.extend(piece);
    }
    input
}
