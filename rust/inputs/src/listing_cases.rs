//! Inputs for the listing program: those of the judge's program, many more that are
//! accepted, and the fullest systems.

use crate::certified::{any_certified, changed, in_all_forms, replace_ranks};
use crate::families::{all_related, fullest_with_keys, long_chains, long_distances};
use crate::program_cases::{input_of_form, ProgramCase, ProgramCases, PROGRAM_FORMS};
use crate::random::Random;
use crate::system::System;
use oracle::Kind;

/// Gives `count` inputs for the listing program, the fullest systems last.
pub struct ListingCases {
    random: Random,
    program_cases: ProgramCases,
    made: Made,
    fullest: Vec<System>,
    remaining: usize,
}

/// A system and its certificate, for several inputs.
struct Made {
    system: System,
    certificate: Vec<u8>,
    remaining: usize,
}

const CASES_PER_SYSTEM: usize = 3;

impl ListingCases {
    pub fn new(seed: u64, count: usize) -> ListingCases {
        let mut random = Random::new(seed ^ (1 << 63));
        let made = made(&mut random);
        let fullest = [long_distances(), long_chains(), all_related()];
        let mut fullest = in_all_forms(&mut random, &fullest);
        for system in fullest_with_keys() {
            fullest.extend([system.clone(), system.exchanged()]);
        }
        ListingCases {
            random,
            program_cases: ProgramCases::new(seed, count),
            made,
            fullest,
            remaining: count,
        }
    }

    /// The system's certificate after a change, where the judge still accepts it, or as
    /// it was made.
    fn accepted(&mut self) -> ProgramCase {
        if self.made.remaining == 0 {
            self.made = made(&mut self.random);
        }
        self.made.remaining -= 1;

        let random = &mut self.random;
        let system = &self.made.system;
        let (left, right) = (system.left_bytes(), system.right_bytes());
        let certificate = changed(random, system, &self.made.certificate);
        let label = random.pick(&["three whole pieces", "trailing bytes"]);
        let input = input_of_form(random, [left, right, certificate], label);
        ProgramCase { input, label }
    }
}

impl Iterator for ListingCases {
    type Item = ProgramCase;

    fn next(&mut self) -> Option<ProgramCase> {
        self.remaining = self.remaining.checked_sub(1)?;
        if let Some(system) = self.fullest.get(self.remaining) {
            return Some(ProgramCase {
                input: system.input(),
                label: PROGRAM_FORMS[0],
            });
        }
        if self.random.percent(40) {
            Some(self.accepted())
        } else {
            self.program_cases.next()
        }
    }
}

/// A system for which a certificate can be made.
fn made(random: &mut Random) -> Made {
    let kind = random.pick(&Kind::ALL);
    let (system, mut certificate) = any_certified(random, kind);
    if kind == Kind::Tpk && random.percent(50) {
        replace_ranks(random, &system, &mut certificate);
    }
    Made {
        system,
        certificate,
        remaining: CASES_PER_SYSTEM,
    }
}
