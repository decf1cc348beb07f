//! What is promised of an enquiry and a commit together, without the oracle.

use crate::report::Report;
use crate::slips_seen::{EARLY, LATE};
use crate::{hex, Answer};
use inputs::{MakeCase, MakeCases, Random};
use std::fmt::Debug;

/// An enquiry, a commit that takes its slips, and the maker that they are beside.
pub struct EnquiryAndCommit<E, C, M> {
    pub enquire: E,
    pub commit: C,
    pub make: M,
}

/// An output of this length serves any two tables.
const MOST: usize = 41_483;

const MADE: &str = "the commit makes what the maker makes";
const TOO_SHORT: &str = "the commit finds the output too short, as the maker does";

fn refused_again(code: u64) -> String {
    format!("{code:>2}, and again with the zeros")
}

fn refused_with_29(code: u64) -> String {
    format!("{code:>2}, and 29 with the zeros")
}

impl<S, E, C, M> EnquiryAndCommit<E, C, M>
where
    S: Copy,
    E: Fn(&[u8], &[u8], &[u8]) -> (Answer, S),
    C: Fn(&[u8], &[u8], &[u8], S, &mut [u8]) -> Answer,
    M: Fn(&[u8], &[u8], &[u8], &mut [u8]) -> Answer,
{
    /// Holds them to what is promised on `count` inputs, and panics at the first where it is
    /// not so. The enquiry answers what the maker answers with an output that is long enough.
    /// Where it is a success, the commit with its slip does what the maker does, whatever the
    /// output; where it is a refusal, the commit with its zeros is refused.
    pub fn require_promised(&self, count: usize, seed: u64) -> Report {
        let mut required = [MADE, TOO_SHORT].map(String::from).to_vec();
        required.extend(EARLY.map(refused_again));
        required.extend(LATE.map(refused_with_29));
        let mut report = Report::new(required);
        let mut random = Random::new(!seed);
        for case in MakeCases::new(seed, count) {
            let (left, right, relation) = (&case.left, &case.right, &case.relation);
            let (enquired, slip) = (self.enquire)(left, right, relation);
            let lent = vec![random.byte(); MOST];
            let (made, _) = self.made(&case, &lent);
            let why = "the enquiry does not answer as the maker";
            require(&case, why, enquired, made);
            report.see_label(case.label);
            if enquired[0] == 0 {
                let length = enquired[2] as usize;
                for room in [0, length - 1, length, length + 1, case.output_length, MOST] {
                    let lent = &lent[..room.min(MOST)];
                    report.see(self.require_as_made(&case, slip, lent, length));
                }
            } else {
                for room in [0, case.output_length, MOST] {
                    let lent = &lent[..room.min(MOST)];
                    report.see(self.require_refused(&case, slip, lent, enquired));
                }
            }
        }
        report
    }

    fn made(&self, case: &MakeCase, lent: &[u8]) -> (Answer, Vec<u8>) {
        let mut output = lent.to_vec();
        let answer = (self.make)(&case.left, &case.right, &case.relation, &mut output);
        (answer, output)
    }

    fn committed(&self, case: &MakeCase, slip: S, lent: &[u8]) -> (Answer, Vec<u8>) {
        let mut output = lent.to_vec();
        let (left, right, relation) = (&case.left, &case.right, &case.relation);
        let answer = (self.commit)(left, right, relation, slip, &mut output);
        (answer, output)
    }

    /// The commit does what the maker does, and makes a certificate just where there is room
    /// for its L bytes.
    fn require_as_made(
        &self,
        case: &MakeCase,
        slip: S,
        lent: &[u8],
        length: usize,
    ) -> &'static str {
        let committed = self.committed(case, slip, lent);
        let made = self.made(case, lent);
        let why = "the commit does not do what the maker does";
        require(case, why, &committed, &made);
        let has_room = lent.len() >= length;
        let why = "the commit does not succeed just where there is room";
        require(case, why, committed.0[0] == 0, has_room);
        if has_room {
            MADE
        } else {
            TOO_SHORT
        }
    }

    /// The commit is refused, as the enquiry was or with 29, and the output stays.
    fn require_refused(&self, case: &MakeCase, zeros: S, lent: &[u8], enquired: Answer) -> String {
        let (answer, output) = self.committed(case, zeros, lent);
        let (expected, name) = if LATE.contains(&enquired[0]) {
            ([29, 2, 0, 0, 0, 0], refused_with_29(enquired[0]))
        } else {
            (enquired, refused_again(enquired[0]))
        };
        let why = "the commit answers otherwise to the zeros";
        require(case, why, answer, expected);
        require(case, "the commit writes on a refusal", &output[..], lent);
        name
    }
}

/// Panics where what is found is not what is expected.
fn require<T: PartialEq + Debug>(case: &MakeCase, why: &str, found: T, expected: T) {
    assert!(
        found == expected,
        "{why} ({})\nexpected {expected:?}\nfound    {found:?}\n\
         left     {}\nright    {}\nrelation {}",
        case.label,
        hex(&case.left),
        hex(&case.right),
        hex(&case.relation),
    );
}
