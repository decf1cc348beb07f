//! Tables of the later versions, written out byte by byte, and the answers to them, to an
//! enquiry and a commit, and to what a writer is given, worked out by hand from the documents.

mod enquiries;
mod keys;
mod marks;
mod starts;
mod tables;

use crate::{hex, Answer};
pub use enquiries::require_worked_enquiries;
pub use keys::{certificates_after_30, p_and_q_of_two_kinds};
pub use tables::require_worked_tables;

/// Two tables, a certificate, and what is answered to them.
#[derive(Clone)]
pub struct Case {
    pub name: String,
    pub left: Vec<u8>,
    pub right: Vec<u8>,
    pub certificate: Vec<u8>,
    /// What the judge answers.
    pub judged: Answer,
    /// What the maker answers, where it is refused; otherwise it writes the certificate.
    pub made: Answer,
    /// The certificate is the one that the maker writes, where it writes one.
    pub is_made: bool,
    /// What the follower answers, where it is refused.
    pub followed: Answer,
}

/// A table that is refused, with its number and a.
type Refused = (&'static str, Vec<u8>, [u64; 2]);

/// P, Q and K of the scope document, in version 1.
const P: &[u8] = b"TPT\0\x01\x02\0\0\x02\0\0\0\x01\0\x01\x01\0";
const Q: &[u8] = b"TPT\0\x01\x03\0\0\x03\0\0\0\0\0\x01\0\x01\x01\x02\x02\0";
const K: &[u8] = b"TPC\0\x01\x02\x03\0\x02\0\x03\
    \0\0\0\0\0\0\0\x03\0\0\0\0\0\0\0\x04\
    \0\0\0\0\0\0\x01\0\0\0\0\0\x01\0\0\0\0\0\0\0\0\0\0\0";

/// Tables that are refused, in every form but version 1.
fn refused_tables() -> Vec<Refused> {
    [
        starts::refused_tables(),
        marks::refused_tables(),
        keys::refused_tables(),
    ]
    .concat()
}

/// All cases. Each certificate that is accepted is the one that the maker writes.
pub fn cases() -> Vec<Case> {
    let mut cases = [starts::cases(), marks::cases(), keys::cases()].concat();
    for (name, table, [code, a]) in refused_tables() {
        let file = |file: u64, left: &[u8], right: &[u8]| {
            let name = format!("{name}, file {file}");
            let answer = [code, file, a, 0, 0, 0];
            let mut case = Case::with_k((&name, left.to_vec(), right.to_vec(), answer));
            // "The follower of runs takes TPT only and answers 2 for TPK."
            if table.starts_with(b"TPK") && table.len() >= 9 {
                case.followed = [2, file, 0, 0, 0, 0];
            }
            case
        };
        cases.push(file(0, &table, Q));
        cases.push(file(1, P, &table));
        // "two bad tables: the left is reported"
        cases.push(file(0, &table, &table));
    }
    cases
}

/// P and Q in later versions, as the files of a run.
pub fn files_of_run() -> Vec<[Vec<u8>; 3]> {
    [&starts::files_of_run()[..], &marks::files_of_run()].concat()
}

/// A run of P from its state 0 that is followed on Q from its state 0: "the state and its
/// 16-bit block number", and the block number of each state given.
pub const PATH: [u8; 4] = [0, 1, 0, 1];
pub const STATES: [u8; 18] = [0, 0, 0, 1, 0, 0, 2, 0, 1, 0, 0, 2, 1, 0, 2, 2, 0, 3];
pub const BLOCKS: [u8; 8] = [0, 0, 0, 1, 0, 2, 0, 3];

impl Case {
    /// Two tables with K, which all three functions answer alike.
    fn with_k((name, left, right, answer): (&str, Vec<u8>, Vec<u8>, Answer)) -> Case {
        Case {
            name: name.to_string(),
            left,
            right,
            certificate: K.to_vec(),
            judged: answer,
            made: answer,
            is_made: true,
            followed: answer,
        }
    }

    /// Two tables of which the left one has keys, with K, and what the judge and the maker
    /// answer.
    fn with_keys(
        (name, left, right): (&str, Vec<u8>, Vec<u8>),
        judged: Answer,
        made: Answer,
    ) -> Case {
        Case {
            judged,
            made,
            followed: [2, 0, 0, 0, 0, 0],
            ..Case::with_k((name, left, right, judged))
        }
    }

    /// All of a case, for a message.
    pub fn told(&self) -> String {
        format!(
            "{}\nleft        {}\nright       {}\ncertificate {}\n",
            self.name,
            hex(&self.left),
            hex(&self.right),
            hex(&self.certificate),
        )
    }
}
