//! The enquiry and the commit: whether a certificate can be made is known before an output
//! is set aside.

use crate::certificate::Layout;
use crate::maker::{chase_lengths, find_ranks, make_after, relaxed_lengths, success, Chase};
use crate::Answer;

/// "a slip: the lengths of the three inputs and L"
pub type Slip = [u64; 4];

/// "The enquiry takes tables and relation, writes nothing, and returns the maker's answer
/// without 21, with a slip".
pub fn enquire(left: &[u8], right: &[u8], relation: &[u8]) -> (Answer, Slip) {
    enquire_by(&chase_lengths, left, right, relation)
}

/// The same by the proved reference maker's method.
pub fn enquire_by_relaxing(left: &[u8], right: &[u8], relation: &[u8]) -> (Answer, Slip) {
    enquire_by(&relaxed_lengths, left, right, relation)
}

fn enquire_by(chase: Chase, left: &[u8], right: &[u8], relation: &[u8]) -> (Answer, Slip) {
    match find_ranks(chase, left, right, relation, |_| Ok(())) {
        Ok(found) => {
            let slip = numbers(left, right, relation, &found.layout);
            (success(&found.layout), slip)
        }
        // "or zeros on refusal"
        Err(refusal) => (refusal, [0; 4]),
    }
}

/// "The commit takes the inputs, the slip and the output, and otherwise behaves as the
/// maker."
pub fn commit(left: &[u8], right: &[u8], relation: &[u8], slip: Slip, output: &mut [u8]) -> Answer {
    commit_by(&chase_lengths, left, right, relation, slip, output)
}

/// The same by the proved reference maker's method.
pub fn commit_by_relaxing(
    left: &[u8],
    right: &[u8],
    relation: &[u8],
    slip: Slip,
    output: &mut [u8],
) -> Answer {
    commit_by(&relaxed_lengths, left, right, relation, slip, output)
}

/// "29 when a number on the slip is not that of the inputs, tested after 15 and before 21,
/// with file 2."
fn commit_by(
    chase: Chase,
    left: &[u8],
    right: &[u8],
    relation: &[u8],
    slip: Slip,
    output: &mut [u8],
) -> Answer {
    let test = |layout: &Layout| {
        if slip == numbers(left, right, relation, layout) {
            Ok(())
        } else {
            Err([29, 2, 0, 0, 0, 0])
        }
    };
    make_after(test, chase, left, right, relation, output)
}

/// The numbers of the inputs: "the lengths of the three inputs and L".
fn numbers(left: &[u8], right: &[u8], relation: &[u8], layout: &Layout) -> Slip {
    [left.len(), right.len(), relation.len(), layout.length()].map(|length| length as u64)
}
