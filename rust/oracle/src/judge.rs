//! The judge: does a certificate show that its relation is a well-founded
//! bisimulation?

use crate::certificate::{read_certificate, Ranks};
use crate::side::{both_sides, judging_order, Duty, Look, Side};
use crate::side::{test_kinds, test_marks, test_starts};
use crate::table::read_table;
use crate::Answer;

/// The six numbers of the judge.
pub fn judge(left: &[u8], right: &[u8], certificate: &[u8]) -> Answer {
    match accept(left, right, certificate, |_, _, _| {}) {
        Ok(answer) => answer,
        Err(refusal) => refusal,
    }
}

/// "The outcome of a duty is met, carrying which of the three clauses, or
/// failed, carrying 18 or 19." "The test of one duty shall say, beside the clause,
/// the smallest state v that serves it, and t itself for 2b": the answering state.
pub enum Outcome {
    Met(Clause, usize),
    Failed(u64),
}

#[derive(Clone, Copy)]
pub enum Clause {
    TwoA,
    TwoB,
    TwoC,
}

/// "The judge accepts with 0, 0, the related pairs as a count of one bits, and
/// the duties met by 2a, 2b and 2c." Each duty met is told to `tell`, in judging
/// order, with its clause and its answering state.
pub fn accept(
    left: &[u8],
    right: &[u8],
    certificate: &[u8],
    mut tell: impl FnMut(Duty, Clause, usize),
) -> Result<Answer, Answer> {
    let left = read_table(left, 0)?;
    let right = read_table(right, 1)?;
    test_kinds(&left, &right)?;
    let certificate = read_certificate(certificate, &left, &right)?;

    let sides = both_sides(&left, &right, &certificate.related);
    test_starts(&sides)?;
    let mut pairs = 0;
    let mut met = [0, 0, 0];
    for look in judging_order(&sides) {
        match look {
            Look::Marks { s, t } => {
                test_marks(&left, &right, s, t)?;
                pairs += 1;
            }
            Look::Duty(duty) => {
                match outcome(&sides[duty.side], &certificate.ranks[duty.side], duty) {
                    Outcome::Met(clause, answering) => {
                        met[clause as usize] += 1;
                        tell(duty, clause, answering);
                    }
                    Outcome::Failed(code) => return Err(duty.refusal(code)),
                }
            }
        }
    }
    Ok([0, 0, pairs, met[0], met[1], met[2]])
}

/// "It is met by the first of these that holds"
pub fn outcome(side: &Side, ranks: &Ranks, duty: Duty) -> Outcome {
    if let Some(v) = clause_2a(side, duty) {
        Outcome::Met(Clause::TwoA, v)
    } else if clause_2b(side, ranks, duty) {
        Outcome::Met(Clause::TwoB, duty.t)
    } else if let Some(v) = clause_2c(side, ranks, duty) {
        Outcome::Met(Clause::TwoC, v)
    } else if fails_whatever_the_ranks(side, duty) {
        Outcome::Failed(18)
    } else {
        Outcome::Failed(19)
    }
}

/// "2a: some step t to v with u, v related." "In 2a the answering step has the same key".
/// Gives the smallest such v.
fn clause_2a(side: &Side, duty: Duty) -> Option<usize> {
    side.other
        .ends_under(duty.key, duty.t)
        .filter(|&v| side.related[duty.u][v])
        .min()
}

/// "2b: u, t related, and the A rank of (u, t) below that of (s, t)." "2b needs key 0 on the
/// duty's step".
fn clause_2b(side: &Side, ranks: &Ranks, duty: Duty) -> bool {
    duty.is_silent()
        && side.related[duty.u][duty.t]
        && ranks.stutter[duty.u][duty.t] < ranks.stutter[duty.s][duty.t]
}

/// "2c: some step t to v with s, v related, and the C rank of this step at v
/// below that at t." This step is the step s to u, whose number is j. "2c takes a silent
/// step", which is that from t to v. Gives the smallest such v.
fn clause_2c(side: &Side, ranks: &Ranks, duty: Duty) -> Option<usize> {
    side.other
        .silent_ends_from(duty.t)
        .filter(|&v| side.related[duty.s][v])
        .filter(|&v| ranks.chase[duty.j][v] < ranks.chase[duty.j][duty.t])
        .min()
}

/// "duty unmet; u, t unrelated, no step from t to a state related to s". "Where 18 and 22
/// have u, t unrelated, a key other than 0 counts as well; 18 looks at silent steps from t
/// only".
fn fails_whatever_the_ranks(side: &Side, duty: Duty) -> bool {
    let some_step_stays_with_s = side
        .other
        .silent_ends_from(duty.t)
        .any(|v| side.related[duty.s][v]);
    side.cannot_pause(duty) && !some_step_stays_with_s
}
