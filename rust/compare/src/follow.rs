//! Compares a follower with the oracle's.

use crate::matching::Given;
use crate::report::Report;
use crate::runs_seen::{required, see_answer, see_matching, see_share};
use crate::{hex, Answer};
use inputs::{FollowCase, FollowCases, Random};

/// An answer, and the two outputs after it.
#[derive(Clone, PartialEq)]
struct Followed {
    answer: Answer,
    states: Vec<u8>,
    blocks: Vec<u8>,
}

/// Compares a follower with the oracle's on `count` inputs: the six numbers and every
/// byte of both outputs. The lent outputs are filled with a pattern; what a refusal must
/// not touch and what stands after the bytes written is compared with that pattern, and
/// each path written is held to demand 3.
pub fn follow<F>(count: usize, seed: u64, mut under_test: F) -> Report
where
    F: FnMut(&[u8], &[u8], &[u8], u64, u64, &[u8], &mut [u8], &mut [u8]) -> Answer,
{
    let mut report = Report::new(required());
    let mut random = Random::new(!seed);
    let mut followed = 0;
    for case in FollowCases::new(seed, count) {
        let given = Given::of(&case);
        let lent = lend(&mut random, &case);
        let mut expected = lent.clone();
        expected.answer = given.ask(oracle::follow, &mut expected.states, &mut expected.blocks);
        let mut found = lent.clone();
        found.answer = given.ask(&mut under_test, &mut found.states, &mut found.blocks);
        assert!(
            found == expected && kept(&found, &lent, given.path),
            "the follower differs {}",
            told(&case, &lent, &expected, &found),
        );

        report.see_label(case.label);
        see_answer(&mut report, &case, found.answer);
        if found.answer[0] == 0 {
            followed += 1;
            let matching = given.matching(found.answer[2], &found.states, &found.blocks);
            let matching = matching.unwrap_or_else(|why| {
                let told = told(&case, &lent, &expected, &found);
                panic!("the run is not matched, {why} {told}")
            });
            see_matching(&mut report, &case, &given, &matching);
        }
    }
    see_share(&mut report, followed, count);
    report
}

/// The outputs before a call, filled with bytes other than 0.
fn lend(random: &mut Random, case: &FollowCase) -> Followed {
    let mut filled = |length| (0..length).map(|_| random.byte().max(1)).collect();
    Followed {
        answer: [0; 6],
        states: filled(case.run.states_length),
        blocks: filled(case.run.blocks_length),
    }
}

/// How many bytes of the two outputs are written.
fn written(answer: Answer, path: &[u8]) -> [usize; 2] {
    match answer[0] {
        0 => [3 * answer[2] as usize, 2 * path.len()],
        _ => [0, 0],
    }
}

/// What is not written is as it was lent.
fn kept(found: &Followed, lent: &Followed, path: &[u8]) -> bool {
    let [states, blocks] = written(found.answer, path);
    found.states[states..] == lent.states[states..]
        && found.blocks[blocks..] == lent.blocks[blocks..]
}

/// All of a case, for a message.
fn told(case: &FollowCase, lent: &Followed, expected: &Followed, found: &Followed) -> String {
    let outputs = |followed: &Followed| {
        let Followed {
            answer,
            states,
            blocks,
        } = followed;
        format!("{answer:?}\n  {}\n  {}", hex(states), hex(blocks))
    };
    format!(
        "({})\nleft        {}\nright       {}\ncertificate {}\nside {}, start {}, path {}\n\
         lent     {}\nexpected {}\nfound    {}",
        case.label,
        hex(&case.left),
        hex(&case.right),
        hex(&case.certificate),
        case.run.side,
        case.run.start,
        hex(&case.run.path),
        outputs(lent),
        outputs(expected),
        outputs(found),
    )
}
