//! The follower: the run of one model, matched on the other.

use crate::certificate::{read_certificate, Ranks};
use crate::judge::{judge, outcome, Clause, Outcome};
use crate::side::{both_sides, Side};
use crate::table::{read_table_of, Kind, Table};
use crate::Answer;

/// It "takes tables, a certificate, the path's side, a start on the other side, and a
/// path of state bytes. [...] It writes the matching path, three bytes a state: the
/// state and its 16-bit block number. A second output takes a 16-bit block number for
/// each state given." On a refusal both outputs are left as they were, and "bytes after
/// what is written stay".
pub fn follow(
    left: &[u8],
    right: &[u8],
    certificate: &[u8],
    side: u64,
    start: u64,
    path: &[u8],
    states: &mut [u8],
    blocks: &mut [u8],
) -> Answer {
    let lengths = [states.len(), blocks.len()];
    match matching_for([left, right, certificate], side, start, path, lengths) {
        Ok(matching) => {
            let written = matching.states_bytes();
            states[..written.len()].copy_from_slice(&written);
            let written = matching.blocks_bytes();
            blocks[..written.len()].copy_from_slice(&written);
            // "Success returns 0, 0 and the states written."
            [0, 0, matching.states.len() as u64, 0, 0, 0]
        }
        Err(refusal) => refusal,
    }
}

/// What is to be written: each state of the matching path with the number of its
/// block, and the block number of each state given.
struct Matching {
    states: Vec<(usize, usize)>,
    blocks: Vec<usize>,
}

impl Matching {
    /// "three bytes a state: the state and its 16-bit block number"
    fn states_bytes(&self) -> Vec<u8> {
        self.states
            .iter()
            .flat_map(|&(state, block)| [state as u8, (block / 256) as u8, (block % 256) as u8])
            .collect()
    }

    /// "a 16-bit block number for each state given"
    fn blocks_bytes(&self) -> Vec<u8> {
        self.blocks
            .iter()
            .flat_map(|&block| [(block / 256) as u8, (block % 256) as u8])
            .collect()
    }
}

/// The matching path and its blocks, or the refusal: 25, 26 and 27 come "after the
/// judge's own refusals, in this order".
fn matching_for(
    [left, right, certificate]: [&[u8]; 3],
    side: u64,
    start: u64,
    path: &[u8],
    [states_length, blocks_length]: [usize; 2],
) -> Result<Matching, Answer> {
    let (left_bytes, right_bytes) = (left, right);
    let left = read_tpt(left_bytes, 0)?;
    let right = read_tpt(right_bytes, 1)?;
    let judged = judge(left_bytes, right_bytes, certificate);
    if judged[0] != 0 {
        return Err(judged);
    }
    let certificate = read_certificate(certificate, &left, &right)?;
    let sides = both_sides(&left, &right, &certificate.related);

    // "25 when the side is not 0 or 1", "with file 4 for the path"
    if side != 0 && side != 1 {
        return Err([25, 4, 0, 0, 0, 0]);
    }
    let number = side as usize;
    let (side, ranks) = (&sides[number], &certificate.ranks[number]);
    let path: Vec<usize> = path.iter().map(|&state| state as usize).collect();
    test_path(side, &path)?;
    let start = test_start(side, start, path[0])?;

    let matching = matching(number, side, ranks, start, &path);
    // "27 when either output is too short", with file "3 for 27"
    if states_length < 3 * matching.states.len() || blocks_length < 2 * matching.blocks.len() {
        return Err([27, 3, 0, 0, 0, 0]);
    }
    Ok(matching)
}

/// "The follower of runs takes TPT only and answers 2 for TPK."
fn read_tpt(bytes: &[u8], file: u64) -> Result<Table, Answer> {
    read_table_of(&[Kind::Tpt], bytes, file)
}

/// 25 when "the path is empty, over 256 states, holds a state out of range or two
/// neighbours that are no step".
fn test_path(side: &Side, path: &[usize]) -> Result<(), Answer> {
    let in_range = path.iter().all(|&state| state < side.own.states());
    let all_steps = path
        .windows(2)
        .all(|pair| step_number(side, pair[0], pair[1]).is_some());
    if path.is_empty() || path.len() > 256 || !in_range || !all_steps {
        return Err([25, 4, 0, 0, 0, 0]);
    }
    Ok(())
}

/// "26 when its first state and the given start are not related or the start is out of
/// range". Gives the start as a state of the other table.
fn test_start(side: &Side, start: u64, first: usize) -> Result<usize, Answer> {
    if start >= side.other.states() as u64 || !side.related[first][start as usize] {
        return Err([26, 4, 0, 0, 0, 0]);
    }
    Ok(start as usize)
}

/// The number of the own step from s to u. No step stands twice, so there is one at
/// most.
fn step_number(side: &Side, s: usize, u: usize) -> Option<usize> {
    let steps = &side.own.steps;
    (0..steps.len()).find(|&j| steps[j].from == s && steps[j].to == u)
}

/// "It prefers 2a, then 2b, then 2c, the smallest state each time; where the given path
/// ends in a dead end it goes on by smallest steps to a dead end. [...] Blocks count
/// from 0, a new one beginning at each 2a."
///
/// This preference is the judge's, and its answering state the smallest. The judge has
/// accepted, so each duty is met; a rank falls with each 2c, so 2a or 2b comes in the
/// end. Each step on to the dead end is a duty of the other side at a state without a
/// step, which only 2b can meet, so there too a rank falls.
fn matching(number: usize, side: &Side, ranks: &Ranks, start: usize, path: &[usize]) -> Matching {
    let (mut t, mut block) = (start, 0);
    let mut states = vec![(t, block)];
    let mut blocks = vec![block];
    for pair in path.windows(2) {
        let (s, u) = (pair[0], pair[1]);
        let j = step_number(side, s, u).expect("neighbours are a step");
        loop {
            match outcome(side, ranks, side.duty(number, t, j)) {
                Outcome::Met(Clause::TwoA, v) => {
                    (t, block) = (v, block + 1);
                    states.push((t, block));
                    break;
                }
                Outcome::Met(Clause::TwoB, _) => break,
                Outcome::Met(Clause::TwoC, v) => {
                    t = v;
                    states.push((t, block));
                }
                Outcome::Failed(_) => unreachable!("the judge has accepted"),
            }
        }
        blocks.push(block);
    }
    if side.own.is_dead_end(path[path.len() - 1]) {
        while let Some(v) = side.other.ends_from(t).min() {
            t = v;
            states.push((t, block));
        }
    }
    Matching { states, blocks }
}
