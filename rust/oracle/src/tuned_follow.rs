//! The follower once more, tuned: above the tuned judge, on the 64-bit words that it
//! has read. It shares no code with the plain follower.
//!
//! After a 2c the next clause is 2a or 2c again: where the state reached is related to
//! the step's end, 2a held before. So 2b is looked at once for each step.

use crate::tuned::{accept, bits, read_table_without_keys, Side};
use crate::Answer;

/// "takes tables, a certificate, the path's side, a start on the other side, and a path
/// of state bytes", and two outputs.
pub fn follow(
    left: &[u8],
    right: &[u8],
    certificate: &[u8],
    side: u64,
    start: u64,
    path: &[u8],
    states: &mut [u8],
    blocks: &mut [u8],
) -> Answer {
    let outputs = (states, blocks);
    match try_follow(left, right, certificate, side, start, path, outputs) {
        Ok(answer) | Err(answer) => answer,
    }
}

/// Tables with keys are refused where they are read.
fn try_follow(
    left: &[u8],
    right: &[u8],
    certificate: &[u8],
    side: u64,
    start: u64,
    path: &[u8],
    (states, blocks): (&mut [u8], &mut [u8]),
) -> Result<Answer, Answer> {
    let left = read_table_without_keys(left, 0)?;
    let right = read_table_without_keys(right, 1)?;
    accept(&left, &right, certificate, |sides, _| {
        let Some(side) = sides.get(side.min(2) as usize) else {
            return Err([25, 4, 0, 0, 0, 0]);
        };
        let start = test_run(side, start, path)?;
        let (matching, numbers) = match_run(side, start, path);
        let (matching_bytes, number_bytes) = (matching.as_flattened(), numbers.as_flattened());
        if states.len() < matching_bytes.len() || blocks.len() < number_bytes.len() {
            return Err([27, 3, 0, 0, 0, 0]);
        }
        states[..matching_bytes.len()].copy_from_slice(matching_bytes);
        blocks[..number_bytes.len()].copy_from_slice(number_bytes);
        Ok([0, 0, matching.len() as u64, 0, 0, 0])
    })
}

/// The start as a state, or 25 or 26.
fn test_run(side: &Side, start: u64, path: &[u8]) -> Result<usize, Answer> {
    let in_range = path.iter().all(|&s| (s as usize) < side.own.states);
    let is_step = |pair: &[u8]| side.own.successors[pair[0] as usize] >> pair[1] & 1 == 1;
    if !(1..=256).contains(&path.len()) || !in_range || !path.windows(2).all(is_step) {
        return Err([25, 4, 0, 0, 0, 0]);
    }
    let first = path[0] as usize;
    if start >= side.other.states as u64 || side.related[first] >> start & 1 == 0 {
        return Err([26, 4, 0, 0, 0, 0]);
    }
    Ok(start as usize)
}

/// The bytes of the matching path, and those of the block numbers of the path given.
fn match_run(side: &Side, start: usize, path: &[u8]) -> (Vec<[u8; 3]>, Vec<[u8; 2]>) {
    let mut t = start;
    let mut block = 0u16;
    let mut matching = Vec::with_capacity(2 * path.len());
    let mut numbers = Vec::with_capacity(path.len());
    let entry = |t: usize, block: u16| [t as u8, (block >> 8) as u8, block as u8];
    matching.push(entry(t, block));
    numbers.push(block.to_be_bytes());
    for pair in path.windows(2) {
        let (s, u) = (pair[0] as usize, pair[1] as usize);
        let mut serving = side.other.successors[t] & side.related[u];
        if serving == 0 && !pauses(side, s, u, t) {
            let chase = chase_ranks(side, s, u);
            while serving == 0 {
                t = nearer(side, chase, s, t);
                matching.push(entry(t, block));
                serving = side.other.successors[t] & side.related[u];
            }
        }
        if serving != 0 {
            t = serving.trailing_zeros() as usize;
            block += 1;
            matching.push(entry(t, block));
        }
        numbers.push(block.to_be_bytes());
    }
    if side.own.successors[path[path.len() - 1] as usize] == 0 {
        while side.other.successors[t] != 0 {
            t = side.other.successors[t].trailing_zeros() as usize;
            matching.push(entry(t, block));
        }
    }
    (matching, numbers)
}

/// 2b holds of the step from s to u at t.
fn pauses(side: &Side, s: usize, u: usize, t: usize) -> bool {
    let others = side.other.states;
    let falls = side.stutter[u * others + t] < side.stutter[s * others + t];
    side.related[u] >> t & 1 == 1 && falls
}

/// The C ranks of the step from s to u.
fn chase_ranks<'a>(side: &Side<'a>, s: usize, u: usize) -> &'a [u8] {
    let own = side.own;
    let steps = own.order[own.first[s]..own.first[s + 1]].iter();
    let mut numbers = steps.map(|&j| j as usize);
    let j = numbers.find(|&j| own.steps[2 * j + 1] as usize == u);
    let j = j.expect("neighbours are a step");
    &side.chase[j * side.other.states..]
}

/// The smallest state that serves 2c.
fn nearer(side: &Side, chase: &[u8], s: usize, t: usize) -> usize {
    let mut waiting = bits(side.other.successors[t] & side.related[s]);
    let nearer = waiting.find(|&v| chase[v] < chase[t]);
    nearer.expect("the judge has accepted")
}
