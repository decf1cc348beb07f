//! The maker: it works out the ranks for a given relation, where they exist.

use crate::certificate::{read_rows, Layout};
use crate::side::{both_sides, judging_order, Look, Side};
use crate::side::{test_kinds, test_marks, test_starts};
use crate::table::{read_table, Step};
use crate::Answer;

/// Finds the chase length of each own step at each other state: `[j][t]`.
pub type Chase<'a> = &'a dyn Fn(&Side) -> Vec<Vec<Option<usize>>>;

/// "Input: two tables, n1 rows of 8 bytes, an output." On a refusal the output
/// is left as it was; on success "bytes after L stay".
pub fn make(left: &[u8], right: &[u8], relation: &[u8], output: &mut [u8]) -> Answer {
    make_by(&chase_lengths, left, right, relation, output)
}

/// The same by the proved reference maker's method: one row of lengths is relaxed for each
/// own step.
pub fn make_by_relaxing(left: &[u8], right: &[u8], relation: &[u8], output: &mut [u8]) -> Answer {
    make_by(&relaxed_lengths, left, right, relation, output)
}

/// The same by the proved second maker's method: one set of states is grown for each own
/// step.
pub fn make_by_sets(left: &[u8], right: &[u8], relation: &[u8], output: &mut [u8]) -> Answer {
    make_by(&grown_lengths, left, right, relation, output)
}

/// The maker with the chase lengths that this function finds.
pub fn make_by(
    chase: Chase,
    left: &[u8],
    right: &[u8],
    relation: &[u8],
    output: &mut [u8],
) -> Answer {
    make_after(|_| Ok(()), chase, left, right, relation, output)
}

/// The maker with one test more, after 15 and before 21.
pub fn make_after(
    test: impl FnOnce(&Layout) -> Result<(), Answer>,
    chase: Chase,
    left: &[u8],
    right: &[u8],
    relation: &[u8],
    output: &mut [u8],
) -> Answer {
    let found = find_ranks(chase, left, right, relation, |layout| {
        test(layout)?;
        // "output under L bytes"
        if output.len() < layout.length() {
            return Err([21, 3, layout.length() as u64, 0, 0, 0]);
        }
        Ok(())
    });
    match found {
        Ok(found) => {
            let file = write(&found, relation);
            output[..file.len()].copy_from_slice(&file);
            success(&found.layout)
        }
        Err(refusal) => refusal,
    }
}

/// "The maker succeeds with 0, 0, L."
pub fn success(layout: &Layout) -> Answer {
    [0, 0, layout.length() as u64, 0, 0, 0]
}

/// What a certificate is written from, for each side: the chase lengths, `[j][t]`, and the
/// longest chains, `[t][s]`.
pub struct Found {
    pub layout: Layout,
    chase: [Vec<Vec<Option<usize>>>; 2],
    chains: [Vec<Vec<usize>>; 2],
}

/// Finds the ranks, or gives the refusal. "maker 20, 15, 21, 16, then pairs and steps in
/// judging order for 17 and 22, then 23, left side first"; what comes between 15 and 16 is
/// the caller's test.
pub fn find_ranks(
    chase: Chase,
    left: &[u8],
    right: &[u8],
    relation: &[u8],
    test: impl FnOnce(&Layout) -> Result<(), Answer>,
) -> Result<Found, Answer> {
    let left = read_table(left, 0)?;
    let right = read_table(right, 1)?;
    test_kinds(&left, &right)?;
    let layout = Layout::new(&left, &right);

    // "relation not 8 n1 bytes"
    if relation.len() != 8 * layout.n1 {
        return Err([20, 2, 0, 0, 0, 0]);
    }
    // "its rows are read as a certificate's": 15.
    let related = read_rows(relation, layout.n1, layout.n2)?;
    test(&layout)?;
    let sides = both_sides(&left, &right, &related);
    test_starts(&sides)?;

    let chase = [chase(&sides[0]), chase(&sides[1])];
    for look in judging_order(&sides) {
        match look {
            Look::Marks { s, t } => test_marks(&left, &right, s, t)?,
            Look::Duty(duty) => {
                // "maker: unmatched duty, u, t unrelated", and "a key other than 0 counts
                // as well"
                let unmatched = chase[duty.side][duty.j][duty.t].is_none();
                if unmatched && sides[duty.side].cannot_pause(duty) {
                    return Err(duty.refusal(22));
                }
            }
        }
    }

    let chains = [
        longest_chains(&sides[0], &chase[0]),
        longest_chains(&sides[1], &chase[1]),
    ];
    test_chains(0, &sides[0], &chains[0])?;
    test_chains(1, &sides[1], &chains[1])?;
    Ok(Found {
        layout,
        chase,
        chains,
    })
}

/// For each own step j and each other state t, the chase length of the duty of
/// step j at t; `None` where the step is unmatched at t, or where the state it
/// comes from is unrelated to t, so that there is no duty.
pub fn chase_lengths(side: &Side) -> Vec<Vec<Option<usize>>> {
    (0..side.own.steps.len())
        .map(|j| {
            (0..side.other.states())
                .map(|t| {
                    let step = side.own.steps[j];
                    if side.related[step.from][t] {
                        chase_length(side, step, t)
                    } else {
                        None
                    }
                })
                .collect()
        })
        .collect()
}

/// "A duty is matched when a list of one or more states, t first, each stepping
/// to the next and all related to s, has a step from its last state to some v
/// related to u. The chase length is the least number of steps inside such a
/// list." "A matched list uses silent steps inside, and its last step has the duty's key."
/// `None` means that no list of any length does.
///
/// `ends` are the last states of the lists with at most `length` steps inside. A
/// shortest list has no state twice, so it has fewer steps than there are states.
fn chase_length(side: &Side, duty: Step, t: usize) -> Option<usize> {
    let (s, u) = (duty.from, duty.to);
    let steps = &side.other.steps;
    let mut ends = vec![false; side.other.states()];
    ends[t] = true;
    for length in 0..side.other.states() {
        if steps
            .iter()
            .any(|step| step.key == duty.key && ends[step.from] && side.related[u][step.to])
        {
            return Some(length);
        }
        let mut longer = ends.clone();
        for step in steps.iter().filter(|step| step.is_silent()) {
            if ends[step.from] && side.related[s][step.to] {
                longer[step.to] = true;
            }
        }
        if longer == ends {
            return None;
        }
        ends = longer;
    }
    None
}

pub fn relaxed_lengths(side: &Side) -> Vec<Vec<Option<usize>>> {
    let steps = side.own.steps.iter();
    steps.map(|&step| relaxed(side, step)).collect()
}

/// The chase lengths of the duties of a step from s to u: 0 where 2a holds, and then a silent
/// step of the other side shortens the length at the state it leaves, until none does.
fn relaxed(side: &Side, duty: Step) -> Vec<Option<usize>> {
    let (s, u) = (duty.from, duty.to);
    let mut lengths = vec![None; side.other.states()];
    for step in side.other.steps.iter().filter(|step| step.key == duty.key) {
        if side.related[s][step.from] && side.related[u][step.to] {
            lengths[step.from] = Some(0);
        }
    }
    let mut changed = true;
    while changed {
        changed = false;
        for step in side.other.steps.iter().filter(|step| step.is_silent()) {
            let Some(after) = lengths[step.to] else {
                continue;
            };
            let shorter = lengths[step.from].map_or(true, |length: usize| after + 1 < length);
            if side.related[s][step.from] && shorter {
                lengths[step.from] = Some(after + 1);
                changed = true;
            }
        }
    }
    lengths
}

pub fn grown_lengths(side: &Side) -> Vec<Vec<Option<usize>>> {
    let steps = side.own.steps.iter();
    steps.map(|&step| grown(side, step)).collect()
}

/// "For each step it grows the set of states, as a 64-bit word, at which the step is matched.
/// The set begins with chase length 0, holds after k rounds exactly the states with a chase
/// length of at most k, and is done when it stops growing." The chase length of a state is
/// then the number of the round that adds it. A round adds the states related to s from which
/// a silent step enters the set; here `set[t]` says whether t is in it.
fn grown(side: &Side, duty: Step) -> Vec<Option<usize>> {
    let (s, u) = (duty.from, duty.to);
    let steps = &side.other.steps;
    let mut set = vec![false; side.other.states()];
    for step in steps.iter().filter(|step| step.key == duty.key) {
        set[step.from] |= side.related[s][step.from] && side.related[u][step.to];
    }
    let mut lengths = vec![None; side.other.states()];
    let mut k = 0;
    loop {
        for (length, &is_in) in lengths.iter_mut().zip(&set) {
            if is_in && length.is_none() {
                *length = Some(k);
            }
        }
        let mut larger = set.clone();
        for step in steps.iter().filter(|step| step.is_silent()) {
            larger[step.from] |= side.related[s][step.from] && set[step.to];
        }
        if larger == set {
            return lengths;
        }
        set = larger;
        k += 1;
    }
}

/// For each other state t and each own state s related to it, "the most steps in
/// a chain from s of steps unmatched at t through states related to t", counted up to the
/// number of own states. The result is `[t][s]`.
fn longest_chains(side: &Side, chase: &[Vec<Option<usize>>]) -> Vec<Vec<usize>> {
    let states = side.own.states();
    (0..side.other.states())
        .map(|t| chains_of_at_most(&chain_steps(side, chase, t), states, states))
        .collect()
}

/// The "steps unmatched at t" between "states related to t"; "chains are of silent steps".
fn chain_steps(side: &Side, chase: &[Vec<Option<usize>>], t: usize) -> Vec<Step> {
    let steps = side.own.steps.iter().enumerate();
    let inside = |step: &Step| side.related[step.from][t] && side.related[step.to][t];
    steps
        .filter(|(j, step)| chase[*j][t].is_none() && inside(step) && step.is_silent())
        .map(|(_, &step)| step)
        .collect()
}

/// "For chains of at most k steps it is 0 where k is 0 or no such step leaves s,
/// else one more than the greatest over the next states for k - 1 [...] for all
/// states of a side together."
fn chains_of_at_most(steps: &[Step], states: usize, k: usize) -> Vec<usize> {
    let mut lengths = vec![0; states];
    if k == 0 {
        return lengths;
    }
    let shorter = chains_of_at_most(steps, states, k - 1);
    for step in steps {
        lengths[step.from] = lengths[step.from].max(1 + shorter[step.to]);
    }
    lengths
}

/// "maker: a chain as under The maker, of as many steps as that side has states":
/// 23, with "a side, b the fixed state, c first state of the chain"; "smallest b,
/// then smallest c".
fn test_chains(number: u64, side: &Side, chains: &[Vec<usize>]) -> Result<(), Answer> {
    for fixed in 0..side.other.states() {
        for first in 0..side.own.states() {
            if side.related[first][fixed] && chains[fixed][first] == side.own.states() {
                return Err([23, 2, number, fixed as u64, first as u64, 0]);
            }
        }
    }
    Ok(())
}

/// "The file written has the rows given; each C rank of a matched duty is its
/// chase length, other C ranks 0; each A rank of a related pair is the most steps
/// in a chain [...], other A ranks 0."
fn write(found: &Found, relation: &[u8]) -> Vec<u8> {
    let Found {
        layout,
        chase,
        chains,
    } = found;
    let &Layout { n1, n2, m1, m2 } = layout;
    let mut file = vec![0; layout.length()];
    file[..11].copy_from_slice(&layout.header());
    file[11..11 + 8 * n1].copy_from_slice(relation);
    // A chain starts with a step from a related state, so the length of the
    // longest chain is already 0 at an unrelated pair.
    for s in 0..n1 {
        for t in 0..n2 {
            file[layout.al(s, t)] = chains[0][t][s] as u8;
            file[layout.ar(t, s)] = chains[1][s][t] as u8;
        }
    }
    for j in 0..m1 {
        for t in 0..n2 {
            file[layout.cl(j, t)] = chase[0][j][t].unwrap_or(0) as u8;
        }
    }
    for j in 0..m2 {
        for s in 0..n1 {
            file[layout.cr(j, s)] = chase[1][j][s].unwrap_or(0) as u8;
        }
    }
    file
}
