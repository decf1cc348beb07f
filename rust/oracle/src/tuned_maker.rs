//! The makers once more, tuned, and so the enquiry and the commit: the methods of the proved
//! ones on 64-bit words.
//!
//! For each own step `make`, and so the enquiry and the commit, relaxes one row of lengths
//! over the other side's silent steps until a round changes nothing; `make_by_sets` grows one
//! set of states until a round adds none. Chains are lengthened by rounds, for all states of
//! a side together. Nothing here shares code with the plain makers.

use crate::tuned::{bits, key, read_rows, read_tables, test_starts, turn, Table};
use crate::{Answer, Slip};

/// "Input: two tables, n1 rows of 8 bytes, an output."
pub fn make(left: &[u8], right: &[u8], relation: &[u8], output: &mut [u8]) -> Answer {
    make_after(|_| Ok(()), by_relaxing, left, right, relation, output)
}

/// "For each step it grows the set of states, as a 64-bit word, at which the step is matched."
pub fn make_by_sets(left: &[u8], right: &[u8], relation: &[u8], output: &mut [u8]) -> Answer {
    make_after(|_| Ok(()), by_sets, left, right, relation, output)
}

/// "The enquiry takes tables and relation, writes nothing, and returns the maker's answer
/// without 21, with a slip".
pub fn enquire(left: &[u8], right: &[u8], relation: &[u8]) -> (Answer, Slip) {
    match examine(by_relaxing, left, right, relation, |_| Ok(()), |_, _| {}) {
        Ok(length) => {
            let slip = numbers(left, right, relation, length);
            ([0, 0, length as u64, 0, 0, 0], slip)
        }
        Err(refusal) => (refusal, [0; 4]),
    }
}

/// "The commit takes the inputs, the slip and the output, and otherwise behaves as the
/// maker."
pub fn commit(left: &[u8], right: &[u8], relation: &[u8], slip: Slip, output: &mut [u8]) -> Answer {
    let test = |length| match slip == numbers(left, right, relation, length) {
        true => Ok(()),
        false => Err([29, 2, 0, 0, 0, 0]),
    };
    make_after(test, by_relaxing, left, right, relation, output)
}

fn numbers(left: &[u8], right: &[u8], relation: &[u8], length: usize) -> Slip {
    [left.len(), right.len(), relation.len(), length].map(|length| length as u64)
}

/// The maker with one test more before 21, which is given L.
fn make_after(
    test: impl FnOnce(usize) -> Result<(), Answer>,
    find: Find,
    left: &[u8],
    right: &[u8],
    relation: &[u8],
    output: &mut [u8],
) -> Answer {
    let room = output.len();
    let test = |length| match test(length) {
        Ok(()) if room < length => Err([21, 3, length as u64, 0, 0, 0]),
        tested => tested,
    };
    let fill = |sides: &[Side; 2], chains: &[Vec<u8>; 2]| fill(sides, chains, relation, output);
    match examine(find, left, right, relation, test, fill) {
        Ok(length) => [0, 0, length as u64, 0, 0, 0],
        Err(refusal) => refusal,
    }
}

/// A row of lengths, one for each other state.
type Row = [u8; 64];

/// Finds the row of each own step, from the own table, the other one, and for each own state
/// a bit for each other state that is related to it.
type Find = fn(&Table, &Table, &[u64; 64]) -> Vec<Row>;

/// One direction. `related[s]` has a bit for each other state that is related to
/// the own state s. `distances[j][t]` is the length for the own step j at the other
/// state t: the chase length, or the number of other states where the step is
/// unmatched at t or there is no duty.
struct Side<'a> {
    own: &'a Table<'a>,
    other: &'a Table<'a>,
    related: &'a [u64; 64],
    distances: Vec<Row>,
}

/// Gives L where there is a certificate, and then the sides and their chains to `then`.
/// `test` is given L after 15 and before 16.
#[inline]
fn examine(
    find: Find,
    left: &[u8],
    right: &[u8],
    relation: &[u8],
    test: impl FnOnce(usize) -> Result<(), Answer>,
    then: impl FnOnce(&[Side; 2], &[Vec<u8>; 2]),
) -> Result<usize, Answer> {
    let (left, right) = read_tables(left, right)?;
    let (n1, n2) = (left.states, right.states);
    let (m1, m2) = (left.step_count(), right.step_count());
    if relation.len() != 8 * n1 {
        return Err([20, 2, 0, 0, 0, 0]);
    }
    let rows = read_rows(relation, n2)?;
    let length = 11 + 8 * n1 + 2 * n1 * n2 + m1 * n2 + m2 * n1;
    test(length)?;
    let columns = turn(&rows, n1);
    test_starts(&left, &right, &rows, &columns)?;

    let sides = [
        Side::new(find, &left, &right, &rows),
        Side::new(find, &right, &left, &columns),
    ];
    if left.step_width == 3 {
        test_pairs::<3>(&sides)?;
    } else {
        test_pairs::<2>(&sides)?;
    }
    let chains = [sides[0].chains(), sides[1].chains()];
    for number in 0..2 {
        if let Some((fixed, first)) = sides[number].first_endless(&chains[number]) {
            return Err([23, 2, number as u64, fixed as u64, first as u64, 0]);
        }
    }
    then(&sides, &chains);
    Ok(length)
}

/// 17 and 22, where steps have so many bytes.
fn test_pairs<const WIDTH: usize>(sides: &[Side; 2]) -> Result<(), Answer> {
    let (left, right) = (sides[0].own, sides[1].own);
    for s in 0..left.states {
        for t in bits(sides[0].related[s]) {
            if left.marks[s] != right.marks[t] {
                return Err([17, 2, s as u64, t as u64, 0, 0]);
            }
            for (number, own, other) in [(0, s, t), (1, t, s)] {
                if let Some(j) = sides[number].first_lost::<WIDTH>(own, other) {
                    return Err([22, 2, number as u64, s as u64, t as u64, j as u64]);
                }
            }
        }
    }
    Ok(())
}

/// Writes the certificate at the front of an output that has room for it.
fn fill(sides: &[Side; 2], chains: &[Vec<u8>; 2], relation: &[u8], output: &mut [u8]) {
    let [n1, n2] = [0, 1].map(|number| sides[number].own.states);
    let [m1, m2] = [0, 1].map(|number| sides[number].own.step_count());
    let (header, rest) = output.split_at_mut(11);
    let (given, rest) = rest.split_at_mut(8 * n1);
    let (al, rest) = rest.split_at_mut(n1 * n2);
    let (ar, rest) = rest.split_at_mut(n1 * n2);
    let (cl, rest) = rest.split_at_mut(m1 * n2);
    let cr = &mut rest[..m2 * n1];
    header[..7].copy_from_slice(&[b'T', b'P', b'C', 0, 1, n1 as u8, n2 as u8]);
    header[7..9].copy_from_slice(&(m1 as u16).to_be_bytes());
    header[9..].copy_from_slice(&(m2 as u16).to_be_bytes());
    given.copy_from_slice(relation);
    sides[0].write_stutter(&chains[0], al);
    sides[1].write_stutter(&chains[1], ar);
    sides[0].write_chase(cl);
    sides[1].write_chase(cr);
}

impl<'a> Side<'a> {
    fn new(find: Find, own: &'a Table, other: &'a Table, related: &'a [u64; 64]) -> Side<'a> {
        Side {
            own,
            other,
            related,
            distances: find(own, other, related),
        }
    }

    fn is_related(&self, own: usize, other: usize) -> bool {
        self.related[own] >> other & 1 == 1
    }

    fn is_matched(&self, j: usize, t: usize) -> bool {
        (self.distances[j][t] as usize) < self.other.states
    }

    /// The first step from s that is unmatched at t and leads to a state unrelated
    /// to t or has a key.
    #[inline]
    fn first_lost<const WIDTH: usize>(&self, s: usize, t: usize) -> Option<usize> {
        let steps = &self.own.order[self.own.first[s]..self.own.first[s + 1]];
        steps.iter().map(|&j| j as usize).find(|&j| {
            let u = self.own.steps[WIDTH * j + 1] as usize;
            let pausing = key::<WIDTH>(self.own.steps, j) == 0 && self.is_related(u, t);
            !self.is_matched(j, t) && !pausing
        })
    }

    /// The longest chains, that at t from s at 64 t + s, counted up to the number of
    /// own states.
    fn chains(&self) -> Vec<u8> {
        let mut chains = vec![0; 64 * self.other.states];
        for (t, row) in chains.chunks_exact_mut(64).enumerate() {
            let open = match self.own.step_width {
                3 => self.open_steps::<3>(t),
                _ => self.open_steps::<2>(t),
            };
            let mut lengths = [0; 64];
            for _ in 0..self.own.states {
                lengths = lengthen(&open, &lengths);
            }
            row.copy_from_slice(&lengths);
        }
        chains
    }

    /// The silent steps between states related to t that are unmatched at t, where steps
    /// have so many bytes.
    fn open_steps<const WIDTH: usize>(&self, t: usize) -> Vec<[u8; 2]> {
        let steps = self.own.steps.chunks_exact(WIDTH).enumerate();
        steps
            .filter(|(j, step)| {
                let inside = step[..2].iter().all(|&s| self.is_related(s as usize, t));
                inside && key::<WIDTH>(step, 0) == 0 && !self.is_matched(*j, t)
            })
            .map(|(_, step)| [step[0], step[1]])
            .collect()
    }

    /// The first other state and the first own state with a chain of as many steps
    /// as there are own states.
    fn first_endless(&self, chains: &[u8]) -> Option<(usize, usize)> {
        let place = chains
            .iter()
            .position(|&length| length as usize == self.own.states)?;
        Some((place / 64, place % 64))
    }

    fn write_stutter(&self, chains: &[u8], run: &mut [u8]) {
        for (s, row) in run.chunks_exact_mut(self.other.states).enumerate() {
            for (t, rank) in row.iter_mut().enumerate() {
                *rank = chains[64 * t + s];
            }
        }
    }

    fn write_chase(&self, run: &mut [u8]) {
        for (j, row) in run.chunks_exact_mut(self.other.states).enumerate() {
            for (t, rank) in row.iter_mut().enumerate() {
                *rank = if self.is_matched(j, t) {
                    self.distances[j][t]
                } else {
                    0
                };
            }
        }
    }
}

fn by_relaxing(own: &Table, other: &Table, related: &[u64; 64]) -> Vec<Row> {
    let slot = |j: usize| match &own.keyed {
        Some(keyed) => keyed.slots[j] as usize,
        None => 0,
    };
    let steps = own.steps.chunks_exact(own.step_width).enumerate();
    let row = |(j, step): (usize, &[u8])| {
        let (from, to) = (related[step[0] as usize], related[step[1] as usize]);
        relax(other, slot(j), from, to)
    };
    steps.map(row).collect()
}

fn by_sets(own: &Table, other: &Table, related: &[u64; 64]) -> Vec<Row> {
    let predecessors = turn(&other.successors, other.states);
    let row = |step: &[u8]| {
        let (from, to) = (related[step[0] as usize], related[step[1] as usize]);
        let near = match step.get(2) {
            None | Some(0) => predecessors_of(to, &predecessors),
            Some(&key) => keyed_predecessors(other, key, to),
        };
        grow(other.states, &predecessors, near & from, from)
    };
    own.steps.chunks_exact(own.step_width).map(row).collect()
}

/// The row is relaxed over the other side's silent steps until a round changes nothing.
fn relax(other: &Table, slot: usize, from: u64, to: u64) -> Row {
    let mut row = [other.states as u8; 64];
    if let Some(keyed) = &other.keyed {
        for x in bits(from) {
            if keyed.row(x)[slot] & to != 0 {
                row[x] = 0;
            }
        }
    } else {
        for step in other.steps.chunks_exact(2) {
            if from >> step[0] & 1 == 1 && to >> step[1] & 1 == 1 {
                row[step[0] as usize] = 0;
            }
        }
    }
    let mut changed = true;
    while changed {
        changed = false;
        for step in other.silent.chunks_exact(2) {
            let (x, y) = (step[0] as usize, step[1] as usize);
            if row[y] + 1 < row[x] && from >> x & 1 == 1 {
                row[x] = row[y] + 1;
                changed = true;
            }
        }
    }
    row
}

/// The states with a silent step into the set.
#[inline]
fn predecessors_of(set: u64, predecessors: &[u64; 64]) -> u64 {
    bits(set).fold(0, |found, t| found | predecessors[t])
}

/// The states from which a step with this key enters the target, by one pass over the steps.
fn keyed_predecessors(table: &Table, key: u8, target: u64) -> u64 {
    let steps = table.steps.chunks_exact(3);
    let entering = steps.filter(|step| step[2] == key && target >> step[1] & 1 == 1);
    entering.fold(0, |found, step| found | 1 << step[0])
}

/// "The set begins with chase length 0, holds after k rounds exactly the states with a chase
/// length of at most k, and is done when it stops growing." The states that came in last are
/// `fresh`, and only what steps into these can come in next.
fn grow(states: usize, predecessors: &[u64; 64], first: u64, from: u64) -> Row {
    let mut row = [states as u8; 64];
    let (mut set, mut fresh) = (first, first);
    let mut k = 0;
    while fresh != 0 {
        let mut before = 0;
        for t in bits(fresh) {
            row[t] = k;
            before |= predecessors[t];
        }
        fresh = before & from & !set;
        set |= fresh;
        k += 1;
    }
    row
}

/// One round: one more than the greatest length over the next states.
fn lengthen(steps: &[[u8; 2]], shorter: &[u8; 64]) -> [u8; 64] {
    let mut longer = [0; 64];
    for &[from, to] in steps {
        let length = &mut longer[from as usize];
        *length = (*length).max(shorter[to as usize] + 1);
    }
    longer
}
