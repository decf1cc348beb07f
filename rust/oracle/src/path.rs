//! A direct decision of the path property, for small tables. It uses neither
//! ranks nor matched duties nor chains, so it can check the maker from outside.

use crate::certificate::read_rows;
use crate::side::{both_sides, first_unpaired, test_kinds, Side};
use crate::table::{read_table, Step};
use std::collections::BTreeSet;

/// Has the relation the path property? "The starts are related, related states
/// have equal marks, and, for every related pair and every finite path from
/// either state, the other state has a path, and the two can be cut into blocks,
/// such that four things hold together." Of the starts "the starts rule is also what the
/// path property asks". For tables with keys "the path property adds: a path names its steps
/// too, steps inside blocks are silent, and the steps that enter same-numbered blocks have
/// equal keys"; in the others every key is 0, and this asks nothing.
///
/// The tables, of one kind, and the relation must be well formed. The time grows steeply with
/// the number of states; up to four a side it is short.
pub fn path_property(left: &[u8], right: &[u8], relation: &[u8]) -> bool {
    let left = read_table(left, 0).expect("the left table is well formed");
    let right = read_table(right, 1).expect("the right table is well formed");
    assert_eq!(
        test_kinds(&left, &right),
        Ok(()),
        "the tables are of one kind"
    );
    let (n1, n2) = (left.states(), right.states());
    assert_eq!(relation.len(), 8 * n1, "the relation is well formed");
    let related = read_rows(relation, n1, n2).expect("the relation is well formed");

    let sides = both_sides(&left, &right, &related);
    let marks_equal =
        (0..n1).all(|s| (0..n2).all(|t| !related[s][t] || left.marks[s] == right.marks[t]));
    first_unpaired(&sides).is_none() && marks_equal && sides.iter().all(every_path_is_matched)
}

/// A set of states of one table, one bit each.
type Set = u64;

/// The newest block of a partial matching, which is a path of the own table, a
/// path of the other table, and a cut of the two. What can still be appended to
/// the two paths depends on these three things alone: `others` and `own_length`
/// decide which own state may still join the block, and `last` decides where the
/// other path can go on.
#[derive(Clone, Copy, PartialEq, Eq, PartialOrd, Ord)]
struct Block {
    /// The states of the other path's block.
    others: Set,
    /// The last of them.
    last: usize,
    /// How many states the own path's block has so far, repeated ones included.
    own_length: usize,
}

/// Tests every finite path of the own table from every related pair.
///
/// For a path read so far, the search holds the set of ALL partial matchings that
/// take in the whole path, each reduced to its newest block. It reads on, one own
/// step at a time. The other path's block is chosen whole when the block begins;
/// this loses nothing, because the cut of a finished matching fixes that block,
/// and the test of each own state against it can wait until that state is read.
///
/// The search is complete: there are finitely many blocks, so finitely many sets
/// of blocks, and every pair of an own state and a set that some finite path
/// leads to is visited. Two paths that lead to the same pair can be continued in
/// the same ways with the same result, so each pair is visited only once. A path
/// without a matching that satisfies all four things is found either as an empty
/// set, or, at a dead end, as a set in which no matching ends in a dead end.
fn every_path_is_matched(side: &Side) -> bool {
    let blocks: Vec<_> = (0..side.other.states())
        .map(|first| other_blocks(side, first))
        .collect();
    let mut waiting: Vec<(usize, BTreeSet<Block>)> = Vec::new();
    for s in 0..side.own.states() {
        for t in 0..side.other.states() {
            if side.related[s][t] {
                waiting.push((s, begin_block(side, &blocks, s, t).collect()));
            }
        }
    }

    let mut visited = BTreeSet::new();
    while let Some((state, matchings)) = waiting.pop() {
        if !path_may_end(side, state, &matchings) {
            return false;
        }
        if !visited.insert((state, matchings.clone())) {
            continue;
        }
        for j in side.own.steps_from(state) {
            let step = side.own.steps[j];
            waiting.push((step.to, read_on(side, &blocks, &matchings, step)));
        }
    }
    true
}

/// Is there a matching for the path that ends here? "The other state's path ends
/// in a dead end if the given one does."
fn path_may_end(side: &Side, state: usize, matchings: &BTreeSet<Block>) -> bool {
    let at_dead_end = side.own.is_dead_end(state);
    matchings
        .iter()
        .any(|block| !at_dead_end || side.other.is_dead_end(block.last))
}

/// All matchings after the own path has gone on by this step: either its end joins the
/// newest block, where "steps inside blocks are silent", or both paths begin a new one, and
/// "the steps that enter same-numbered blocks have equal keys".
fn read_on(
    side: &Side,
    blocks: &[BTreeSet<(Set, usize)>],
    matchings: &BTreeSet<Block>,
    step: Step,
) -> BTreeSet<Block> {
    let mut longer = BTreeSet::new();
    for block in matchings {
        // "No block has more states than the table its path is in."
        let room = block.own_length < side.own.states();
        if room && step.is_silent() && related_to_all(side, step.to, block.others) {
            longer.insert(Block {
                own_length: block.own_length + 1,
                ..*block
            });
        }
        for entered in side.other.ends_under(step.key, block.last) {
            longer.extend(begin_block(side, blocks, step.to, entered));
        }
    }
    longer
}

/// The pairs of blocks that begin with this own state and this other state:
/// "every state of a block is related to every state of the same-numbered block
/// of the other path".
fn begin_block<'a>(
    side: &'a Side,
    blocks: &'a [BTreeSet<(Set, usize)>],
    own: usize,
    other: usize,
) -> impl Iterator<Item = Block> + 'a {
    blocks[other]
        .iter()
        .filter(move |(others, _)| related_to_all(side, own, *others))
        .map(|&(others, last)| Block {
            others,
            last,
            own_length: 1,
        })
}

/// Every block of the other table that begins with `first`: a path by silent steps of at
/// most as many states as the table has, given as the set of its states and its last one.
fn other_blocks(side: &Side, first: usize) -> BTreeSet<(Set, usize)> {
    let mut found = BTreeSet::from([(1 << first, first)]);
    for _ in 1..side.other.states() {
        for (set, last) in found.clone() {
            for next in side.other.silent_ends_from(last) {
                found.insert((set | 1 << next, next));
            }
        }
    }
    found
}

fn related_to_all(side: &Side, own: usize, others: Set) -> bool {
    (0..side.other.states()).all(|t| others & (1 << t) == 0 || side.related[own][t])
}
