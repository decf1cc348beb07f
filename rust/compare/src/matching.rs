//! What a follower has written, held to demand 3 by its own words. Nothing here knows how
//! a follower finds its path: the two outputs are read back, and the four things are
//! tested on the tables and the relation alone.

use crate::tables::{related, states, steps};
use crate::Answer;
use inputs::FollowCase;

/// A run to be followed, and its files.
#[derive(Clone, Copy)]
pub struct Given<'a> {
    pub left: &'a [u8],
    pub right: &'a [u8],
    pub certificate: &'a [u8],
    /// The path's side.
    pub side: u64,
    /// The start on the other side.
    pub start: u64,
    pub path: &'a [u8],
}

/// The states of the path given and of the path written that have one block number.
#[derive(Debug, PartialEq)]
pub struct Block {
    pub given: Vec<usize>,
    pub written: Vec<usize>,
}

impl<'a> Given<'a> {
    /// What is given in this case.
    pub fn of(case: &'a FollowCase) -> Given<'a> {
        Given {
            left: &case.left,
            right: &case.right,
            certificate: &case.certificate,
            side: case.run.side,
            start: case.run.start,
            path: &case.run.path,
        }
    }

    /// What a follower answers, with these outputs.
    pub fn ask<F>(&self, follow: F, states: &mut [u8], blocks: &mut [u8]) -> Answer
    where
        F: FnOnce(&[u8], &[u8], &[u8], u64, u64, &[u8], &mut [u8], &mut [u8]) -> Answer,
    {
        follow(
            self.left,
            self.right,
            self.certificate,
            self.side,
            self.start,
            self.path,
            states,
            blocks,
        )
    }

    /// The path's own table.
    pub fn own(&self) -> &'a [u8] {
        [self.left, self.right][self.side as usize]
    }

    /// The other table.
    pub fn other(&self) -> &'a [u8] {
        [self.right, self.left][self.side as usize]
    }

    /// Reads back the outputs of a follower that has answered with so many states, and
    /// gives the blocks, or what demand 3 finds wrong.
    pub fn matching(&self, count: u64, states: &[u8], blocks: &[u8]) -> Result<Vec<Block>, String> {
        let (given, written) = self.read(count, states, blocks)?;
        self.require_path_from_start(&written)?;
        let (given, written) = (cut(&given)?, cut(&written)?);
        // "Both paths have equally many blocks, none empty."
        if given.len() != written.len() {
            let (given, written) = (given.len(), written.len());
            return Err(format!("{given} blocks are given and {written} written"));
        }
        let matched = given.into_iter().zip(written);
        let matched: Vec<Block> = matched
            .map(|(given, written)| Block { given, written })
            .collect();
        for (number, block) in matched.iter().enumerate() {
            self.require_block(block)
                .map_err(|why| format!("block {number}: {why}"))?;
        }
        self.require_dead_end(&matched)?;
        Ok(matched)
    }

    /// The states with their block numbers, those given and those written.
    fn read(
        &self,
        count: u64,
        states: &[u8],
        blocks: &[u8],
    ) -> Result<(Numbered, Numbered), String> {
        let number = |bytes: &[u8]| bytes[0] as usize * 256 + bytes[1] as usize;
        let numbers = blocks.chunks_exact(2).map(number);
        let path = self.path.iter().map(|&state| state as usize);
        let given: Numbered = path.zip(numbers).collect();
        let entries = states.chunks_exact(3).take(count as usize);
        let written: Numbered = entries
            .map(|entry| (entry[0] as usize, number(&entry[1..])))
            .collect();
        if given.len() != self.path.len() || written.len() as u64 != count {
            return Err("an output is too short".to_string());
        }
        Ok((given, written))
    }

    /// "A path is a list of one or more states of one table, each stepping to the next; it
    /// is a path from its first state."
    fn require_path_from_start(&self, written: &Numbered) -> Result<(), String> {
        let Some(&(first, _)) = written.first() else {
            return Err("no state is written".to_string());
        };
        if first as u64 != self.start {
            return Err(format!("state {first} is written first"));
        }
        if let Some((state, _)) = written.iter().find(|&&(t, _)| t >= states(self.other())) {
            return Err(format!("state {state} is out of range"));
        }
        for pair in written.windows(2) {
            let step = (pair[0].0, pair[1].0);
            if steps(self.other()).all(|other| (other.from, other.to) != step) {
                return Err(format!("{step:?} is no step"));
            }
        }
        Ok(())
    }

    /// "No block has more states than the table its path is in. Every state of a block is
    /// related to every state of the same-numbered block of the other path."
    fn require_block(&self, block: &Block) -> Result<(), String> {
        let (given, written) = (block.given.len(), block.written.len());
        if given > states(self.own()) || written > states(self.other()) {
            return Err(format!("it has {given} and {written} states"));
        }
        for &own in &block.given {
            for &other in &block.written {
                let (s, t) = [(own, other), (other, own)][self.side as usize];
                if !related(&self.certificate[11..], s, t) {
                    return Err(format!("{s} and {t} are not related"));
                }
            }
        }
        Ok(())
    }

    /// "The other state's path ends in a dead end if the given one does."
    fn require_dead_end(&self, matched: &[Block]) -> Result<(), String> {
        let is_dead_end = |table, state| steps(table).all(|step| step.from != state);
        let last = &matched[matched.len() - 1];
        let given = last.given[last.given.len() - 1];
        let written = last.written[last.written.len() - 1];
        if is_dead_end(self.own(), given) && !is_dead_end(self.other(), written) {
            return Err(format!("the path written ends in {written}, no dead end"));
        }
        Ok(())
    }
}

/// States and the numbers of their blocks.
type Numbered = Vec<(usize, usize)>;

/// "It is cut into blocks when each block is a stretch of neighbouring states and the
/// blocks, one after the other, make up the path; they are numbered from 0."
fn cut(path: &Numbered) -> Result<Vec<Vec<usize>>, String> {
    let mut blocks: Vec<Vec<usize>> = Vec::new();
    for &(state, number) in path {
        if number == blocks.len() {
            blocks.push(Vec::new());
        }
        if number + 1 != blocks.len() {
            let count = blocks.len();
            return Err(format!("block {number} comes after {count} blocks"));
        }
        blocks[number].push(state);
    }
    Ok(blocks)
}

#[cfg(test)]
mod tests {
    use super::*;

    /// P, Q and K of the scope document, and a run of P.
    const RUN: Given = Given {
        left: b"TPT\0\x01\x02\0\0\x02\0\0\0\x01\0\x01\x01\0",
        right: b"TPT\0\x01\x03\0\0\x03\0\0\0\0\0\x01\0\x01\x01\x02\x02\0",
        certificate: b"TPC\0\x01\x02\x03\0\x02\0\x03\
            \0\0\0\0\0\0\0\x03\0\0\0\0\0\0\0\x04\
            \0\0\0\0\0\0\x01\0\0\0\0\0\x01\0\0\0\0\0\0\0\0\0\0\0",
        side: 0,
        start: 0,
        path: &[0, 1, 0],
    };

    const STATES: [u8; 15] = [0, 0, 0, 1, 0, 0, 2, 0, 1, 0, 0, 2, 7, 7, 7];
    const BLOCKS: [u8; 8] = [0, 0, 0, 1, 0, 2, 7, 7];

    #[test]
    fn a_path_that_matches_is_read_back() {
        assert_eq!(oracle::judge(RUN.left, RUN.right, RUN.certificate)[0], 0);
        let block = |given: &[usize], written: &[usize]| Block {
            given: given.to_vec(),
            written: written.to_vec(),
        };
        let blocks = vec![block(&[0], &[0, 1]), block(&[1], &[2]), block(&[0], &[0])];
        assert_eq!(RUN.matching(4, &STATES, &BLOCKS), Ok(blocks));
    }

    /// The outputs after one byte is replaced, or a count of states.
    #[test]
    fn each_thing_is_tested() {
        let states = |place: usize, byte: u8| {
            let mut states = STATES;
            states[place] = byte;
            RUN.matching(4, &states, &BLOCKS)
        };
        let blocks = |place: usize, byte: u8| {
            let mut blocks = BLOCKS;
            blocks[place] = byte;
            RUN.matching(4, &STATES, &blocks)
        };
        for (found, why) in [
            (states(0, 1), "state 1 is written first"),
            (states(9, 3), "state 3 is out of range"),
            (states(9, 1), "(2, 1) is no step"),
            (states(8, 2), "block 2 comes after 1 blocks"),
            (states(7, 1), "block 257 comes after 1 blocks"),
            (states(11, 1), "3 blocks are given and 2 written"),
            (blocks(1, 1), "block 1 comes after 0 blocks"),
            (blocks(3, 0), "block 2 comes after 1 blocks"),
            (blocks(5, 1), "2 blocks are given and 3 written"),
            (RUN.matching(0, &STATES, &BLOCKS), "no state is written"),
            (
                RUN.matching(3, &STATES, &BLOCKS),
                "3 blocks are given and 2 written",
            ),
            (RUN.matching(6, &STATES, &BLOCKS), "an output is too short"),
            (
                RUN.matching(4, &STATES, &BLOCKS[..5]),
                "an output is too short",
            ),
        ] {
            assert_eq!(found, Err(why.to_string()));
        }
    }
    /// One state on both sides, which steps to itself.
    #[test]
    fn a_block_has_no_more_states_than_its_table() {
        let table = b"TPT\0\x01\x01\0\0\x01\0\0\0\0";
        let run = |path| Given {
            left: table,
            right: table,
            certificate: b"TPC\0\x01\x01\x01\0\x01\0\x01\0\0\0\0\0\0\0\x01\0\0\0\0",
            side: 1,
            start: 0,
            path,
        };
        let matching = run(&[0, 0]).matching(1, &[0; 3], &[0; 4]);
        assert_eq!(matching, Err("block 0: it has 2 and 1 states".to_string()));
        let matching = run(&[0]).matching(2, &[0; 6], &[0; 2]);
        assert_eq!(matching, Err("block 0: it has 1 and 2 states".to_string()));
    }
}
