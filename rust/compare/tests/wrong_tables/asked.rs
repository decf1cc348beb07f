//! A judge and a maker that are wrong in one thing, and whether the comparisons find them.

use compare::is_found;
use oracle::Answer;

/// What a wrong function is given: two tables, the rows of the relation, the right answer,
/// and the right answers to other tables.
pub struct Asked<'a> {
    pub tables: [&'a [u8]; 2],
    pub rows: &'a [u8],
    pub answer: Answer,
    others: &'a mut dyn FnMut(&[u8], &[u8]) -> Answer,
}

/// A wrong function, by what is wrong with it.
pub type Wrong = (&'static str, fn(&mut Asked) -> Answer);

/// The version, where there are so many bytes, or 0.
pub fn version(table: &[u8]) -> usize {
    match table {
        [b'T', b'P', b'T', high, low, ..] => *high as usize * 256 + *low as usize,
        _ => 0,
    }
}

impl Asked<'_> {
    /// The right answer to other tables.
    pub fn answer_to(&mut self, [left, right]: [Vec<u8>; 2]) -> Answer {
        (self.others)(&left, &right)
    }

    /// The right answer to the tables after a change to each.
    pub fn with_tables(&mut self, change: impl Fn(&[u8]) -> Vec<u8>) -> Answer {
        self.answer_to(self.tables.map(change))
    }

    /// Where a table is refused with this number, another number in its place.
    pub fn renamed(&self, code: u64, other: impl Fn(&[u8]) -> Option<u64>) -> Answer {
        let mut answer = self.answer;
        if answer[0] == code {
            let table = self.tables[answer[1] as usize];
            answer[0] = other(table).unwrap_or(code);
        }
        answer
    }

    /// Where the left table is refused otherwise or not at all, this number comes first.
    pub fn refuse_table(&self, refused: impl Fn(&[u8]) -> Option<u64>) -> Answer {
        match refused(self.tables[0]) {
            Some(code) => [code, 0, 0, 0, 0, 0],
            None => self.answer,
        }
    }
}

fn judge_differs(wrong: fn(&mut Asked) -> Answer) -> bool {
    is_found(&["the judge differs"], || {
        compare::judge(20_000, 71, |left, right, certificate| {
            wrong(&mut Asked {
                tables: [left, right],
                rows: certificate.get(11..).unwrap_or(&[]),
                answer: oracle::tuned::judge(left, right, certificate),
                others: &mut |left, right| oracle::tuned::judge(left, right, certificate),
            })
        });
    })
}

fn maker_differs(wrong: fn(&mut Asked) -> Answer) -> bool {
    is_found(&["the maker differs"], || {
        compare::make(20_000, 72, |left, right, relation, output| {
            let answer = oracle::tuned_maker::make(left, right, relation, output);
            wrong(&mut Asked {
                tables: [left, right],
                rows: relation,
                answer,
                others: &mut |left, right| oracle::tuned_maker::make(left, right, relation, output),
            })
        });
    })
}

/// Panics where the comparisons do not find one of these.
pub fn require_found(wrong: &[Wrong]) {
    for (name, wrong) in wrong {
        assert!(judge_differs(*wrong), "the judge: {name}");
        assert!(maker_differs(*wrong), "the maker: {name}");
    }
}

/// These functions are right where nothing is changed.
#[test]
fn unchanged_tables_are_no_difference() {
    let right = |asked: &mut Asked| asked.with_tables(<[u8]>::to_vec);
    assert!(!judge_differs(right));
    assert!(!maker_differs(right));
}
