//! The two sides of a pair of tables, and the order in which they are judged.

use crate::table::{Step, Table};
use crate::Answer;

/// "A duty is a related pair (s, t) with a step s to u of the left; or a step of
/// the right, the sides exchanged throughout." A side is the view from the table
/// whose step it is: on side 1, `own` is the right table and `other` the left.
pub struct Side<'a> {
    pub own: &'a Table,
    pub other: &'a Table,
    /// `related[own state][other state]`
    pub related: Vec<Vec<bool>>,
}

impl Side<'_> {
    /// The duty of the own step j at the other state t, where this side has this number.
    pub fn duty(&self, side: usize, t: usize, j: usize) -> Duty {
        let Step { from, to, key } = self.own.steps[j];
        let (s, u) = (from, to);
        Duty {
            side,
            s,
            t,
            j,
            u,
            key,
        }
    }

    /// 18 and 22 ask for "u, t unrelated", and "a key other than 0 counts as well".
    pub fn cannot_pause(&self, duty: Duty) -> bool {
        !self.related[duty.u][duty.t] || !duty.is_silent()
    }
}

/// Both sides, the left one first.
pub fn both_sides<'a>(left: &'a Table, right: &'a Table, related: &[Vec<bool>]) -> [Side<'a>; 2] {
    let exchanged = (0..right.states())
        .map(|t| (0..left.states()).map(|s| related[s][t]).collect())
        .collect();
    [
        Side {
            own: left,
            other: right,
            related: related.to_vec(),
        },
        Side {
            own: right,
            other: left,
            related: exchanged,
        },
    ]
}

/// "30 when one table is TPT and the other TPK, tested after both are read, with file 1".
pub fn test_kinds(left: &Table, right: &Table) -> Result<(), Answer> {
    if left.form.kind == right.form.kind {
        Ok(())
    } else {
        Err([30, 1, 0, 0, 0, 0])
    }
}

/// A duty: own state s, other state t, and own step j from s to u under this key.
#[derive(Clone, Copy)]
pub struct Duty {
    pub side: usize,
    pub s: usize,
    pub t: usize,
    pub j: usize,
    pub u: usize,
    pub key: u8,
}

impl Duty {
    /// "key 0 is silent"
    pub fn is_silent(&self) -> bool {
        self.key == 0
    }

    /// "side, left state, right state, step": these four name a duty.
    pub fn name(&self) -> [u64; 4] {
        let (left, right) = if self.side == 0 {
            (self.s, self.t)
        } else {
            (self.t, self.s)
        };
        [self.side, left, right, self.j].map(|number| number as u64)
    }

    /// "2, a side, b left state, c right state, d step"
    pub fn refusal(&self, code: u64) -> Answer {
        let [side, left, right, step] = self.name();
        [code, 2, side, left, right, step]
    }
}

/// One thing to look at: the marks of a related pair, or one of its duties.
pub enum Look {
    Marks { s: usize, t: usize },
    Duty(Duty),
}

/// "Then pairs, s rising, then t rising; in a pair the marks, then left steps
/// from s in table order, then right steps from t."
pub fn judging_order(sides: &[Side; 2]) -> Vec<Look> {
    let (left, right) = (sides[0].own, sides[1].own);
    let mut looks = Vec::new();
    for s in 0..left.states() {
        for t in 0..right.states() {
            if !sides[0].related[s][t] {
                continue;
            }
            looks.push(Look::Marks { s, t });
            for j in left.steps_from(s) {
                looks.push(Look::Duty(sides[0].duty(0, t, j)));
            }
            for j in right.steps_from(t) {
                looks.push(Look::Duty(sides[1].duty(1, s, j)));
            }
        }
    }
    looks
}

/// "The starts rule now is that each left start is related to some right start and
/// each right start to some left one." Gives the side and the number of the first
/// start that is unpaired, "left first".
pub fn first_unpaired(sides: &[Side; 2]) -> Option<(usize, usize)> {
    for (number, side) in sides.iter().enumerate() {
        for &s in &side.own.starts {
            if !side.other.starts.iter().any(|&t| side.related[s][t]) {
                return Some((number, s));
            }
        }
    }
    None
}

/// 16. "Where either table has a start word, 16 returns the side in a and the first
/// unpaired start in b, left first"; otherwise "a left start, b right start".
pub fn test_starts(sides: &[Side; 2]) -> Result<(), Answer> {
    let Some((side, start)) = first_unpaired(sides) else {
        return Ok(());
    };
    let (left, right) = (sides[0].own, sides[1].own);
    let (a, b) = if left.layout().start_word || right.layout().start_word {
        (side, start)
    } else {
        (left.starts[0], right.starts[0])
    };
    Err([16, 2, a as u64, b as u64, 0, 0])
}

/// "marks differ": 17, with "a s, b t".
pub fn test_marks(left: &Table, right: &Table, s: usize, t: usize) -> Result<(), Answer> {
    if left.marks[s] == right.marks[t] {
        Ok(())
    } else {
        Err([17, 2, s as u64, t as u64, 0, 0])
    }
}
