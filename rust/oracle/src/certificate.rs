//! The layout of a certificate, and reading one.

use crate::table::{number, Table};
use crate::Answer;

/// The sizes of the two tables, which decide where everything in a certificate
/// stands.
#[derive(Clone, Copy, Debug, PartialEq, Eq)]
pub struct Layout {
    pub n1: usize,
    pub n2: usize,
    pub m1: usize,
    pub m2: usize,
}

impl Layout {
    pub fn new(left: &Table, right: &Table) -> Layout {
        Layout {
            n1: left.states(),
            n2: right.states(),
            m1: left.steps.len(),
            m2: right.steps.len(),
        }
    }

    /// "Then n1 rows of 64 bits": the place of the first byte of row s.
    pub fn row(&self, s: usize) -> usize {
        11 + 8 * s
    }

    /// "AL, at s times n2 + t"
    pub fn al(&self, s: usize, t: usize) -> usize {
        11 + 8 * self.n1 + s * self.n2 + t
    }

    /// "AR, at t times n1 + s"
    pub fn ar(&self, t: usize, s: usize) -> usize {
        11 + 8 * self.n1 + self.n1 * self.n2 + t * self.n1 + s
    }

    /// "CL, at j times n2 + t for left step j"
    pub fn cl(&self, j: usize, t: usize) -> usize {
        11 + 8 * self.n1 + 2 * self.n1 * self.n2 + j * self.n2 + t
    }

    /// "CR, at j times n1 + s for right step j"
    pub fn cr(&self, j: usize, s: usize) -> usize {
        11 + 8 * self.n1 + 2 * self.n1 * self.n2 + self.m1 * self.n2 + j * self.n1 + s
    }

    /// "Length L = 11 + 8 n1 + 2 n1 n2 + m1 n2 + m2 n1"
    pub fn length(&self) -> usize {
        11 + 8 * self.n1 + 2 * self.n1 * self.n2 + self.m1 * self.n2 + self.m2 * self.n1
    }

    /// The first eleven bytes: "TPC", version 1 in two bytes, n1, n2 in one byte
    /// each, m1, m2 in two.
    pub fn header(&self) -> [u8; 11] {
        let [m1_high, m1_low] = (self.m1 as u16).to_be_bytes();
        let [m2_high, m2_low] = (self.m2 as u16).to_be_bytes();
        let (n1, n2) = (self.n1 as u8, self.n2 as u8);
        [
            b'T', b'P', b'C', 0, 1, n1, n2, m1_high, m1_low, m2_high, m2_low,
        ]
    }
}

/// The ranks of one side. `stutter[own state][other state]` are its A ranks and
/// `chase[own step][other state]` its C ranks.
pub struct Ranks {
    pub stutter: Vec<Vec<u8>>,
    pub chase: Vec<Vec<u8>>,
}

/// A certificate: which left state is related to which right state, and the
/// ranks of the left and of the right side.
pub struct Certificate {
    pub related: Vec<Vec<bool>>,
    pub ranks: [Ranks; 2],
}

/// Reads n1 rows: "s and t are related when row s has the bit of weight 2 to the
/// power t; bits n2 and up are 0."
pub fn read_rows(bytes: &[u8], n1: usize, n2: usize) -> Result<Vec<Vec<bool>>, Answer> {
    let mut related = vec![vec![false; n2]; n1];
    for s in 0..n1 {
        let row = number(&bytes[8 * s..8 * s + 8]) as u64;
        for bit in 0..64 {
            if row & (1 << bit) != 0 {
                // "row bit n2 or more"
                if bit >= n2 {
                    return Err([15, 2, s as u64, 0, 0, 0]);
                }
                related[s][bit] = true;
            }
        }
    }
    Ok(related)
}

/// Reads a certificate, or gives the answer that turns it away.
pub fn read_certificate(bytes: &[u8], left: &Table, right: &Table) -> Result<Certificate, Answer> {
    let refuse = |code: u64| Err([code, 2, 0, 0, 0, 0]);
    let layout = Layout::new(left, right);
    let Layout { n1, n2, m1, m2 } = layout;

    // "certificate under 11 bytes"
    if bytes.len() < 11 {
        return refuse(10);
    }
    // "its first three bytes"
    if bytes[0..3] != *b"TPC" {
        return refuse(11);
    }
    // "its version not 1"
    if number(&bytes[3..5]) != 1 {
        return refuse(12);
    }
    // "a size unlike the tables'"
    if bytes[5] as usize != n1
        || bytes[6] as usize != n2
        || number(&bytes[7..9]) != m1
        || number(&bytes[9..11]) != m2
    {
        return refuse(13);
    }
    // "its length"
    if bytes.len() != layout.length() {
        return refuse(14);
    }

    let related = read_rows(&bytes[layout.row(0)..], n1, n2)?;
    let left_ranks = Ranks {
        stutter: grid(n1, n2, |s, t| bytes[layout.al(s, t)]),
        chase: grid(m1, n2, |j, t| bytes[layout.cl(j, t)]),
    };
    let right_ranks = Ranks {
        stutter: grid(n2, n1, |t, s| bytes[layout.ar(t, s)]),
        chase: grid(m2, n1, |j, s| bytes[layout.cr(j, s)]),
    };
    Ok(Certificate {
        related,
        ranks: [left_ranks, right_ranks],
    })
}

/// A table of values, `rows` times `columns`.
fn grid(rows: usize, columns: usize, value: impl Fn(usize, usize) -> u8) -> Vec<Vec<u8>> {
    (0..rows)
        .map(|row| (0..columns).map(|column| value(row, column)).collect())
        .collect()
}
