//! Reading a table of states, marks and steps.

use crate::Answer;
use std::ops::Range;

/// A step from one state to another. Steps are compared "by from, then by to", and where
/// they have keys "by from, to, key".
#[derive(Clone, Copy, Debug, PartialEq, Eq, PartialOrd, Ord)]
pub struct Step {
    pub from: usize,
    pub to: usize,
    /// The key under which the step is made. In "TPT" no step has one, and it is 0.
    pub key: u8,
}

impl Step {
    /// "key 0 is silent"
    pub fn is_silent(&self) -> bool {
        self.key == 0
    }
}

/// A table as it stands in a file. The number of states is the number of marks.
#[derive(Clone, Debug, PartialEq, Eq)]
pub struct Table {
    pub form: Form,
    /// The starts, rising. "A table of an older version has one start."
    pub starts: Vec<usize>,
    /// "A mark from an older file is the same number in 32 bits".
    pub marks: Vec<u32>,
    pub steps: Vec<Step>,
}

/// "A sibling table "TPK"" has steps with keys, and "TPT" has none.
#[derive(Clone, Copy, Debug, PartialEq, Eq, PartialOrd, Ord)]
pub enum Kind {
    Tpt,
    Tpk,
}

impl Kind {
    pub const ALL: [Kind; 2] = [Kind::Tpt, Kind::Tpk];

    /// The first three bytes of a table of this kind.
    pub fn bytes(self) -> &'static [u8; 3] {
        match self {
            Kind::Tpt => b"TPT",
            Kind::Tpk => b"TPK",
        }
    }

    /// The kind that these bytes begin with, where it is one.
    pub fn of_file(bytes: &[u8]) -> Option<Kind> {
        let mut kinds = Kind::ALL.into_iter();
        kinds.find(|kind| bytes.starts_with(kind.bytes()))
    }
}

/// What the first five bytes of a table say.
#[derive(Clone, Copy, Debug, PartialEq, Eq, PartialOrd, Ord)]
pub struct Form {
    pub kind: Kind,
    pub version: u16,
}

impl Form {
    /// ""TPK", version 1 only"
    pub const TPK: Form = Form {
        kind: Kind::Tpk,
        version: 1,
    };

    /// "TPT" in this version.
    pub const fn tpt(version: u16) -> Form {
        Form {
            kind: Kind::Tpt,
            version,
        }
    }

    /// The form that stands in these bytes, where the first three are those of a kind.
    pub fn of_file(bytes: &[u8]) -> Option<Form> {
        let kind = Kind::of_file(bytes)?;
        let version = number(bytes.get(3..5)?) as u16;
        Some(Form { kind, version })
    }
}

/// What the form of a table decides: where everything stands in the file, and whether the
/// steps rise.
#[derive(Clone, Copy, Debug, PartialEq, Eq)]
pub struct TableLayout {
    /// How many bytes stand before the marks; the last two of them are m.
    pub header: usize,
    /// The starts are a 64-bit word, which stands "in place of byte 6".
    pub start_word: bool,
    /// How many bytes a mark has.
    pub mark_width: usize,
    /// How many bytes a step has.
    pub step_width: usize,
    /// The steps "rise by from, then by to", and those with keys "by from, to, key".
    pub rising: bool,
}

impl TableLayout {
    /// The layout of this form, where there is such a version.
    pub fn of(form: Form) -> Option<TableLayout> {
        match (form.kind, form.version) {
            // "Byte 6: start, below n. Bytes 7, 8: m [...]. Then n marks of 16 bits. Then m
            // steps, two bytes each, from and to, [...] any order."
            (Kind::Tpt, 1) => Some(TableLayout {
                header: 9,
                start_word: false,
                mark_width: 2,
                step_width: 2,
                rising: false,
            }),
            // "Table version 2 has the layout of version 1, but its steps rise"
            (Kind::Tpt, 2) => Some(TableLayout {
                header: 9,
                start_word: false,
                mark_width: 2,
                step_width: 2,
                rising: true,
            }),
            // "Table version 3 [...] has, in place of byte 6, a 64-bit word of starts, so its
            // header is 16 bytes [...]. Steps rise as in version 2"
            (Kind::Tpt, 3) => Some(TableLayout {
                header: 16,
                start_word: true,
                mark_width: 2,
                step_width: 2,
                rising: true,
            }),
            // "Table version 4, passed by 3 too, is version 3 with marks of four bytes"
            (Kind::Tpt, 4) => Some(TableLayout {
                header: 16,
                start_word: true,
                mark_width: 4,
                step_width: 2,
                rising: true,
            }),
            // "A sibling table "TPK", version 1 only, [...] has the header, start word and
            // marks of TPT version 4 and steps of three bytes [...] and steps rise"
            (Kind::Tpk, 1) => Some(TableLayout {
                header: 16,
                start_word: true,
                mark_width: 4,
                step_width: 3,
                rising: true,
            }),
            _ => None,
        }
    }

    /// The layout of the form that stands in these bytes, where it stands there.
    pub fn of_file(bytes: &[u8]) -> Option<TableLayout> {
        TableLayout::of(Form::of_file(bytes)?)
    }

    /// Where the start or the word of starts stands.
    pub fn starts(&self) -> Range<usize> {
        6..self.header - 2
    }

    /// Where m stands.
    pub fn m(&self) -> Range<usize> {
        self.header - 2..self.header
    }

    /// The place of the first byte of the mark of state s.
    pub fn mark(&self, s: usize) -> usize {
        self.header + self.mark_width * s
    }

    /// The place of the first byte of step j, where there are n states.
    pub fn step(&self, n: usize, j: usize) -> usize {
        self.mark(n) + self.step_width * j
    }

    /// "Length exactly 9 + 2n + 2m"; of version 3 "its length 16 + 2n + 2m", of version 4 "its
    /// length is 16 + 4n + 2m", and of a "TPK" table "Length is 16 + 4n + 3m".
    pub fn length(&self, n: usize, m: usize) -> usize {
        self.step(n, m)
    }
}

impl Table {
    pub fn layout(&self) -> TableLayout {
        TableLayout::of(self.form).expect("a table has one of the versions")
    }

    pub fn states(&self) -> usize {
        self.marks.len()
    }

    /// "Steps are numbered from 0": the numbers of the steps from a state, in
    /// table order.
    pub fn steps_from(&self, state: usize) -> Vec<usize> {
        (0..self.steps.len())
            .filter(|&j| self.steps[j].from == state)
            .collect()
    }

    /// The states to which a state steps, in table order, whatever the keys.
    pub fn ends_from(&self, state: usize) -> impl Iterator<Item = usize> + '_ {
        self.steps
            .iter()
            .filter(move |step| step.from == state)
            .map(|step| step.to)
    }

    /// Those to which it steps under this key.
    pub fn ends_under(&self, key: u8, state: usize) -> impl Iterator<Item = usize> + '_ {
        self.steps
            .iter()
            .filter(move |step| step.from == state && step.key == key)
            .map(|step| step.to)
    }

    /// Those to which it steps silently.
    pub fn silent_ends_from(&self, state: usize) -> impl Iterator<Item = usize> + '_ {
        self.ends_under(0, state)
    }

    /// "A dead end is a state with no step from it."
    pub fn is_dead_end(&self, state: usize) -> bool {
        self.steps.iter().all(|step| step.from != state)
    }
}

/// "Numbers of two bytes or more have the high byte first."
pub fn number(bytes: &[u8]) -> usize {
    bytes
        .iter()
        .fold(0, |high, &byte| high * 256 + byte as usize)
}

/// Reads a table of either kind, or gives the answer that turns it away. `file` is 0 for
/// the left table and 1 for the right one.
pub fn read_table(bytes: &[u8], file: u64) -> Result<Table, Answer> {
    read_table_of(&Kind::ALL, bytes, file)
}

/// The same where tables of these kinds are taken. The causes are tried in rising order, 24
/// "in place of 9" and 28 "where 5 is"; 1 has a second place.
pub fn read_table_of(kinds: &[Kind], bytes: &[u8], file: u64) -> Result<Table, Answer> {
    let refuse = |code: u64, a: usize| Err([code, file, a as u64, 0, 0, 0]);

    // "table under 9 bytes"
    if bytes.len() < 9 {
        return refuse(1, 0);
    }
    // "Bytes 0 to 2: "TPT""; "A sibling table "TPK" [...] passes 2"
    let Some(form) = Form::of_file(bytes).filter(|form| kinds.contains(&form.kind)) else {
        return refuse(2, 0);
    };
    // "3 is now for versions other than 1 and 2"; "Table version 3, now passed by 3";
    // "Table version 4, passed by 3 too"; ""TPK", version 1 only"
    let Some(layout) = TableLayout::of(form) else {
        return refuse(3, 0);
    };
    // "a file with a start word and under 16 bytes gets 1, right after 3 is tested"
    if bytes.len() < layout.header {
        return refuse(1, 0);
    }
    // "Byte 5: n, states, 1 to 64."
    let n = bytes[5] as usize;
    if n < 1 || n > 64 {
        return refuse(4, 0);
    }
    let starts = number(&bytes[layout.starts()]);
    let starts: Vec<usize> = if layout.start_word {
        (0..64).filter(|s| starts >> s & 1 == 1).collect()
    } else {
        vec![starts]
    };
    let out_of_range = starts.iter().any(|&s| s >= n);
    // "Byte 6: start, below n."
    if !layout.start_word && out_of_range {
        return refuse(5, 0);
    }
    // "28 when the word is 0 or has a bit n or more, tested where 5 is, with only the
    // file returned."
    if layout.start_word && (starts.is_empty() || out_of_range) {
        return refuse(28, 0);
    }
    // "m, steps, 0 to 256"
    let m = number(&bytes[layout.m()]);
    if m > 256 {
        return refuse(6, 0);
    }
    if bytes.len() != layout.length(n, m) {
        return refuse(7, 0);
    }

    // "Then n marks of 16 bits"; in version 4 "marks of four bytes"
    let marks: Vec<u32> = (0..n)
        .map(|s| number(&bytes[layout.mark(s)..layout.mark(s + 1)]) as u32)
        .collect();

    // "Then m steps, two bytes each, from and to"; "steps of three bytes: from, to, key"
    let steps: Vec<Step> = (0..m)
        .map(|j| match bytes[layout.step(n, j)..layout.step(n, j + 1)] {
            [from, to] => (from, to, 0),
            [from, to, key] => (from, to, key),
            _ => unreachable!("a step has two bytes or three"),
        })
        .map(|(from, to, key)| Step {
            from: from as usize,
            to: to as usize,
            key,
        })
        .collect();

    // "both below n"; every step is tested for this before any for the next.
    if let Some(j) = (0..m).find(|&j| steps[j].from >= n || steps[j].to >= n) {
        return refuse(8, j);
    }
    if layout.rising {
        // "24 when a step of a version 2 table is not greater than the one before it";
        // in version 3 "steps rise as in version 2, under 24", and version 4 "is version 3";
        // those with keys "rise by from, to, key under 24"
        if let Some(j) = (1..m).find(|&j| !(steps[j] > steps[j - 1])) {
            return refuse(24, j);
        }
    } else {
        // "no step twice"
        if let Some(j) = (0..m).find(|&j| steps[..j].contains(&steps[j])) {
            return refuse(9, j);
        }
    }

    Ok(Table {
        form,
        starts,
        marks,
        steps,
    })
}
