//! Two tables and a relation, and how they are written as files.

use crate::keys::take_keys_off;
use crate::marks::greatest_mark;
use crate::program_cases::joined;
use crate::random::Random;
use crate::starts::add_all_starts;
use oracle::{Form, Kind, Layout, Step, Table};

type Make = fn(&[u8], &[u8], &[u8], &mut [u8]) -> [u64; 6];

#[derive(Clone, PartialEq, Eq)]
pub struct System {
    pub left: Table,
    pub right: Table,
    /// `related[left state][right state]`
    pub related: Vec<Vec<bool>>,
}

impl System {
    pub fn layout(&self) -> Layout {
        Layout::new(&self.left, &self.right)
    }

    pub fn left_bytes(&self) -> Vec<u8> {
        table_bytes(&self.left)
    }

    pub fn right_bytes(&self) -> Vec<u8> {
        table_bytes(&self.right)
    }

    pub fn relation_bytes(&self) -> Vec<u8> {
        relation_bytes(&self.related)
    }

    /// The table of a side, 0 left and 1 right.
    pub fn table(&self, side: usize) -> &Table {
        [&self.left, &self.right][side]
    }

    pub fn table_mut(&mut self, side: usize) -> &mut Table {
        match side {
            0 => &mut self.left,
            _ => &mut self.right,
        }
    }

    /// A state of this side and one of the other are related.
    pub fn is_related(&self, side: usize, own: usize, other: usize) -> bool {
        let (s, t) = [(own, other), (other, own)][side];
        self.related[s][t]
    }

    /// The related pairs, left state first.
    pub fn pairs(&self) -> Vec<(usize, usize)> {
        let mut pairs = Vec::new();
        for (s, row) in self.related.iter().enumerate() {
            pairs.extend((0..row.len()).filter(|&t| row[t]).map(|t| (s, t)));
        }
        pairs
    }

    /// What the maker of the oracle answers, and the certificate where it made one.
    pub fn make(&self) -> ([u64; 6], Vec<u8>) {
        self.make_by(oracle::make)
    }

    fn make_by(&self, make: Make) -> ([u64; 6], Vec<u8>) {
        let mut output = vec![0; self.layout().length()];
        let answer = make(
            &self.left_bytes(),
            &self.right_bytes(),
            &self.relation_bytes(),
            &mut output,
        );
        (answer, output)
    }

    /// The certificate made. It is made by the tuned maker, which writes the same and is
    /// fast on the fullest systems too.
    pub fn certificate(&self) -> Vec<u8> {
        let (answer, certificate) = self.make_by(oracle::tuned_maker::make);
        assert_eq!(answer[0], 0, "no certificate is made");
        certificate
    }

    /// Both tables and the certificate made, as an input for the programs.
    pub fn input(&self) -> Vec<u8> {
        joined(&[self.left_bytes(), self.right_bytes(), self.certificate()])
    }

    /// A certificate with this relation and ranks from 0 to `highest`.
    pub fn certificate_with_any_ranks(&self, random: &mut Random, highest: usize) -> Vec<u8> {
        let mut bytes = self.layout().header().to_vec();
        bytes.extend(self.relation_bytes());
        while bytes.len() < self.layout().length() {
            bytes.push(random.within(0, highest) as u8);
        }
        bytes
    }

    /// The same tables with the relation of this certificate, which fits them.
    pub fn with_rows_of(&self, certificate: &[u8]) -> System {
        let mut system = self.clone();
        for (s, row) in system.related.iter_mut().enumerate() {
            let place = self.layout().row(s);
            for (t, pair) in row.iter_mut().enumerate() {
                *pair = certificate[place + 7 - t / 8] >> (t % 8) & 1 == 1;
            }
        }
        system
    }

    /// The same system with its tables in every mix of the versions. Those that can have
    /// several starts have all that are then paired.
    pub fn in_all_versions(&self) -> Vec<System> {
        let mut systems = Vec::new();
        for &left in VERSIONS {
            for &right in VERSIONS {
                let mut system = self.clone();
                save_in(&mut system.left, Form::tpt(left));
                save_in(&mut system.right, Form::tpt(right));
                add_all_starts(&mut system);
                systems.push(system);
            }
        }
        systems
    }

    /// The same system with all the starts that are then paired.
    pub fn with_all_starts(mut self) -> System {
        add_all_starts(&mut self);
        self
    }

    /// Both tables have keys.
    pub fn has_keys(&self) -> bool {
        self.is_of_one_kind() && self.left.form.kind == Kind::Tpk
    }

    pub fn is_of_one_kind(&self) -> bool {
        self.left.form.kind == self.right.form.kind
    }

    /// The same system with both tables as tables with keys, where their kinds differ.
    pub fn in_one_kind(&self) -> System {
        let mut system = self.clone();
        if !self.is_of_one_kind() {
            save_in(&mut system.left, Form::TPK);
            save_in(&mut system.right, Form::TPK);
        }
        system
    }

    /// The same system with left and right exchanged.
    pub fn exchanged(self) -> System {
        let related = (0..self.right.states())
            .map(|t| self.related.iter().map(|row| row[t]).collect())
            .collect();
        System {
            left: self.right,
            right: self.left,
            related,
        }
    }
}

/// The versions of a table without keys.
pub const VERSIONS: &[u16] = &[1, 2, 3, 4];

/// Of which forms the tables of a system are.
#[derive(Clone, Copy, Debug, PartialEq, Eq)]
pub enum Forms {
    /// Both without keys, each in one of these versions.
    Tpt(&'static [u16]),
    /// Both with keys.
    Tpk,
    /// Both without keys in any versions, both with keys, or one of each.
    All,
}

/// Puts a table into a form. The steps are sorted where they must rise; the first start
/// alone, the low half of a mark, and of steps that differ in their key only the first are
/// kept where there is no room for more.
pub fn save_in(table: &mut Table, form: Form) {
    table.form = form;
    let layout = table.layout();
    if form.kind == Kind::Tpt {
        take_keys_off(&mut table.steps);
    }
    if layout.rising {
        table.steps.sort();
    }
    if !layout.start_word {
        table.starts.truncate(1);
    }
    let greatest = greatest_mark(table);
    for mark in &mut table.marks {
        *mark &= greatest;
    }
}

pub fn table_bytes(table: &Table) -> Vec<u8> {
    let layout = table.layout();
    let mut bytes = table.form.kind.bytes().to_vec();
    bytes.extend(table.form.version.to_be_bytes());
    bytes.push(table.states() as u8);
    if layout.start_word {
        let word: u64 = table.starts.iter().map(|&s| 1u64 << s).sum();
        bytes.extend(word.to_be_bytes());
    } else {
        bytes.push(table.starts[0] as u8);
    }
    bytes.extend((table.steps.len() as u16).to_be_bytes());
    let unused = 4 - layout.mark_width;
    for mark in &table.marks {
        bytes.extend(&mark.to_be_bytes()[unused..]);
    }
    for &Step { from, to, key } in &table.steps {
        bytes.extend(&[from as u8, to as u8, key][..layout.step_width]);
    }
    bytes
}

pub fn relation_bytes(related: &[Vec<bool>]) -> Vec<u8> {
    let mut bytes = Vec::new();
    for row in related {
        let word: u64 = (0..row.len()).filter(|&t| row[t]).map(|t| 1u64 << t).sum();
        bytes.extend(word.to_be_bytes());
    }
    bytes
}
