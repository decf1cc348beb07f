//! Counting what was seen.

use oracle::Kind;
use std::collections::BTreeMap;
use std::fmt;

/// How often each thing was seen, and what must be seen at least once.
pub struct Report {
    pub seen: BTreeMap<String, u64>,
    required: Vec<String>,
    /// How often each kind of input was given.
    pub labels: BTreeMap<&'static str, u64>,
}

impl Report {
    pub fn new(required: Vec<String>) -> Report {
        Report {
            seen: BTreeMap::new(),
            required,
            labels: BTreeMap::new(),
        }
    }

    pub fn see(&mut self, what: impl Into<String>) {
        self.see_times(what, 1);
    }

    pub fn see_times(&mut self, what: impl Into<String>, times: u64) {
        if times > 0 {
            *self.seen.entry(what.into()).or_default() += times;
        }
    }

    /// What is seen of tables of this kind is told apart.
    pub fn of(&mut self, kind: Kind) -> Seen<'_> {
        Seen { report: self, kind }
    }

    pub fn see_label(&mut self, label: &'static str) {
        *self.labels.entry(label).or_default() += 1;
    }

    /// Panics where something required was never seen.
    pub fn require_all(&self) {
        let missing: Vec<_> = self
            .required
            .iter()
            .filter(|what| !self.seen.contains_key(*what))
            .collect();
        assert!(missing.is_empty(), "never seen: {missing:?}");
    }
}

/// Sees what there is to be seen of tables of one kind.
pub struct Seen<'a> {
    report: &'a mut Report,
    kind: Kind,
}

impl Seen<'_> {
    pub fn kind(&self) -> Kind {
        self.kind
    }

    pub fn see(&mut self, what: impl AsRef<str>) {
        self.see_times(what, 1);
    }

    pub fn see_times(&mut self, what: impl AsRef<str>, times: u64) {
        self.report.see_times(of_kind(self.kind, what), times);
    }
}

/// The name of what is seen of tables of this kind.
pub fn of_kind(kind: Kind, what: impl AsRef<str>) -> String {
    let what = what.as_ref();
    match kind {
        Kind::Tpt => what.to_string(),
        Kind::Tpk => format!("TPK: {what}"),
    }
}

impl fmt::Display for Report {
    fn fmt(&self, f: &mut fmt::Formatter) -> fmt::Result {
        for what in &self.required {
            let times = self.seen.get(what).copied().unwrap_or(0);
            writeln!(f, "{times:>9}  {what}")?;
        }
        Ok(())
    }
}
