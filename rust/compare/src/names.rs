//! Names for what can be seen of an input, whatever is compared.

use crate::report::of_kind;
use crate::tables::{states, steps, version};
use inputs::{Forms, VERSIONS};
use oracle::{Form, Kind};

pub const SIDES: [&str; 2] = ["left", "right"];

/// The sizes of a well-formed table that stand at a limit.
pub fn limit_names(success: &str) -> Vec<String> {
    let states = [1, 2, 63, 64].map(|n| format!("{success}, n = {n}"));
    let steps = [0, 255, 256].map(|m| format!("{success}, m = {m}"));
    states.into_iter().chain(steps).collect()
}

/// The names of this table's sizes, whether at a limit or not.
pub fn size_names(success: &str, table: &[u8]) -> [String; 2] {
    let (n, m) = (states(table), steps(table).count());
    [format!("{success}, n = {n}"), format!("{success}, m = {m}")]
}

/// What must be seen of tables of each kind that is given, from the forms of that kind.
pub fn of_each_kind(forms: Forms, required: impl Fn(&[Form]) -> Vec<String>) -> Vec<String> {
    let tpt = |versions: &[u16]| -> Vec<Form> {
        let versions = versions.iter();
        versions.map(|&version| Form::tpt(version)).collect()
    };
    let kinds = match forms {
        Forms::Tpt(versions) => vec![(Kind::Tpt, tpt(versions))],
        Forms::Tpk => vec![(Kind::Tpk, vec![Form::TPK])],
        Forms::All => vec![(Kind::Tpt, tpt(VERSIONS)), (Kind::Tpk, vec![Form::TPK])],
    };
    let mut names = Vec::new();
    for (kind, forms) in kinds {
        let required = required(&forms).into_iter();
        names.extend(required.map(|name| of_kind(kind, name)));
    }
    names
}

/// Every mix of these forms on two tables.
pub fn mixes(forms: &[Form]) -> impl Iterator<Item = (Form, Form)> + '_ {
    let with_left = |&left| forms.iter().map(move |&right| (left, right));
    forms.iter().flat_map(with_left)
}

/// The names of these mixes.
pub fn mix_names(what: &str, forms: &[Form]) -> Vec<String> {
    mixes(forms)
        .map(|(left, right)| of_mix(what, left, right))
        .collect()
}

/// The name of this mix.
pub fn of_mix(what: &str, left: Form, right: Form) -> String {
    let (left, right) = (left.version, right.version);
    format!("{what}, versions {left} and {right}")
}

/// The name of the versions of these two tables.
pub fn mix_name(what: &str, left: &[u8], right: &[u8]) -> String {
    format!("{what}, versions {} and {}", version(left), version(right))
}
