//! What every comparison must see of keys, where the steps have them: a function that did not
//! look at them, or looked at them in another place, would differ.

use crate::accepted::Accepted;
use crate::answers_seen::Files;
use crate::names::SIDES;
use crate::report::Seen;
use crate::tables::{related, states, steps};
use crate::Answer;
use oracle::{Kind, Line, Step};

/// Keys that must be on steps from related states.
const KEYS: [u8; 3] = [0, 1, 255];

/// What can be special about the steps of a table.
const DIFFER_IN_KEY: &str = "two steps differ in their key only";
const NO_SILENT_STEP: &str = "a state has steps, and none is silent";

/// What must be seen of tables that are not refused.
pub fn required(success: &str) -> Vec<String> {
    let mut required = Vec::new();
    for side in SIDES {
        required.extend(KEYS.map(|key| with_key(success, side, key)));
        let special = [DIFFER_IN_KEY, NO_SILENT_STEP];
        required.extend(special.map(|what| format!("{success}, {side} table, {what}")));
    }
    required
}

fn with_key(success: &str, side: &str, key: u8) -> String {
    format!("{success}, {side} table, key {key}")
}

/// Sees the keys of tables that are not refused, on steps from related states.
pub fn see_success(seen: &mut Seen, success: &str, files: Files) {
    if seen.kind() == Kind::Tpt {
        return;
    }
    for (number, side) in SIDES.into_iter().enumerate() {
        let sides = Sides { files, number };
        let from_related: Vec<Step> = steps(sides.own())
            .filter(|step| (0..states(sides.other())).any(|t| sides.related(step.from, t)))
            .collect();
        for step in &from_related {
            seen.see(with_key(success, side, step.key));
            let of_state = || from_related.iter().filter(|other| other.from == step.from);
            if of_state().any(|other| other.to == step.to && other.key != step.key) {
                seen.see(format!("{success}, {side} table, {DIFFER_IN_KEY}"));
            }
            if of_state().all(|other| !other.is_silent()) {
                seen.see(format!("{success}, {side} table, {NO_SILENT_STEP}"));
            }
        }
    }
}

/// The duty's step is silent, or it has a key.
const SILENT: &str = "key 0";
const KEYED: &str = "a key";

fn silence(key: u8) -> &'static str {
    if key == 0 {
        SILENT
    } else {
        KEYED
    }
}

/// What can be special about a duty that is met, by its clause, and about one that fails.
const SMALLER_BY_ANOTHER_KEY: &str = "a smaller state would serve but for the key";
const ALSO_2A: &str = "2a but for the key";
const ALSO_2B: &str = "2b but for the key";
const ALSO_2C: &str = "2c but for the key";
const ALSO_2C_BY_OWN: &str = "2c but for the key, which is the duty's own";
const END_RELATED: &str = "u and t are related";
const KEYED_STAYS: &str = "a step with a key stays with s";

const CLAUSES: [&str; 3] = ["2a", "2b", "2c"];

/// A clause and the key of the duty that it meets, and what can be special about it.
const MET: [(&str, &str); 10] = [
    ("2a", SILENT),
    ("2a", KEYED),
    ("2b", SILENT),
    ("2c", SILENT),
    ("2c", KEYED),
    ("2a", SMALLER_BY_ANOTHER_KEY),
    ("2b", ALSO_2A),
    ("2c", ALSO_2A),
    ("2c", ALSO_2B),
    ("2c", SMALLER_BY_ANOTHER_KEY),
];

const FAILED: [(u64, &str); 13] = [
    (18, SILENT),
    (18, KEYED),
    (18, ALSO_2A),
    (18, ALSO_2B),
    (18, ALSO_2C),
    (18, ALSO_2C_BY_OWN),
    (18, END_RELATED),
    (18, KEYED_STAYS),
    (19, SILENT),
    (19, KEYED),
    (19, ALSO_2A),
    (19, ALSO_2B),
    (19, ALSO_2C),
];

/// What must be seen of duties that a judge finds met, on either side.
pub fn required_of_met() -> Vec<String> {
    let names = SIDES.map(|side| MET.map(|(clause, what)| met(side, clause, what)));
    names.into_iter().flatten().collect()
}

/// What must be seen of them where the certificate is one that was made.
pub fn required_of_met_as_made() -> Vec<String> {
    let mut required = required_of_met();
    required.retain(|name| !name.ends_with(ALSO_2B));
    required
}

/// What must be seen of duties that it finds to fail.
pub fn required_of_failed() -> Vec<String> {
    let names = SIDES.map(|side| FAILED.map(|(code, what)| failed(side, code, what)));
    names.into_iter().flatten().collect()
}

fn met(side: &str, clause: &str, what: &str) -> String {
    format!("{side} {clause}, {what}")
}

fn failed(side: &str, code: u64, what: &str) -> String {
    format!("{code}, {side} side, {what}")
}

/// Sees how each duty of a certificate is met.
pub fn see_certificate(seen: &mut Seen, files: Files, certificate: &[u8]) {
    if seen.kind() == Kind::Tpt || is_large(files) {
        return;
    }
    let lines = oracle::list(files.left, files.right, certificate);
    let lines = lines.expect("the judge accepts");
    see_met(
        seen,
        &Accepted::of(files.left, files.right, certificate),
        &lines,
    );
}

/// To look at every duty of large tables would take long, and small ones show the same.
fn is_large(files: Files) -> bool {
    files.tables().iter().any(|table| states(table) > 8)
}

/// Sees how each duty is met.
fn see_met(seen: &mut Seen, files: &Accepted, lines: &[Line]) {
    for &line in lines {
        let [side, left, right, step, clause, answering] = line;
        let duty = |clause| [side, left, right, step, clause, 0];
        let but_for_the_key = |clause| files.serving_but_for_the_key(duty(clause));
        let side = SIDES[side as usize];
        let mut see = |what| seen.see(met(side, CLAUSES[clause as usize - 1], what));
        see(silence(files.key(line)));
        if clause != 2 && but_for_the_key(clause).iter().any(|&v| v < answering) {
            see(SMALLER_BY_ANOTHER_KEY);
        }
        if clause != 1 && !but_for_the_key(1).is_empty() {
            see(ALSO_2A);
        }
        if clause == 3 && files.key(line) != 0 && files.pauses_whatever_the_key(line) {
            see(ALSO_2B);
        }
    }
}

/// Sees what would meet the duty that 18 or 19 names, if keys were not told apart.
pub fn see_failed(seen: &mut Seen, files: Files, certificate: &[u8], answer: Answer) {
    if seen.kind() == Kind::Tpt {
        return;
    }
    let files = Accepted::of(files.left, files.right, certificate);
    let [code, _, side, left, right, step] = answer;
    let duty = |clause| [side, left, right, step, clause, 0];
    let key = files.key(duty(1));
    let would_do = [
        (true, silence(key)),
        (!files.serving_but_for_the_key(duty(1)).is_empty(), ALSO_2A),
        (key != 0 && files.pauses_whatever_the_key(duty(2)), ALSO_2B),
        (!files.serving_but_for_the_key(duty(3)).is_empty(), ALSO_2C),
        (
            !files.serving_by_the_own_key(duty(3)).is_empty(),
            ALSO_2C_BY_OWN,
        ),
        (files.end_is_related(duty(2)), END_RELATED),
        (files.keyed_step_stays(duty(3)), KEYED_STAYS),
    ];
    for (_, what) in would_do.iter().filter(|(would_do, _)| *would_do) {
        seen.see(failed(SIDES[side as usize], code, what));
    }
}

/// What can be special about a duty that is not matched.
const MATCHED_INSIDE: &str = "matched but for a key inside";
const MATCHED_LAST: &str = "matched but for the last key";
const UNMATCHED: [&str; 5] = [SILENT, KEYED, END_RELATED, MATCHED_INSIDE, MATCHED_LAST];

/// What can be special about tables and a relation for which there is a certificate.
const SHORTER_INSIDE: &str = "a shorter chase but for a key inside";
const SHORTER_LAST: &str = "a shorter chase but for the last key";
const KEY_INSIDE: &str = "a step with a key between two states related to a third";
const MATCHED: [&str; 3] = [SHORTER_INSIDE, SHORTER_LAST, KEY_INSIDE];

/// What must be seen of a maker, which looks for matched duties.
pub fn required_of_matched(success: &str) -> Vec<String> {
    let mut required = Vec::new();
    for side in SIDES {
        required.extend(UNMATCHED.map(|what| failed(side, 22, what)));
        required.extend(MATCHED.map(|what| format!("{success}, {side} side, {what}")));
    }
    required
}

/// Sees what would match the duty that 22 names, if keys were not told apart.
pub fn see_unmatched(seen: &mut Seen, files: Files, answer: Answer) {
    let [code, _, side, left, right, step] = answer.map(|number| number as usize);
    if seen.kind() == Kind::Tpt || code != 22 {
        return;
    }
    let sides = Sides {
        files,
        number: side,
    };
    let t = [right, left][side];
    let duty = steps(sides.own()).nth(step).expect("a step's number");
    let chased = |keys| sides.chase_length(duty, t, keys).is_some();
    for (is_so, what) in [
        (true, silence(duty.key)),
        (sides.related(duty.to, t), END_RELATED),
        (chased(Keys::ANY_INSIDE), MATCHED_INSIDE),
        (chased(Keys::ANY_LAST), MATCHED_LAST),
    ] {
        if is_so {
            seen.see(failed(SIDES[side], 22, what));
        }
    }
}

/// Sees what keys do to the chases of tables and a relation for which there is a certificate.
pub fn see_matched(seen: &mut Seen, success: &str, files: Files) {
    if seen.kind() == Kind::Tpt || is_large(files) {
        return;
    }
    for (number, side) in SIDES.into_iter().enumerate() {
        let sides = Sides { files, number };
        let mut see = |what| seen.see(format!("{success}, {side} side, {what}"));
        for duty in steps(sides.own()) {
            let others = 0..states(sides.other());
            for t in others.filter(|&t| sides.related(duty.from, t)) {
                let length = |keys| sides.chase_length(duty, t, keys);
                let right = length(Keys::RIGHT);
                let shorter = |keys| right.is_some() && length(keys) < right;
                if shorter(Keys::ANY_INSIDE) {
                    see(SHORTER_INSIDE);
                }
                if shorter(Keys::ANY_LAST) {
                    see(SHORTER_LAST);
                }
                if !duty.is_silent() && sides.related(duty.to, t) {
                    see(KEY_INSIDE);
                }
            }
        }
    }
}

/// Files from one side.
#[derive(Clone, Copy)]
struct Sides<'a> {
    files: Files<'a>,
    number: usize,
}

/// Which keys a matched list takes.
#[derive(Clone, Copy)]
struct Keys {
    any_inside: bool,
    any_last: bool,
}

impl Keys {
    const RIGHT: Keys = Keys {
        any_inside: false,
        any_last: false,
    };
    const ANY_INSIDE: Keys = Keys {
        any_inside: true,
        ..Keys::RIGHT
    };
    const ANY_LAST: Keys = Keys {
        any_last: true,
        ..Keys::RIGHT
    };
}

impl<'a> Sides<'a> {
    fn own(&self) -> &'a [u8] {
        self.files.tables()[self.number]
    }

    fn other(&self) -> &'a [u8] {
        self.files.tables()[1 - self.number]
    }

    fn related(&self, own: usize, other: usize) -> bool {
        let (s, t) = [(own, other), (other, own)][self.number];
        related(self.files.rows, s, t)
    }

    /// The fewest steps in a list from t that takes such keys, where there is one.
    fn chase_length(&self, duty: Step, t: usize, keys: Keys) -> Option<usize> {
        let others: Vec<Step> = steps(self.other()).collect();
        let mut reached = vec![t];
        for length in 0..states(self.other()) {
            let from_here = || others.iter().filter(|step| reached.contains(&step.from));
            let last = |step: &Step| keys.any_last || step.key == duty.key;
            if from_here().any(|step| last(step) && self.related(duty.to, step.to)) {
                return Some(length);
            }
            let inside = |step: &&Step| {
                (keys.any_inside || step.is_silent()) && self.related(duty.from, step.to)
            };
            let further: Vec<usize> = from_here().filter(inside).map(|step| step.to).collect();
            reached.extend(further);
        }
        None
    }
}
