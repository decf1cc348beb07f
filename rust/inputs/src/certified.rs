//! Systems with a certificate that the judge accepts.

use crate::certificate_edits::{EQUAL_EDITS, RANK_EDITS};
use crate::families::{any_layered_system, any_system};
use crate::random::Random;
use crate::system::{Forms, System, VERSIONS};
use oracle::{Kind, Step, Table};

/// A system of this kind for which a certificate can be made, and the certificate.
pub fn any_certified(random: &mut Random, kind: Kind) -> (System, Vec<u8>) {
    let forms = match kind {
        Kind::Tpt => Forms::Tpt(VERSIONS),
        Kind::Tpk => Forms::Tpk,
    };
    loop {
        let system = if random.percent(10) {
            any_layered_system(random, kind)
        } else {
            any_system(random, forms)
        };
        let (answer, certificate) = system.make();
        if answer[0] == 0 {
            return (system, certificate);
        }
    }
}

/// A system with keys and its certificate with one step more, mostly under a key that no step
/// of the other side has. So where the certificate was accepted, only this step's duties fail.
/// Where it can, it leaves a state at which the first of them fails but for the key of a step
/// that 2c could take, which may be its own key. Gives what this is called.
pub fn add_failing_step(
    random: &mut Random,
    system: &mut System,
    certificate: &mut Vec<u8>,
) -> &'static str {
    let side = random.below(2);
    let (own, other) = (system.table(side), system.table(1 - side));
    let chances = keyed_steps_that_stay(system, side);
    let chance = (!chances.is_empty()).then(|| random.pick(&chances));
    let step = match chance.filter(|_| random.percent(50)) {
        Some((from, keyed)) => Step {
            from,
            to: some_unrelated(random, system, side, keyed.to),
            key: keyed.key,
        },
        None => Step {
            from: chance.map_or_else(|| random.below(own.states()), |(from, _)| from),
            to: random.below(own.states()),
            key: unused_key(other),
        },
    };
    let j = own.steps.partition_point(|other| *other < step);
    if own.steps.len() == 256 || own.steps.get(j) == Some(&step) {
        return "no step added";
    }
    let mut ranks: Vec<u8> = (0..other.states()).map(|_| random.below(4) as u8).collect();
    if let Some((_, keyed)) = chance.filter(|_| random.percent(70)) {
        ranks[keyed.from] = 3;
        ranks[keyed.to] = 0;
    }
    system.table_mut(side).steps.insert(j, step);
    let layout = system.layout();
    let place = [layout.cl(j, 0), layout.cr(j, 0)][side];
    certificate.splice(place..place, ranks);
    certificate[..11].copy_from_slice(&layout.header());
    "a step added that fails"
}

/// A key that no step of this table has, or 0 where there is none.
fn unused_key(table: &Table) -> u8 {
    let is_used = |key: &u8| table.steps.iter().any(|step| step.key == *key);
    (1..=255).find(|key| !is_used(key)).unwrap_or(0)
}

/// A state of a side that is not related to this one of the other, or any where there is none.
fn some_unrelated(random: &mut Random, system: &System, side: usize, other: usize) -> usize {
    let states = 0..system.table(side).states();
    let unrelated: Vec<usize> = states
        .filter(|&own| !system.is_related(side, own, other))
        .collect();
    match unrelated.is_empty() {
        true => random.below(system.table(side).states()),
        false => random.pick(&unrelated),
    }
}

/// The states of a side with those steps of the other side that have a key, lead from the
/// first state related to them, and lead to another one related to them.
fn keyed_steps_that_stay(system: &System, side: usize) -> Vec<(usize, Step)> {
    let others = || 0..system.table(1 - side).states();
    let mut found = Vec::new();
    for own in 0..system.table(side).states() {
        let related = |other: usize| system.is_related(side, own, other);
        let first = others().find(|&other| related(other));
        let steps = system.table(1 - side).steps.iter();
        let stay = steps.filter(|step| {
            let leaves = Some(step.from) == first && step.to != step.from;
            leaves && related(step.to) && !step.is_silent()
        });
        found.extend(stay.map(|&step| (own, step)));
    }
    found
}

/// The certificate after a change, where the judge still accepts it, or as it was.
pub fn changed(random: &mut Random, system: &System, certificate: &[u8]) -> Vec<u8> {
    let mut changed = certificate.to_vec();
    let edits = random.pick(&[EQUAL_EDITS, RANK_EDITS]);
    let (_, edit) = random.pick(edits);
    edit(random, system, &mut changed);
    if oracle::judge(&system.left_bytes(), &system.right_bytes(), &changed)[0] == 0 {
        changed
    } else {
        certificate.to_vec()
    }
}

/// Replaces ranks one by one, each where the judge still accepts. Unlike those made, such
/// ranks often let several clauses hold of a duty.
pub fn replace_ranks(random: &mut Random, system: &System, certificate: &mut [u8]) {
    let (left, right) = (system.left_bytes(), system.right_bytes());
    let first = system.layout().al(0, 0);
    for _ in 0..random.within(1, 100) {
        let place = random.within(first, certificate.len() - 1);
        let rank = random.byte();
        let before = std::mem::replace(&mut certificate[place], rank);
        if oracle::tuned::judge(&left, &right, certificate)[0] != 0 {
            certificate[place] = before;
        }
    }
}

/// These systems and those with left and right exchanged, in every mix of versions, the
/// steps in any order where the version lets them.
pub fn in_all_forms(random: &mut Random, systems: &[System]) -> Vec<System> {
    let mut forms = Vec::new();
    for system in systems {
        for mut system in [system.clone(), system.clone().exchanged()] {
            random.shuffle(&mut system.left.steps);
            random.shuffle(&mut system.right.steps);
            forms.extend(system.in_all_versions());
        }
    }
    forms
}

#[cfg(test)]
mod tests {
    use super::*;

    /// The judge names the step that was added, or this leaves a state that is related to none.
    #[test]
    fn the_step_added_is_the_one_that_fails() {
        let mut random = Random::new(1);
        let mut failed = [0, 0];
        for _ in 0..500 {
            let (mut system, mut certificate) = any_certified(&mut random, Kind::Tpk);
            let before = system.clone();
            add_failing_step(&mut random, &mut system, &mut certificate);
            let (left, right) = (system.left_bytes(), system.right_bytes());
            let [code, _, side, .., step] = oracle::judge(&left, &right, &certificate);
            if code == 0 {
                continue;
            }
            assert!(matches!(code, 18 | 19), "{code}");
            let step = system.table(side as usize).steps[step as usize];
            let steps_before = &before.table(side as usize).steps;
            assert!(!steps_before.contains(&step), "{step:?}");
            failed[code as usize - 18] += 1;
        }
        assert!(failed.iter().all(|&times| times > 50), "{failed:?}");
    }
}
