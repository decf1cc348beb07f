//! Changes to what a writer is given, for each way to each of its causes.

use crate::random::Random;
use crate::write_cases::WriteCase;

/// A change, and what it is called.
pub type WriteEdit = (&'static str, fn(&mut Random, &mut WriteCase));

/// Each gives what is turned away for the cause named, or leaves it unchanged where it is too
/// small or too large for that; none but those of 6 gives more than 256 steps. They stand in
/// the order of the causes. Several may be made, the later ones in the list first.
pub const WRITE_EDITS: &[WriteEdit] = &[
    ("4: no state", |_, case| case.marks.clear()),
    ("4: 65 states", |random, case| {
        make_states(random, case, 65);
    }),
    ("4: far more states", |random, case| {
        // The last two would be let through by their low byte or their low 16 bits.
        let low = case.marks.len();
        let n = random.pick(&[66, 127, 128, 129, 255, 256, 256 + low, 65_536 + low]);
        make_states(random, case, n);
    }),
    ("28: no start", |_, case| case.starts = 0),
    ("28: bit n too", |_, case| {
        case.starts |= bit(case.marks.len());
    }),
    ("28: bit n alone", |_, case| {
        if case.marks.len() < 64 {
            case.starts = bit(case.marks.len());
        }
    }),
    ("28: bit 63 too", |_, case| {
        if case.marks.len() < 64 {
            case.starts |= bit(63);
        }
    }),
    ("28: all bits", |_, case| {
        if case.marks.len() < 64 {
            case.starts = u64::MAX;
        }
    }),
    ("6: 257 steps", |random, case| make_steps(random, case, 257)),
    ("6: far more steps", |random, case| {
        let low = case.steps.len();
        let m = random.pick(&[258, 300, 511, 512, 513, 512 + low, 65_536 + low]);
        make_steps(random, case, m);
    }),
    ("8: from n", |random, case| {
        let n = case.marks.len();
        change_step(random, case, |[_, to]| [n as u8, to]);
    }),
    ("8: to n", |random, case| {
        let n = case.marks.len();
        change_step(random, case, |[from, _]| [from, n as u8]);
    }),
    ("8: an end 255", |random, case| {
        let from_too_high = random.percent(50);
        change_step(random, case, |[from, to]| match from_too_high {
            true => [255, to],
            false => [from, 255],
        });
    }),
    ("8: both ends", |random, case| {
        let high = random.within(case.marks.len(), 255) as u8;
        change_step(random, case, |_| [high, high]);
    }),
    ("8: two steps", |random, case| {
        let n = case.marks.len();
        change_step(random, case, |[_, to]| [n as u8, to]);
        change_step(random, case, |[from, _]| [from, n as u8]);
    }),
    ("8: one step twice", |random, case| {
        let n = case.marks.len();
        case.steps.truncate(255);
        if let Some(place) = any_place(random, case) {
            case.steps[place] = step_of([ends(case.steps[place])[0], n as u8]);
            repeat(random, case, place);
        }
    }),
    ("8: the first step", |_, case| {
        let n = case.marks.len();
        if let Some(step) = case.steps.first_mut() {
            *step = step_of([ends(*step)[0], n as u8]);
        }
    }),
    ("8: the last step", |_, case| {
        let n = case.marks.len();
        if let Some(step) = case.steps.last_mut() {
            *step = step_of([n as u8, ends(*step)[1]]);
        }
    }),
    ("9: two neighbours", |random, case| {
        case.steps.truncate(255);
        if let Some(place) = any_place(random, case) {
            case.steps.insert(place + 1, case.steps[place]);
        }
    }),
    ("9: two at any distance", |random, case| {
        case.steps.truncate(255);
        if let Some(place) = any_place(random, case) {
            repeat(random, case, place);
        }
    }),
    ("9: the first step at the end", |_, case| {
        case.steps.truncate(255);
        if let Some(&first) = case.steps.first() {
            case.steps.push(first);
        }
    }),
    ("9: three times", |random, case| {
        case.steps.truncate(254);
        if let Some(place) = any_place(random, case) {
            repeat(random, case, place);
            repeat(random, case, place);
        }
    }),
    ("9: two steps twice, one inside", |_, case| {
        // The first that equals an earlier one is not the first that is equalled.
        if let [first, second, ..] = case.steps[..] {
            case.steps.truncate(254);
            case.steps.extend([second, first]);
        }
    }),
    ("9: two steps twice, one after the other", |_, case| {
        if let [first, second, ..] = case.steps[..] {
            case.steps.truncate(254);
            case.steps.extend([first, second]);
        }
    }),
];

/// The same for 21: each gives an output that is too short. They are made after all others,
/// for the length that is needed follows from the sizes.
pub const OUTPUT_EDITS: &[WriteEdit] = &[
    ("21: one byte short", |_, case| {
        case.output_length = case.needed() - 1;
    }),
    ("21: one step short", |_, case| {
        case.output_length = case.needed() - 2;
    }),
    ("21: no room for the steps", |_, case| {
        if !case.steps.is_empty() {
            case.output_length = case.needed() - 2 * case.steps.len();
        }
    }),
    ("21: room for marks of two bytes", |_, case| {
        if !case.marks.is_empty() {
            case.output_length = case.needed() - 2 * case.marks.len();
        }
    }),
    ("21: any shorter output", |random, case| {
        case.output_length = random.below(case.needed());
    }),
    ("21: an empty output", |_, case| case.output_length = 0),
];

/// From and to.
fn ends(step: u16) -> [u8; 2] {
    step.to_be_bytes()
}

pub fn step_of(ends: [u8; 2]) -> u16 {
    u16::from_be_bytes(ends)
}

/// Every step between n states, rising.
pub fn all_steps(n: usize) -> Vec<u16> {
    let pairs = 0..n * n;
    pairs
        .map(|pair| step_of([(pair / n) as u8, (pair % n) as u8]))
        .collect()
}

/// The bit of this state, where a word has one.
fn bit(state: usize) -> u64 {
    1u64.checked_shl(state as u32).unwrap_or(0)
}

/// Adds marks until there are this many states.
fn make_states(random: &mut Random, case: &mut WriteCase, n: usize) {
    while case.marks.len() < n {
        case.marks.push(random.word() as u32);
    }
}

/// Adds steps until there are this many, none twice as long as there are others.
fn make_steps(random: &mut Random, case: &mut WriteCase, m: usize) {
    let mut others = all_steps(case.marks.len());
    others.retain(|step| !case.steps.contains(step));
    random.shuffle(&mut others);
    while case.steps.len() < m {
        let other = others.pop();
        let step = other.unwrap_or_else(|| random.pick(&case.steps));
        case.steps.push(step);
    }
}

/// Where a step stands.
fn any_place(random: &mut Random, case: &WriteCase) -> Option<usize> {
    let m = case.steps.len();
    (m > 0).then(|| random.below(m))
}

/// Changes the ends of some step.
fn change_step(random: &mut Random, case: &mut WriteCase, change: impl FnOnce([u8; 2]) -> [u8; 2]) {
    if let Some(place) = any_place(random, case) {
        case.steps[place] = step_of(change(ends(case.steps[place])));
    }
}

/// Puts the step of this place once more, anywhere after it.
fn repeat(random: &mut Random, case: &mut WriteCase, place: usize) {
    let later = random.within(place + 1, case.steps.len());
    case.steps.insert(later, case.steps[place]);
}
