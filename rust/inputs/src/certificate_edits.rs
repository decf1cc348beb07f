//! Changes to a certificate of a system: near-misses of its header, its rows and
//! its ranks, and changes that leave it as good as it was.

use crate::random::Random;
use crate::starts::{any_start, pairs_of_start};
use crate::system::System;
use oracle::{Layout, Step, Table};

/// A change to a certificate of a system, and what it is called.
pub type CertificateEdit = (&'static str, fn(&mut Random, &System, &mut Vec<u8>));

/// Near-misses for the causes 10 to 16 in rising order. Two may be made, the later
/// one in the list first.
pub const HEADER_EDITS: &[CertificateEdit] = &[
    ("10: certificate under 11 bytes", |random, _, bytes| {
        bytes.truncate(random.below(11));
    }),
    ("11: its first three bytes", |random, _, bytes| {
        bytes[random.below(3)] ^= 1 << random.below(8);
    }),
    ("11: a table in its place", |_, system, bytes| {
        *bytes = system.left_bytes();
    }),
    ("12: its version", |random, _, bytes| {
        let version: [u8; 2] = random.pick(&[[0, 0], [0, 2], [1, 0], [1, 1], [255, 255]]);
        bytes[3..5].copy_from_slice(&version);
    }),
    ("13: a size", |random, _, bytes| {
        let place = random.within(5, 10);
        let by = random.pick(&[1, 255, 128]);
        bytes[place] = bytes[place].wrapping_add(by);
    }),
    ("13: sizes exchanged", |random, _, bytes| {
        if random.percent(50) {
            bytes.swap(5, 6);
        } else {
            bytes[7..11].rotate_left(2);
        }
    }),
    ("14: its length", |random, _, bytes| match random.below(4) {
        0 => {
            bytes.pop();
        }
        1 => bytes.push(0),
        2 => bytes.truncate(random.within(11, bytes.len() - 1)),
        _ => bytes.extend([0; 8]),
    }),
    ("15: row bit", |random, system, bytes| {
        set_bit_too_high(random, system, &mut bytes[11..]);
    }),
    ("15: several row bits", |random, system, bytes| {
        for _ in 0..3 {
            set_bit_too_high(random, system, &mut bytes[11..]);
        }
    }),
    ("16: a start unpaired", |random, system, bytes| {
        unpair_some_start(random, system, bytes);
    }),
];

/// Near-misses for 16 alone. In the last one the start may still be paired.
pub const START_EDITS: &[CertificateEdit] = &[
    ("16: a start unpaired", |random, system, bytes| {
        unpair_some_start(random, system, bytes);
    }),
    ("16: several starts unpaired", |random, system, bytes| {
        for _ in 0..random.within(2, 4) {
            unpair_some_start(random, system, bytes);
        }
    }),
    (
        "16: several starts of a side unpaired",
        |random, system, bytes| {
            let side = random.below(2);
            for _ in 0..random.within(2, 4) {
                let start = random.pick(&system.table(side).starts);
                unpair(system, side, start, bytes);
            }
        },
    ),
    (
        "16: one pair of a start taken out",
        |random, system, bytes| {
            let (side, start) = any_start(random, system);
            let (s, t) = random.pick(&pairs_of_start(system, side, start));
            clear_bit(bytes, s, t);
        },
    ),
];

/// Near-misses for the causes 17 to 19.
pub const RANK_EDITS: &[CertificateEdit] = &[
    ("a pair added or taken out", |random, system, bytes| {
        let s = random.below(system.left.states());
        let t = random.below(system.right.states());
        turn_bit(bytes, s, t);
    }),
    ("a related pair taken out", |random, system, bytes| {
        let pairs = system.pairs();
        if !pairs.is_empty() {
            let (s, t) = random.pick(&pairs);
            turn_bit(bytes, s, t);
        }
    }),
    ("a pair with another mark added", |random, system, bytes| {
        let s = random.below(system.left.states());
        let t = random.below(system.right.states());
        if system.left.marks[s] != system.right.marks[t] {
            turn_bit(bytes, s, t);
        }
    }),
    ("a rank above 0 lowered", |random, system, bytes| {
        if let Some(place) = some_rank_above_0(random, system, bytes) {
            bytes[place] = random.below(bytes[place] as usize) as u8;
        }
    }),
    ("a rank replaced", |random, system, bytes| {
        let place = random.within(system.layout().al(0, 0), bytes.len() - 1);
        bytes[place] = random.pick(&[0, 1, 2, 127, 128, 255]);
    }),
    (
        "the A ranks at both ends of a step equal",
        |random, system, bytes| {
            let layout = system.layout();
            let t = random.below(layout.n2);
            let s = random.below(layout.n1);
            if layout.m1 > 0 && random.percent(50) {
                let step = random.pick(&system.left.steps);
                bytes[layout.al(step.to, t)] = bytes[layout.al(step.from, t)];
            } else if layout.m2 > 0 {
                let step = random.pick(&system.right.steps);
                bytes[layout.ar(step.to, s)] = bytes[layout.ar(step.from, s)];
            }
        },
    ),
    ("all C ranks of a step equal", |random, system, bytes| {
        let layout = system.layout();
        let value = random.byte();
        if layout.m1 > 0 && random.percent(50) {
            let j = random.below(layout.m1);
            bytes[layout.cl(j, 0)..layout.cl(j + 1, 0)].fill(value);
        } else if layout.m2 > 0 {
            let j = random.below(layout.m2);
            bytes[layout.cr(j, 0)..layout.cr(j + 1, 0)].fill(value);
        }
    }),
    (
        "the C ranks of two steps exchanged",
        |random, system, bytes| {
            let layout = system.layout();
            if layout.m1 > 0 {
                let (j, k) = (random.below(layout.m1), random.below(layout.m1));
                for t in 0..layout.n2 {
                    bytes.swap(layout.cl(j, t), layout.cl(k, t));
                }
            }
        },
    ),
    ("a run of ranks all 0", |random, system, bytes| {
        let layout = system.layout();
        let run = random.pick(&[
            (layout.al(0, 0), layout.ar(0, 0)),
            (layout.ar(0, 0), layout.cl(0, 0)),
            (layout.cl(0, 0), layout.cr(0, 0)),
            (layout.cr(0, 0), layout.length()),
        ]);
        bytes[run.0..run.1].fill(0);
    }),
    ("random ranks", |random, system, bytes| {
        let highest = random.pick(&[1, 3, 255]);
        *bytes = system.certificate_with_any_ranks(random, highest);
    }),
];

/// Near-misses where steps have keys: ranks that fall where a key forbids the clause. They
/// change nothing where no step has one.
pub const KEY_RANK_EDITS: &[CertificateEdit] = &[
    (
        "the A rank falls along a step with a key",
        |random, system, bytes| {
            let (layout, side) = (system.layout(), random.below(2));
            let place = [Layout::al, Layout::ar][side];
            let Some(step) = some_keyed_step(random, system.table(side)) else {
                return;
            };
            let others = 0..system.table(1 - side).states();
            let both_related = |&t: &usize| {
                let related = |own| system.is_related(side, own, t);
                related(step.from) && related(step.to)
            };
            for t in others.filter(both_related) {
                bytes[place(&layout, step.to, t)] = 0;
                let rank = &mut bytes[place(&layout, step.from, t)];
                *rank = rank.saturating_add(1);
            }
        },
    ),
    (
        "the C rank falls along a step with a key",
        |random, system, bytes| {
            let (layout, side) = (system.layout(), random.below(2));
            let place = [Layout::cl, Layout::cr][side];
            let Some(step) = some_keyed_step(random, system.table(1 - side)) else {
                return;
            };
            for j in 0..system.table(side).steps.len() {
                bytes[place(&layout, j, step.to)] = 0;
                let rank = &mut bytes[place(&layout, j, step.from)];
                *rank = rank.saturating_add(1);
            }
        },
    ),
];

fn some_keyed_step(random: &mut Random, table: &Table) -> Option<Step> {
    let mut keyed = table.steps.clone();
    keyed.retain(|step| !step.is_silent());
    (!keyed.is_empty()).then(|| random.pick(&keyed))
}

/// Changes after which the judge must answer as before.
pub const EQUAL_EDITS: &[CertificateEdit] = &[
    ("as made", |_, _, _| {}),
    ("ranks stretched", |random, system, bytes| {
        stretch_ranks(random, &mut bytes[system.layout().al(0, 0)..]);
    }),
    (
        "ranks of unrelated pairs replaced",
        |random, system, bytes| {
            let layout = system.layout();
            let related = &system.related;
            for s in 0..layout.n1 {
                for t in (0..layout.n2).filter(|&t| !related[s][t]) {
                    bytes[layout.al(s, t)] = random.byte();
                    bytes[layout.ar(t, s)] = random.byte();
                }
            }
            for (j, step) in system.left.steps.iter().enumerate() {
                for t in (0..layout.n2).filter(|&t| !related[step.from][t]) {
                    bytes[layout.cl(j, t)] = random.byte();
                }
            }
            for (j, step) in system.right.steps.iter().enumerate() {
                for s in (0..layout.n1).filter(|&s| !related[s][step.from]) {
                    bytes[layout.cr(j, s)] = random.byte();
                }
            }
        },
    ),
];

/// Replaces the ranks 0, 1, 2 and so on by higher ones in the same order, which
/// no comparison can tell apart. Ranks above 63 become 255.
fn stretch_ranks(random: &mut Random, ranks: &mut [u8]) {
    let mut next = random.within(0, 60) as u8;
    let mut stretched = [255; 256];
    for rank in &mut stretched[..64] {
        *rank = next;
        next += random.within(1, 3) as u8;
    }
    for rank in ranks {
        *rank = stretched[*rank as usize];
    }
}

/// Adds the pair to the rows, or takes it out.
fn turn_bit(bytes: &mut [u8], s: usize, t: usize) {
    bytes[11 + 8 * s + 7 - t / 8] ^= 1 << (t % 8);
}

/// Takes all pairs of some start with the starts of the other side out of the rows.
fn unpair_some_start(random: &mut Random, system: &System, bytes: &mut [u8]) {
    let (side, start) = any_start(random, system);
    unpair(system, side, start, bytes);
}

fn unpair(system: &System, side: usize, start: usize, bytes: &mut [u8]) {
    for (s, t) in pairs_of_start(system, side, start) {
        clear_bit(bytes, s, t);
    }
}

/// Takes the pair out of the rows.
fn clear_bit(bytes: &mut [u8], s: usize, t: usize) {
    bytes[11 + 8 * s + 7 - t / 8] &= !(1 << (t % 8));
}

/// Sets a bit that stands for no right state. `rows` begins with the first row.
pub fn set_bit_too_high(random: &mut Random, system: &System, rows: &mut [u8]) {
    let (n1, n2) = (system.left.states(), system.right.states());
    if n2 < 64 {
        let s = random.below(n1);
        let any = random.within(n2, 63);
        let bit = random.pick(&[n2, n2, 63, any]);
        rows[8 * s + 7 - bit / 8] |= 1 << (bit % 8);
    }
}

fn some_rank_above_0(random: &mut Random, system: &System, bytes: &[u8]) -> Option<usize> {
    let places: Vec<usize> = (system.layout().al(0, 0)..bytes.len())
        .filter(|&place| bytes[place] > 0)
        .collect();
    (!places.is_empty()).then(|| random.pick(&places))
}
