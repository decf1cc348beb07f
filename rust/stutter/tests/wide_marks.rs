//! Tables with marks of four bytes, through the C interface: an example byte by byte, and
//! the older tables beside those that say the same in 32 bits.

mod makers;
mod shared;

use inputs::{any_system, save_in, Forms, Random, System};
use makers::make;
use oracle::Form;
use shared::answers;

/// "The panel has gained more lamps than 16 bits can tell." Byte by byte: the old analyser is
/// dark or shows its reading with 16 lamps; the new one has a seventeenth, of weight 65,536.
#[test]
fn the_panel_has_a_seventeenth_lamp() {
    let old = [
        0x54, 0x50, 0x54, 0x00, 0x01, // "TPT", version 1
        0x02, 0x00, 0x00, 0x02, // 2 states, start 0, 2 steps
        0x00, 0x00, 0xff, 0xff, // marks: no lamp, all 16 lamps
        0x00, 0x01, 0x01, 0x00, // steps 0-1, 1-0
    ];
    let new = |paused: [u8; 4], reading: [u8; 4]| {
        let header = [
            0x54, 0x50, 0x54, 0x00, 0x04, // "TPT", version 4
            0x03, // 3 states
            0x00, 0x00, 0x00, 0x00, 0x00, 0x00, 0x00, 0x03, // the starts 0 and 1
            0x00, 0x04, // 4 steps
        ];
        let idle = [0x00, 0x00, 0x00, 0x00];
        let steps = [0x00, 0x02, 0x01, 0x00, 0x02, 0x00, 0x02, 0x01]; // 0-2, 1-0, 2-0, 2-1
        [&header[..], &idle, &paused, &reading, &steps].concat()
    };
    let relation = [
        0, 0, 0, 0, 0, 0, 0, 0b011, // old 0 is related to new 0 and 1
        0, 0, 0, 0, 0, 0, 0, 0b100, // old 1 is related to new 2
    ];
    let certificate = [
        0x54, 0x50, 0x43, 0x00, 0x01, 0x02, 0x03, 0x00, 0x02, 0x00, 0x04, // header
        0, 0, 0, 0, 0, 0, 0, 3, 0, 0, 0, 0, 0, 0, 0, 4, // the relation
        0, 0, 0, 0, 0, 0, // AL
        0, 0, 1, 0, 0, 0, // AR: the pause, new step 1 at old 0, is not matched
        0, 1, 0, 0, 0, 0, // CL: from the pause old step 0 is matched one step later
        0, 0, 0, 0, 0, 0, 0, 0, // CR
    ];
    let (dark, all_16) = ([0x00, 0x00, 0x00, 0x00], [0x00, 0x00, 0xff, 0xff]);
    for (paused, reading, made, judged) in [
        (dark, all_16, [0, 0, 53, 0, 0, 0], [0, 0, 3, 5, 1, 1]),
        // The new lamp alone is lit while paused: the low half is dark.
        (
            [0x00, 0x01, 0x00, 0x00],
            all_16,
            [17, 2, 0, 1, 0, 0],
            [17, 2, 0, 1, 0, 0],
        ),
        // All 17 lamps for the reading: the low half has all 16.
        (
            dark,
            [0x00, 0x01, 0xff, 0xff],
            [17, 2, 1, 2, 0, 0],
            [17, 2, 1, 2, 0, 0],
        ),
        // 65,536 for 65,535.
        (
            dark,
            [0x00, 0x01, 0x00, 0x00],
            [17, 2, 1, 2, 0, 0],
            [17, 2, 1, 2, 0, 0],
        ),
    ] {
        let new = new(paused, reading);
        let mut output = [0xEE; 53];
        assert_eq!(make(&old, &new, &relation, &mut output), made);
        let written = if made[0] == 0 {
            certificate
        } else {
            [0xEE; 53]
        };
        assert_eq!(output, written);
        assert_eq!(stutter::judge(&old, &new, &certificate), judged);
    }
}

/// "A mark from an older file is the same number in 32 bits": a table of version 3 and the
/// same in version 4 get the same answers and the same certificate.
#[test]
fn a_mark_is_the_same_number_in_32_bits() {
    let mut random = Random::new(91);
    let mut seen = Seen::default();
    for _ in 0..3_000 {
        let mut before = any_system(&mut random, Forms::Tpt(&[3]));
        if random.percent(20) {
            let state = random.below(before.left.states());
            before.left.marks[state] = random.below(65_536) as u32;
        }
        let certificate = before.certificate_with_any_ranks(&mut random, 3);
        let expected = answers(&before, &certificate[11..]);
        for [left, right] in [[3, 4], [4, 3], [4, 4]] {
            let mut after = before.clone();
            save_in(&mut after.left, Form::tpt(left));
            save_in(&mut after.right, Form::tpt(right));
            assert!(answers(&after, &certificate[11..]) == expected);
        }
        seen.see(expected.0);
    }
    seen.require();
}

/// Marks are compared as whole numbers and nothing else is asked of them: others that are
/// equal where these are, and differ where these differ, get the same answers.
#[test]
fn a_mark_is_any_number_of_32_bits() {
    let mut random = Random::new(92);
    let mut seen = Seen::default();
    for _ in 0..3_000 {
        let mut system = any_system(&mut random, Forms::Tpt(&[4]));
        if random.percent(20) {
            let state = random.below(system.left.states());
            system.left.marks[state] ^= 1 << random.below(32);
        }
        let certificate = system.certificate_with_any_ranks(&mut random, 3);
        let expected = answers(&system, &certificate[11..]);
        // To multiply by an odd number is one to one.
        let (odd, other) = (random.word() as u32 | 1, random.word() as u32);
        for mark in marks(&mut system) {
            *mark = (*mark ^ other).wrapping_mul(odd);
        }
        assert!(answers(&system, &certificate[11..]) == expected);
        seen.see(expected.0);
    }
    seen.require();
}

/// Each of the 32 bits counts: where one of a related state is turned, 17 names the first
/// pair of that state.
#[test]
fn every_bit_of_a_mark_counts() {
    let mut random = Random::new(93);
    let mut turned = [[0; 32]; 2];
    for _ in 0..2_000 {
        let mut system = any_system(&mut random, Forms::Tpt(&[4]));
        let (left, right) = (system.left_bytes(), system.right_bytes());
        let mut output = vec![0; system.layout().length()];
        let relation = system.relation_bytes();
        if make(&left, &right, &relation, &mut output)[0] != 0 {
            continue;
        }
        let pairs = system.pairs();
        let (s, t) = random.pick(&pairs);
        let (side, bit) = (random.below(2), random.below(32));
        let state = [s, t][side];
        [&mut system.left, &mut system.right][side].marks[state] ^= 1 << bit;
        let mut of_state = pairs.iter().filter(|&&(s, t)| [s, t][side] == state);
        let &(s, t) = of_state.next().expect("it is related");
        let judged = stutter::judge(&system.left_bytes(), &system.right_bytes(), &output);
        assert_eq!(judged, [17, 2, s as u64, t as u64, 0, 0], "bit {bit}");
        turned[side][bit] += 1;
    }
    assert!(
        turned.iter().flatten().all(|&times| times >= 5),
        "{turned:?}"
    );
}

/// The marks of both tables.
fn marks(system: &mut System) -> impl Iterator<Item = &mut u32> {
    let System { left, right, .. } = system;
    left.marks.iter_mut().chain(&mut right.marks)
}

/// How often a certificate was made, and 17 was answered.
#[derive(Default)]
struct Seen {
    made: usize,
    differing: usize,
}

impl Seen {
    fn see(&mut self, made: [u64; 6]) {
        self.made += usize::from(made[0] == 0);
        self.differing += usize::from(made[0] == 17);
    }

    fn require(&self) {
        let Seen { made, differing } = self;
        assert!(*made >= 500 && *differing >= 100, "{made} {differing}");
    }
}
