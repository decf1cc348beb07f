//! Tables with a start word, through the C interface: an example byte by byte, and the older
//! tables beside those that say the same with a word.

mod makers;
mod shared;

use inputs::{any_system, save_in, Forms, Random};
use makers::make;
use oracle::Form;
use shared::answers;

/// "The new analyser can wake idle or wake paused." Byte by byte: the old one has the states
/// idle and reading and one start, the new one idle, paused and reading and two.
#[test]
fn the_new_analyser_wakes_idle_or_paused() {
    let old = [
        0x54, 0x50, 0x54, 0x00, 0x01, // "TPT", version 1
        0x02, 0x00, 0x00, 0x02, // 2 states, start 0, 2 steps
        0x00, 0x00, 0x00, 0x01, // marks 0 1
        0x00, 0x01, 0x01, 0x00, // steps 0-1, 1-0
    ];
    let new = |starts: u8| {
        [
            0x54, 0x50, 0x54, 0x00, 0x03, // "TPT", version 3
            0x03, // 3 states
            0x00, 0x00, 0x00, 0x00, 0x00, 0x00, 0x00, starts, // the word of starts
            0x00, 0x04, // 4 steps
            0x00, 0x00, 0x00, 0x00, 0x00, 0x01, // marks 0 0 1
            0x00, 0x02, 0x01, 0x00, 0x02, 0x00, 0x02, 0x01, // steps 0-2, 1-0, 2-0, 2-1
        ]
    };
    let relation = [
        0, 0, 0, 0, 0, 0, 0, 0b011, // old 0 is related to new 0 and 1
        0, 0, 0, 0, 0, 0, 0, 0b100, // old 1 is related to new 2
    ];
    let certificate = [
        0x54, 0x50, 0x43, 0x00, 0x01, 0x02, 0x03, 0x00, 0x02, 0x00, 0x04, // header
        0, 0, 0, 0, 0, 0, 0, 3, 0, 0, 0, 0, 0, 0, 0, 4, // the relation
        0, 0, 0, 0, 0, 0, // AL
        0, 0, 1, 0, 0, 0, // AR: the pause, new step 1 at old 0, is not matched
        0, 1, 0, 0, 0, 0, // CL: from the pause old step 0 is matched one step later
        0, 0, 0, 0, 0, 0, 0, 0, // CR
    ];
    let made = |starts| {
        let mut output = [0xEE; 53];
        let answer = make(&old, &new(starts), &relation, &mut output);
        (answer, output)
    };
    // The starts idle, paused, or both are related to the old one's start.
    for starts in [0b001, 0b010, 0b011] {
        assert_eq!(made(starts), ([0, 0, 53, 0, 0, 0], certificate));
        let judged = stutter::judge(&old, &new(starts), &certificate);
        assert_eq!(judged, [0, 0, 3, 5, 1, 1]);
    }
    // The start 2 is not.
    for (starts, unpaired) in [
        (0b101, [16, 2, 1, 2, 0, 0]),
        (0b110, [16, 2, 1, 2, 0, 0]),
        (0b111, [16, 2, 1, 2, 0, 0]),
        (0b100, [16, 2, 0, 0, 0, 0]),
    ] {
        assert_eq!(made(starts), (unpaired, [0xEE; 53]));
        assert_eq!(stutter::judge(&old, &new(starts), &certificate), unpaired);
    }
    // No start, and a start that is no state.
    for starts in [0b0000, 0b1000, 0b1011] {
        let refused = [28, 1, 0, 0, 0, 0];
        assert_eq!(made(starts), (refused, [0xEE; 53]));
        assert_eq!(stutter::judge(&old, &new(starts), &certificate), refused);
    }
}

/// A table of version 2 and the same in version 3 get the same answers, but for the numbers
/// of 16.
#[test]
fn one_start_in_a_word_is_the_start() {
    let mut random = Random::new(81);
    let (mut same, mut unpaired) = (0, 0);
    for _ in 0..3_000 {
        let mut before = any_system(&mut random, Forms::Tpt(&[2]));
        if random.percent(20) {
            before.left.starts = vec![random.below(before.left.states())];
        }
        let certificate = before.certificate_with_any_ranks(&mut random, 3);
        let ranks = &certificate[11..];
        let (made, output, judged) = answers(&before, ranks);
        for [left, right] in [[2, 3], [3, 2], [3, 3]] {
            let mut after = before.clone();
            save_in(&mut after.left, Form::tpt(left));
            save_in(&mut after.right, Form::tpt(right));
            let (made_after, output_after, judged_after) = answers(&after, ranks);
            if made[0] == 16 {
                // Neither start is paired, and the left one comes first.
                let named = [16, 2, 0, before.left.starts[0] as u64, 0, 0];
                assert_eq!([made_after, judged_after], [named; 2]);
                unpaired += 1;
            } else {
                assert_eq!([made_after, judged_after], [made, judged]);
                same += 1;
            }
            assert!(output_after == output, "the outputs differ");
        }
    }
    assert!(same >= 1_000 && unpaired >= 100, "{same} {unpaired}");
}
