//! Holds a judge, a maker and a follower to the cases that were worked out by hand.

use crate::worked::{cases, certificates_after_30, files_of_run, p_and_q_of_two_kinds};
use crate::worked::{Case, BLOCKS, PATH, STATES};
use crate::Answer;

/// The three functions that are held to the worked cases.
pub struct Functions<J, M, F> {
    pub judge: J,
    pub make: M,
    pub follow: F,
}

impl<J, M, F> Functions<J, M, F>
where
    J: Fn(&[u8], &[u8], &[u8]) -> Answer,
    M: Fn(&[u8], &[u8], &[u8], &mut [u8]) -> Answer,
    F: Fn(&[u8], &[u8], &[u8], u64, u64, &[u8], &mut [u8], &mut [u8]) -> Answer,
{
    /// Panics at the first worked case that is answered otherwise.
    pub fn require_worked(&self) {
        for case in cases() {
            let (left, right, certificate) = (&case.left, &case.right, &case.certificate);
            let judged = (self.judge)(left, right, certificate);
            assert_eq!(judged, case.judged, "the judge, {}", case.told());
            self.require_made(&case);
            if case.followed[0] != 0 {
                self.require_not_followed(&case);
            }
        }
        self.require_run();
        self.require_30_first();
    }

    /// 30 comes before every cause of a certificate.
    fn require_30_first(&self) {
        let [left, right] = p_and_q_of_two_kinds();
        for certificate in certificates_after_30() {
            for [left, right] in [[&left, &right], [&right, &left]] {
                let judged = (self.judge)(left, right, &certificate);
                assert_eq!(judged, [30, 1, 0, 0, 0, 0], "{certificate:?}");
            }
        }
    }

    /// The certificates accepted are those that the maker writes, and 21 comes before 16, 17,
    /// 22 and 23.
    fn require_made(&self, case: &Case) {
        let (left, right, certificate) = (&case.left, &case.right, &case.certificate);
        let relation = &certificate[11..11 + 8 * certificate[5] as usize];
        let length = certificate.len();
        let made = |length: usize| {
            let mut output = vec![0xEE; length];
            let answer = (self.make)(left, right, relation, &mut output);
            (answer, output)
        };
        let untouched = |length: usize| vec![0xEE; length];
        let (answer, output) = match case.made[0] {
            0 => ([0, 0, length as u64, 0, 0, 0], certificate.clone()),
            _ => (case.made, untouched(length)),
        };
        let (found, written) = made(length);
        assert_eq!(found, answer, "the maker, {}", case.told());
        assert!(
            (written == output) == case.is_made,
            "the maker, {}",
            case.told()
        );
        let answer = match case.made[0] {
            0 | 16 | 17 | 22 | 23 => [21, 3, length as u64, 0, 0, 0],
            _ => case.made,
        };
        let short = (answer, untouched(length - 1));
        assert!(made(length - 1) == short, "a short output, {}", case.told());
    }

    fn require_not_followed(&self, case: &Case) {
        let (left, right, certificate) = (&case.left, &case.right, &case.certificate);
        let (mut states, mut blocks) = ([0xEE; 9], [0xEE; 4]);
        let (states, blocks) = (&mut states[..], &mut blocks[..]);
        let answer = (self.follow)(left, right, certificate, 0, 0, &[0, 1], states, blocks);
        assert_eq!(answer, case.followed, "the follower, {}", case.told());
        let both = [states, blocks].concat();
        assert_eq!(both, [0xEE; 13], "the follower, {}", case.told());
    }

    fn require_run(&self) {
        for [left, right, certificate] in files_of_run() {
            let (mut states, mut blocks) = ([0xEE; 18], [0xEE; 8]);
            let (states_output, blocks_output) = (&mut states[..], &mut blocks[..]);
            let answer = (self.follow)(
                &left,
                &right,
                &certificate,
                0,
                0,
                &PATH,
                states_output,
                blocks_output,
            );
            assert_eq!(answer, [0, 0, 6, 0, 0, 0]);
            assert_eq!((states, blocks), (STATES, BLOCKS));
        }
    }
}
