//! Compares a maker with the oracle's, and whatever makes a certificate as a maker does.

use crate::answers_seen::{self, Files};
use crate::names::{limit_names, of_each_kind, size_names};
use crate::report::{Report, Seen};
use crate::tables::{states, steps};
use crate::{hex, keys_seen, kinds_seen, marks_seen, starts_seen, Answer};
use inputs::{Forms, MakeCase, MakeCases, Random};
use oracle::Form;

/// Compares a maker with the oracle's on `count` inputs: the six numbers and
/// every byte of the output. The lent output is filled with a pattern; what a
/// refusal must not touch and what stands after L is compared with that pattern,
/// and each certificate made is handed to the oracle's judge.
pub fn make(
    count: usize,
    seed: u64,
    under_test: impl FnMut(&[u8], &[u8], &[u8], &mut [u8]) -> Answer,
) -> Report {
    make_of(Forms::All, count, seed, under_test)
}

/// The same on tables without keys of these versions alone.
pub fn make_in(
    versions: &'static [u16],
    count: usize,
    seed: u64,
    under_test: impl FnMut(&[u8], &[u8], &[u8], &mut [u8]) -> Answer,
) -> Report {
    make_of(Forms::Tpt(versions), count, seed, under_test)
}

fn make_of(
    forms: Forms,
    count: usize,
    seed: u64,
    mut under_test: impl FnMut(&[u8], &[u8], &[u8], &mut [u8]) -> Answer,
) -> Report {
    let mut required = required(forms);
    required.extend(kinds_seen::required(forms, &[15, 16, 17, 20, 21, 22, 23]));
    let mut report = Report::new(required);
    let mut random = Random::new(!seed);
    for case in MakeCases::of(forms, seed, count) {
        let (left, right, relation) = (&case.left, &case.right, &case.relation);
        let made = Made::compared(
            "maker",
            &case,
            random.bytes(case.output_length),
            |output| oracle::make(left, right, relation, output),
            |output| under_test(left, right, relation, output),
        );
        made.see(&mut report, &case);
        kinds_seen::see(&mut report, made.answer, files(&case), |left, right| {
            let mut output = vec![0; case.output_length];
            oracle::tuned_maker::make(left, right, relation, &mut output)[0]
        });
    }
    report
}

/// The files of a case.
pub fn files(case: &MakeCase) -> Files<'_> {
    Files {
        left: &case.left,
        right: &case.right,
        rows: &case.relation,
    }
}

/// What a comparison of makers must see, but for tables of two kinds.
pub fn required(forms: Forms) -> Vec<String> {
    of_each_kind(forms, |forms| {
        let mut required = answers_seen::required("made", forms, [15, 20, 21, 22, 23]);
        required.extend(RUNS.map(|run| format!("made, {run} rank above 0")));
        required.extend(RUNS.map(|run| format!("made, {run} rank of 63")));
        required.extend(["made, output exact", "made, output longer"].map(String::from));
        required.push("21, one byte short".to_string());
        required.push(LARGEST.to_string());
        required.extend(limit_names("made"));
        required.extend(starts_seen::required_of_large("made", forms));
        required.extend(marks_seen::required_of_functions("made", forms));
        if forms == [Form::TPK] {
            required.extend(keys_seen::required("made"));
            required.extend(keys_seen::required_of_met_as_made());
            required.extend(keys_seen::required_of_matched("made"));
        }
        required
    })
}

/// Every pair of 64 and 64 states related, and 256 steps on both sides.
const LARGEST: &str = "made, all pairs of the largest tables";

/// The four runs of ranks.
const RUNS: [&str; 4] = ["AL", "AR", "CL", "CR"];

/// An answer, and the output after it.
pub struct Made {
    pub answer: Answer,
    output: Vec<u8>,
}

impl Made {
    /// What is expected to be answered and made, which is also what is found, in an output
    /// that is lent with these bytes.
    pub fn compared(
        name: &str,
        case: &MakeCase,
        lent: Vec<u8>,
        expected: impl FnOnce(&mut [u8]) -> Answer,
        found: impl FnOnce(&mut [u8]) -> Answer,
    ) -> Made {
        let (expected, found) = (Made::by(expected, &lent), Made::by(found, &lent));
        let written = expected.written();
        assert!(
            found.answer == expected.answer
                && found.output == expected.output
                && found.output[written..] == lent[written..],
            "the {name} differs ({})\nexpected {:?}\nfound    {:?}\n\
             left     {}\nright    {}\nrelation {}\nlent     {}\nexpected {}\nfound    {}",
            case.label,
            expected.answer,
            found.answer,
            hex(&case.left),
            hex(&case.right),
            hex(&case.relation),
            hex(&lent),
            hex(&expected.output),
            hex(&found.output),
        );
        found
    }

    fn by(make: impl FnOnce(&mut [u8]) -> Answer, lent: &[u8]) -> Made {
        let mut output = lent.to_vec();
        let answer = make(&mut output);
        Made { answer, output }
    }

    /// How many bytes were written.
    fn written(&self) -> usize {
        match self.answer[0] {
            0 => self.answer[2] as usize,
            _ => 0,
        }
    }

    /// Sees the answer, and what was made.
    pub fn see(&self, report: &mut Report, case: &MakeCase) {
        report.see_label(case.label);
        let mut seen = answers_seen::see(report, "made", self.answer, files(case));
        if self.answer[0] == 21 && self.output.len() as u64 + 1 == self.answer[2] {
            seen.see("21, one byte short");
        }
        keys_seen::see_unmatched(&mut seen, files(case), self.answer);
        if self.answer[0] == 0 {
            self.see_certificate(&mut seen, case);
        }
    }

    fn see_certificate(&self, seen: &mut Seen, case: &MakeCase) {
        let (left, right) = (&case.left, &case.right);
        let certificate = &self.output[..self.written()];
        let judged = oracle::judge(left, right, certificate);
        assert!(
            judged[0] == 0,
            "the judge answers {judged:?} to a certificate made ({})\n\
             left        {}\nright       {}\ncertificate {}",
            case.label,
            hex(left),
            hex(right),
            hex(certificate),
        );
        keys_seen::see_success(seen, "made", files(case));
        keys_seen::see_matched(seen, "made", files(case));
        keys_seen::see_certificate(seen, files(case), certificate);
        let exact = self.output.len() == certificate.len();
        seen.see(format!(
            "made, output {}",
            if exact { "exact" } else { "longer" }
        ));
        for size in [size_names("made", left), size_names("made", right)].concat() {
            seen.see(size);
        }
        let (n1, n2) = (states(left), states(right));
        let m1 = steps(left).count();
        let (rows, mut rest) = certificate[11..].split_at(8 * n1);
        if certificate.len() == 41_483 && rows.iter().all(|&byte| byte == 0xff) {
            seen.see(LARGEST);
        }
        for (run, length) in RUNS.iter().zip([n1 * n2, n1 * n2, m1 * n2, usize::MAX]) {
            let (ranks, after) = rest.split_at(length.min(rest.len()));
            if ranks.iter().any(|&rank| rank > 0) {
                seen.see(format!("made, {run} rank above 0"));
            }
            // Ranks made are below the number of states, so this is the highest.
            if ranks.contains(&63) {
                seen.see(format!("made, {run} rank of 63"));
            }
            rest = after;
        }
    }
}
