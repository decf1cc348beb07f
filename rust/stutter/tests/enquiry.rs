//! The proved enquiry and the proved commit, through the C interface, beside the oracle; and
//! what is promised of the two together.

use compare::EnquiryAndCommit;
use inputs::{all_related, fullest_with_keys, long_chains, long_distances, spaced};
use inputs::{CommitCase, CommitCases, MakeCase, MakeCases, Random, System};
use oracle::{Answer, Slip};
use std::thread;

/// Places that hold any numbers.
fn any_places(random: &mut Random, length: usize) -> Vec<u64> {
    (0..length).map(|_| random.word()).collect()
}

/// The slip is given in four places or more, of which the later ones stay.
#[test]
fn the_enquiry_equals_the_oracle() {
    let mut random = Random::new(91);
    let compared = compare::enquire(220_000, 91, |left, right, relation| {
        let length = random.within(4, 7);
        let places = any_places(&mut random, length);
        let (mut slip, mut answer) = (places.clone(), [0; 6]);
        let had_room = stutter::enquire_into(left, right, relation, &mut slip, &mut answer);
        assert!(had_room, "{length} places");
        assert_eq!(slip[4..], places[4..]);
        (answer, [slip[0], slip[1], slip[2], slip[3]])
    });
    compared.require_all();
}

/// The slip stands in the first four of four places or more.
#[test]
fn the_commit_equals_the_oracle() {
    let mut random = Random::new(92);
    let compared = compare::commit(220_000, 92, |left, right, relation, slip, output| {
        let further = random.below(4);
        let slip = [&slip[..], &any_places(&mut random, further)].concat();
        stutter::commit_with(left, right, relation, &slip, output)
    });
    compared.require_all();
}

/// With slips that only an enquiry makes, beside either maker.
#[test]
fn the_enquiry_and_the_commit_do_as_promised() {
    type Make = fn(&[u8], &[u8], &[u8], &mut [u8]) -> Answer;
    let makers: [(Make, usize); 2] = [(stutter::make, 220_000), (stutter::make_by_sets, 20_000)];
    for (make, count) in makers {
        let proved = EnquiryAndCommit {
            enquire: stutter::enquire,
            commit: stutter::commit,
            make,
        };
        proved.require_promised(count, 93).require_all();
    }
}

/// A slip is that of its enquiry, and equal to another exactly where the numbers are.
#[test]
fn a_slip_has_the_numbers_of_its_enquiry() {
    let mut before = None;
    let mut compared = [0, 0];
    for case in MakeCases::new(94, 3_000) {
        let (_, slip) = stutter::enquire(&case.left, &case.right, &case.relation);
        let (_, expected) = oracle::enquire(&case.left, &case.right, &case.relation);
        assert_eq!(slip.numbers(), expected);
        if let Some((slip_before, numbers)) = before.replace((slip, expected)) {
            assert_eq!(slip == slip_before, expected == numbers);
            compared[usize::from(slip == slip_before)] += 1;
        }
    }
    assert!(compared.iter().all(|&times| times > 300), "{compared:?}");
}

/// 64 states and 256 steps a side in every mix of versions and with keys.
fn largest() -> impl Iterator<Item = System> {
    let systems = [all_related(), long_chains(), long_distances()];
    let both = |system: System| [system.clone(), system.exchanged()];
    let without_keys = systems.map(both).into_iter().flatten();
    let with_keys = fullest_with_keys().map(both).into_iter().flatten();
    without_keys
        .flat_map(|system| system.in_all_versions())
        .chain(with_keys.map(System::with_all_starts))
}

/// The longest tables have 1,040 bytes, 784 without keys, and 512 bytes of rows.
#[test]
fn the_largest_certificates_are_made() {
    let mut longest = [0, 0];
    for system in largest() {
        let (left, right) = (system.left_bytes(), system.right_bytes());
        let relation = system.relation_bytes();
        let (answer, slip) = stutter::enquire(&left, &right, &relation);
        assert_eq!(answer, [0, 0, 41_483, 0, 0, 0]);
        let lengths = [left.len(), right.len(), 512, 41_483];
        assert_eq!(slip.numbers(), lengths.map(|length| length as u64));
        let mut output = vec![0xa5; 41_483];
        assert_eq!(
            stutter::commit(&left, &right, &relation, slip, &mut output),
            answer
        );
        assert!(output == system.certificate(), "the certificates differ");
        let longest = &mut longest[usize::from(system.has_keys())];
        *longest = left.len().min(right.len()).max(*longest);
    }
    assert_eq!(longest, [784, 1_040]);
}

/// A stack of 1 MiB is enough for the largest tables.
#[test]
fn a_small_stack_is_enough() {
    for system in largest() {
        let (left, right) = (system.left_bytes(), system.right_bytes());
        let relation = system.relation_bytes();
        let mut output = vec![0; 41_483];
        let small = thread::Builder::new().stack_size(1 << 20);
        let thread = small.spawn(move || {
            let (enquired, slip) = stutter::enquire(&left, &right, &relation);
            let committed = stutter::commit(&left, &right, &relation, slip, &mut output);
            [enquired, committed]
        });
        let answers = thread.expect("the thread starts").join();
        assert_eq!(
            answers.expect("the thread ends"),
            [[0, 0, 41_483, 0, 0, 0]; 2]
        );
    }
}

/// The numbers of places for the slip and for the answer of which one is too short.
fn too_few_places() -> impl Iterator<Item = (usize, usize)> {
    let all = (0..7).flat_map(|slip| (0..9).map(move |answer| (slip, answer)));
    all.filter(|&(slip, answer)| slip < 4 || answer < 6)
}

/// With fewer than six places for the answer or four for the slip neither changes.
#[test]
fn an_enquiry_with_too_few_places_leaves_all_alone() {
    let mut random = Random::new(95);
    for case in MakeCases::new(95, 500) {
        for (slip_length, answer_length) in too_few_places() {
            let places = [slip_length, answer_length].map(|length| any_places(&mut random, length));
            let [mut slip, mut answer] = places.clone();
            let (left, right, relation) = (&case.left, &case.right, &case.relation);
            let had_room = stutter::enquire_into(left, right, relation, &mut slip, &mut answer);
            assert!(!had_room, "{slip_length} and {answer_length} places");
            assert_eq!([slip, answer], places);
        }
    }
}

fn commit_into(inputs: &MakeCase, slip: &[u64], output: &mut [u8], answer: &mut [u64]) -> bool {
    let (left, right, relation) = (&inputs.left, &inputs.right, &inputs.relation);
    stutter::commit_into(left, right, relation, slip, output, answer)
}

/// A slip of this many places that begins with this one, or as much of it as has room.
fn in_places(random: &mut Random, slip: Slip, length: usize) -> Vec<u64> {
    let mut places = slip.to_vec();
    places.extend(any_places(random, length.saturating_sub(4)));
    places.truncate(length);
    places
}

/// With fewer than six places for the answer or four of the slip neither the answer nor the
/// output changes, even where the rest of the slip is right.
#[test]
fn a_commit_with_too_few_places_leaves_all_alone() {
    let mut random = Random::new(96);
    for case in CommitCases::new(96, 500) {
        let lent = random.bytes(case.inputs.output_length);
        for (slip_length, answer_length) in too_few_places() {
            let slip = in_places(&mut random, case.slip, slip_length);
            let places = any_places(&mut random, answer_length);
            let (mut answer, mut output) = (places.clone(), lent.clone());
            let had_room = commit_into(&case.inputs, &slip, &mut output, &mut answer);
            assert!(!had_room, "{slip_length} and {answer_length} places");
            assert_eq!(answer, places);
            assert!(output == lent, "{slip_length} and {answer_length} places");
        }
    }
}

/// The oracle's answer, and this output after it.
fn expected(case: &CommitCase, mut output: Vec<u8>) -> (Answer, Vec<u8>) {
    let CommitCase { inputs, slip, .. } = case;
    let (left, right, relation) = (&inputs.left, &inputs.right, &inputs.relation);
    let answer = oracle::commit(left, right, relation, *slip, &mut output);
    (answer, output)
}

/// Of a longer answer and a longer slip the first places count, and the rest stays.
#[test]
fn longer_places_keep_their_tails() {
    let mut random = Random::new(97);
    for case in CommitCases::new(97, 500) {
        let lent = random.bytes(case.inputs.output_length);
        let (committed, written) = expected(&case, lent.clone());
        let MakeCase {
            left,
            right,
            relation,
            ..
        } = &case.inputs;
        let (enquired, expected_slip) = oracle::enquire(left, right, relation);
        for (slip_length, answer_length) in [(4, 6), (4, 9), (5, 6), (9, 12)] {
            let places = [slip_length, answer_length].map(|length| any_places(&mut random, length));
            let [mut slip, mut answer] = places.clone();
            let had_room = stutter::enquire_into(left, right, relation, &mut slip, &mut answer);
            assert!(had_room, "{slip_length} and {answer_length} places");
            assert_eq!(slip, [&expected_slip, &places[0][4..]].concat());
            assert_eq!(answer, [&enquired, &places[1][6..]].concat());

            let slip = in_places(&mut random, case.slip, slip_length);
            let (mut answer, mut output) = (places[1].clone(), lent.clone());
            let had_room = commit_into(&case.inputs, &slip, &mut output, &mut answer);
            assert!(had_room, "{slip_length} and {answer_length} places");
            assert_eq!(answer, [&committed, &places[1][6..]].concat());
            assert!(
                output == written,
                "{slip_length} and {answer_length} places"
            );
        }
    }
}

/// The right numbers in later places of a slip do not count.
#[test]
fn the_first_four_places_count() {
    let mut refused = 0;
    for case in MakeCases::new(98, 1_000) {
        let (left, right, relation) = (&case.left, &case.right, &case.relation);
        let (answer, slip) = stutter::enquire(left, right, relation);
        if answer[0] != 0 {
            continue;
        }
        let mut output = vec![0; answer[2] as usize];
        let places = [&[0; 4], &slip.numbers()[..]].concat();
        let found = stutter::commit_with(left, right, relation, &places, &mut output);
        assert_eq!(found, [29, 2, 0, 0, 0, 0]);
        let places = [&slip.numbers()[..], &[0; 4]].concat();
        let found = stutter::commit_with(left, right, relation, &places, &mut output);
        assert_eq!(found, answer);
        refused += 1;
    }
    assert!(refused >= 100, "{refused}");
}

/// Files, slip and output that lie in larger buffers: what is read past an end would change
/// the answer, and what is written past an end is seen.
#[test]
fn only_what_is_lent_is_touched() {
    let mut random = Random::new(99);
    for case in CommitCases::new(99, 3_000) {
        let inputs = &case.inputs;
        let files = [&inputs.left[..], &inputs.right, &inputs.relation];
        let lent = random.bytes(inputs.output_length);
        let (committed, written) = expected(&case, lent.clone());
        let (enquired, expected_slip) = oracle::enquire(files[0], files[1], files[2]);
        for filler in [0x00, 0x01, 0xff] {
            let (buffer, places) = spaced(files, filler);
            let [left, right, relation] = places.map(|place| &buffer[place]);
            let filler_word = u64::from_ne_bytes([filler; 8]);

            let (mut slip, [place]) = spaced([&[7; 4]], filler_word);
            let (mut answer, [answer_place]) = spaced([&[7; 6]], filler_word);
            let (slip_lent, answer_lent) = (&mut slip[place], &mut answer[answer_place]);
            let had_room = stutter::enquire_into(left, right, relation, slip_lent, answer_lent);
            assert!(had_room);
            assert_eq!(slip, spaced([&expected_slip], filler_word).0);
            assert_eq!(answer, spaced([&enquired], filler_word).0);

            let (slip, [place]) = spaced([&case.slip], filler_word);
            let (mut output, [output_place]) = spaced([&lent[..]], filler);
            let output_lent = &mut output[output_place];
            let found = stutter::commit_with(left, right, relation, &slip[place], output_lent);
            assert_eq!(found, committed);
            assert!(output == spaced([&written[..]], filler).0);
        }
    }
}
