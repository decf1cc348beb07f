//! The bench examples of the scope document. The first tests hold the starred
//! ones, byte by byte; the others follow, then the listing and the follower.

use oracle::{follow, judge, list, listing_program, make, path_property, program, tuned, Answer};

const P: [u8; 17] = [
    0x54, 0x50, 0x54, 0x00, 0x01, 0x02, 0x00, 0x00, 0x02, // header
    0x00, 0x00, 0x00, 0x01, // marks 0 1
    0x00, 0x01, 0x01, 0x00, // steps 0-1, 1-0
];

const Q: [u8; 21] = [
    0x54, 0x50, 0x54, 0x00, 0x01, 0x03, 0x00, 0x00, 0x03, // header
    0x00, 0x00, 0x00, 0x00, 0x00, 0x01, // marks 0 0 1
    0x00, 0x01, 0x01, 0x02, 0x02, 0x00, // steps 0-1, 1-2, 2-0
];

const ROWS: [u8; 16] = [0, 0, 0, 0, 0, 0, 0, 3, 0, 0, 0, 0, 0, 0, 0, 4];

const K: [u8; 51] = [
    0x54, 0x50, 0x43, 0x00, 0x01, 0x02, 0x03, 0x00, 0x02, 0x00, 0x03, // header
    0, 0, 0, 0, 0, 0, 0, 3, // row of left state 0
    0, 0, 0, 0, 0, 0, 0, 4, // row of left state 1
    0, 0, 0, 0, 0, 0, // AL
    1, 0, 0, 0, 0, 0, // AR, where AR(0,0) = 1
    1, 0, 0, 0, 0, 0, // CL, where CL(step 0, 0) = 1
    0, 0, 0, 0, 0, 0, // CR
];

const AR_0_0: usize = 11 + 16 + 6;
const CL_0_0: usize = 11 + 16 + 12;

/// K with the rows' lowest bytes and two ranks replaced.
fn k_with(row0: u8, row1: u8, ar: u8, cl: u8) -> Vec<u8> {
    let mut k = K.to_vec();
    k[18] = row0;
    k[26] = row1;
    k[AR_0_0] = ar;
    k[CL_0_0] = cl;
    k
}

/// Three pieces, each after its length.
fn joined(pieces: [&[u8]; 3]) -> Vec<u8> {
    let mut input = Vec::new();
    for piece in pieces {
        input.extend((piece.len() as u16).to_be_bytes());
        input.extend(piece);
    }
    input
}

/// The plain judge, the tuned judge and the program must all say the same, and the
/// listing program too, where it is a refusal.
#[track_caller]
fn judged(left: &[u8], right: &[u8], certificate: &[u8], expected: &str) {
    let spelled = |answer: Answer| answer.map(|number| number.to_string()).join(" ");
    assert_eq!(spelled(judge(left, right, certificate)), expected);
    assert_eq!(spelled(tuned::judge(left, right, certificate)), expected);
    let input = joined([left, right, certificate]);
    assert_eq!(program(&input), format!("{expected}\n"));
    if let Err(refusal) = list(left, right, certificate) {
        assert_eq!(spelled(refusal), expected);
        assert_eq!(listing_program(&input), format!("{expected}\n"));
    }
}

/// The listing program prints these lines.
#[track_caller]
fn listed(left: &[u8], right: &[u8], certificate: &[u8], lines: &[&str]) {
    let printed: String = lines.iter().map(|line| format!("{line}\n")).collect();
    assert_eq!(
        listing_program(&joined([left, right, certificate])),
        printed
    );
}

/// The certificate that the maker writes for these rows.
#[track_caller]
fn certificate(left: &[u8], right: &[u8], rows: &[u8]) -> Vec<u8> {
    let relation: Vec<u8> = rows
        .iter()
        .flat_map(|&row| [0, 0, 0, 0, 0, 0, 0, row])
        .collect();
    let (answer, output) = made(left, right, &relation, 1_000);
    assert_eq!(answer[0], 0, "{answer:?}");
    output[..answer[2] as usize].to_vec()
}

/// Calls the maker with an output full of 0xEE, and gives the answer and output.
fn made(left: &[u8], right: &[u8], relation: &[u8], length: usize) -> (Answer, Vec<u8>) {
    let mut output = vec![0xEE; length];
    let answer = make(left, right, relation, &mut output);
    (answer, output)
}

/// A table from its parts.
fn table(start: u8, marks: &[u8], steps: &[[u8; 2]]) -> Vec<u8> {
    let mut bytes = b"TPT\0\x01".to_vec();
    bytes.extend([marks.len() as u8, start]);
    bytes.extend((steps.len() as u16).to_be_bytes());
    bytes.extend(marks.iter().flat_map(|&mark| [0, mark]));
    bytes.extend(steps.iter().flatten());
    bytes
}

#[test]
fn p_and_q_are_as_drawn() {
    assert_eq!(table(0, &[0, 1], &[[0, 1], [1, 0]]), P);
    assert_eq!(table(0, &[0, 0, 1], &[[0, 1], [1, 2], [2, 0]]), Q);
}

#[test]
fn starred_judge_examples() {
    judged(&P, &Q, &K, "0 0 3 4 1 1");
    judged(&P, &Q, &k_with(3, 4, 0, 1), "19 2 1 0 0 0");
    judged(&P, &Q, &k_with(3, 4, 1, 0), "19 2 0 0 0 0");
    judged(&P, &Q, &k_with(1, 4, 1, 1), "18 2 0 0 0 0");
    judged(&P, &Q, &k_with(2, 4, 1, 1), "16 2 0 0 0 0");
    judged(&P, &Q, &k_with(3, 6, 1, 1), "17 2 1 1 0 0");
    judged(&P, &Q, &k_with(11, 4, 1, 1), "15 2 0 0 0 0");
}

#[test]
fn starred_examples_of_one_state() {
    let still = table(0, &[0], &[]);
    let looping = table(0, &[0], &[[0, 0]]);
    let row = [0, 0, 0, 0, 0, 0, 0, 1];

    let (answer, certificate) = made(&still, &still, &row, 21);
    assert_eq!(answer, [0, 0, 21, 0, 0, 0]);
    judged(&still, &still, &certificate, "0 0 1 0 0 0");

    let (answer, output) = made(&still, &looping, &row, 22);
    assert_eq!(answer, [23, 2, 1, 0, 0, 0]);
    assert_eq!(output, [0xEE; 22]);
    assert!(!path_property(&still, &looping, &row));
}

#[test]
fn the_maker_writes_exactly_k() {
    assert_eq!(made(&P, &Q, &ROWS, 51), ([0, 0, 51, 0, 0, 0], K.to_vec()));
    assert!(path_property(&P, &Q, &ROWS));

    let (answer, output) = made(&P, &Q, &ROWS, 60);
    assert_eq!(answer, [0, 0, 51, 0, 0, 0]);
    assert_eq!(output[..51], K);
    assert_eq!(output[51..], [0xEE; 9]);
}

#[test]
fn an_output_of_50_bytes_is_too_short_for_k() {
    let (answer, output) = made(&P, &Q, &ROWS, 50);
    assert_eq!(answer, [21, 3, 51, 0, 0, 0]);
    assert_eq!(output, [0xEE; 50]);
}

#[test]
fn a_pause_that_may_last_for_ever() {
    let q = table(0, &[0, 0, 1], &[[0, 1], [1, 2], [2, 0], [1, 1]]);
    assert_eq!(made(&P, &q, &ROWS, 100).0, [23, 2, 1, 0, 0, 0]);
    assert!(!path_property(&P, &q, &ROWS));

    // "P also with 0-0 last: made"; Q keeps its step 1-1.
    let p = table(0, &[0, 1], &[[0, 1], [1, 0], [0, 0]]);
    let (answer, output) = made(&p, &q, &ROWS, 100);
    assert_eq!(answer[0], 0);
    assert!(path_property(&p, &q, &ROWS));
    judged(&p, &q, &output[..answer[2] as usize], "0 0 3 8 0 1");
}

#[test]
fn limits_of_n_and_m() {
    let first_number = |left: &[u8]| judge(left, &[], &[]);
    let read = [1, 1, 0, 0, 0, 0]; // the left table is read, the right is empty
    let steps: Vec<[u8; 2]> = (0..257).map(|j| [(j / 64) as u8, (j % 64) as u8]).collect();

    assert_eq!(first_number(&table(0, &[0; 64], &[])), read);
    assert_eq!(first_number(&table(0, &[0; 65], &[])), [4, 0, 0, 0, 0, 0]);
    assert_eq!(first_number(&table(0, &[], &[])), [4, 0, 0, 0, 0, 0]);
    assert_eq!(first_number(&table(0, &[0; 64], &steps[..256])), read);
    assert_eq!(
        first_number(&table(0, &[0; 64], &steps)),
        [6, 0, 0, 0, 0, 0]
    );
}

/// "its steps rise by from, then by to"
#[test]
fn steps_of_version_2_rise() {
    let answer = |steps: &[[u8; 2]]| {
        let mut bytes = table(0, &[0; 3], steps);
        bytes[4] = 2;
        judge(&bytes, &[], &[])
    };
    let read = [1, 1, 0, 0, 0, 0]; // the left table is read, the right is empty
    assert_eq!(answer(&[]), read);
    assert_eq!(answer(&[[2, 1]]), read);
    assert_eq!(answer(&[[0, 2], [1, 0], [1, 1]]), read);
    assert_eq!(answer(&[[0, 0], [0, 0]]), [24, 0, 1, 0, 0, 0]);
    assert_eq!(answer(&[[0, 0], [1, 0], [0, 1]]), [24, 0, 2, 0, 0, 0]);
    assert_eq!(answer(&[[1, 2], [1, 1], [1, 0]]), [24, 0, 1, 0, 0, 0]);
    assert_eq!(answer(&[[1, 2], [1, 1], [3, 0]]), [8, 0, 2, 0, 0, 0]);
}

#[test]
fn of_two_bad_tables_the_left_is_reported() {
    judged(&P[..8], &Q[..8], &K, "1 0 0 0 0 0");
    judged(&[], b"XPT\0\x01\x01\0\0\0", &[], "1 0 0 0 0 0");
    assert_eq!(
        made(b"TPX\0\x01\x01\0\0\0", &[], &[], 0).0,
        [2, 0, 0, 0, 0, 0]
    );
}

#[test]
fn the_longest_certificate() {
    let layout = oracle::Layout {
        n1: 64,
        n2: 64,
        m1: 256,
        m2: 256,
    };
    assert_eq!(layout.length(), 41_483);
}

/// The wrong turns that the document names, on tables whose marks are all equal
/// and whose starts are 0. `ranks` are the four runs one after the other.
#[track_caller]
fn wrong_turn(left: &[u8], right: &[u8], rows: &[u8], ranks: &[u8], expected: &str) {
    let mut certificate = b"TPC\0\x01".to_vec();
    certificate.extend([left[5], right[5], left[7], left[8], right[7], right[8]]);
    for &row in rows {
        certificate.extend([0, 0, 0, 0, 0, 0, 0, row]);
    }
    certificate.extend(ranks);
    judged(left, right, &certificate, expected);
}

#[test]
fn equal_ranks_do_not_fall() {
    let still = table(0, &[0], &[]);
    let looping = table(0, &[0], &[[0, 0]]);
    // A dead end is not related to a self-loop of the same mark either.
    wrong_turn(&still, &looping, &[1], &[5, 5, 5], "19 2 1 0 0 0");
    wrong_turn(&looping, &still, &[1], &[5, 5, 5], "19 2 0 0 0 0");
}

#[test]
fn chase_ranks_of_different_steps_are_not_compared() {
    // Left state 0 steps to 1 and to 2. Right state 0 must first go to 1 and can
    // then follow either step. The ranks of step 1 are equal at 0 and at 1, but
    // its rank at 1 is below the rank of step 0 at 0.
    let left = table(0, &[0, 1, 2], &[[0, 1], [0, 2]]);
    let right = table(0, &[0, 0, 1, 2], &[[0, 1], [1, 2], [1, 3]]);
    let rows = [0b0011, 0b0100, 0b1000];
    let mut ranks = vec![0; 12 + 12 + 8 + 9];
    ranks[12] = 1; // AR(0,0): right step 0 only stutters
    ranks[24] = 9; // CL(step 0, 0)
    ranks[25] = 5; // CL(step 0, 1)
    ranks[28] = 5; // CL(step 1, 0)
    ranks[29] = 5; // CL(step 1, 1)
    wrong_turn(&left, &right, &rows, &ranks, "19 2 0 0 0 1");
    ranks[28] = 6;
    wrong_turn(&left, &right, &rows, &ranks, "0 0 4 4 1 2");
}

#[test]
fn right_steps_are_judged_too() {
    let left = table(0, &[0], &[]);
    let right = table(0, &[0, 1], &[[0, 1]]);
    wrong_turn(&left, &right, &[1], &[0; 5], "18 2 1 0 0 0");
}

#[test]
fn where_2a_and_2b_hold_2a_counts() {
    let left = table(0, &[0, 0], &[[0, 1], [1, 1]]);
    let right = table(0, &[0], &[[0, 0]]);
    wrong_turn(
        &left,
        &right,
        &[1, 1],
        &[1, 0, 0, 0, 0, 0, 0, 0],
        "0 0 2 4 0 0",
    );
}

#[test]
fn pieces_of_the_program() {
    assert_eq!(program(&[]), "1 0 0 0 0 0\n");
    assert_eq!(program(&[0]), "1 0 0 0 0 0\n");
    let mut input = vec![0, 17];
    input.extend(P);
    assert_eq!(program(&input), "1 1 0 0 0 0\n");
    input.extend([0]);
    assert_eq!(program(&input), "1 1 0 0 0 0\n");
    input.extend([21]);
    input.extend(Q);
    assert_eq!(program(&input), "10 2 0 0 0 0\n");
    input.extend([255, 255]); // more than is there
    input.extend(K);
    assert_eq!(program(&input), "0 0 3 4 1 1\n");
    input.pop();
    assert_eq!(program(&input), "14 2 0 0 0 0\n");
}

/// The lines that the change request names.
#[test]
fn the_listing_of_p_q_k() {
    let lines = [
        "0 0 0 0 3 1",
        "1 0 0 0 2 0",
        "0 0 1 0 1 2",
        "1 0 1 1 1 1",
        "0 1 2 1 1 0",
        "1 1 2 2 1 0",
    ];
    listed(&P, &Q, &K, &lines);
}

/// "t itself for 2b": here s is 0, t is 1 and u is 2.
#[test]
fn t_answers_by_2b() {
    let left = table(0, &[0, 0, 0], &[[0, 2]]);
    let right = table(1, &[0, 0], &[]);
    let made = certificate(&left, &right, &[0b10, 0, 0b10]);
    listed(&left, &right, &made, &["0 0 1 0 2 1"]);

    // The same with the sides exchanged.
    let made = certificate(&right, &left, &[0, 0b101]);
    listed(&right, &left, &made, &["1 1 0 0 2 1"]);
}

/// Right state 2 steps to 0, to 3 and to 1, all related to left state 0. The chase rank
/// of the left step is 1 at 0, as at 2, and lower at 3 and at 1, so that 1 answers.
#[test]
fn by_2c_the_smallest_state_with_a_lower_rank_answers() {
    let left = table(0, &[0, 1], &[[0, 1]]);
    let steps = [[2, 0], [2, 3], [2, 1], [3, 4], [1, 4], [0, 1]];
    let right = table(2, &[0, 0, 0, 0, 1], &steps);
    let made = certificate(&left, &right, &[0b01111, 0b10000]);
    let lines = [
        "0 0 0 0 3 1",
        "1 0 0 5 2 0",
        "0 0 1 0 1 4",
        "1 0 1 4 1 1",
        "0 0 2 0 3 1",
        "1 0 2 0 2 0",
        "1 0 2 1 2 0",
        "1 0 2 2 2 0",
        "0 0 3 0 1 4",
        "1 0 3 3 1 1",
    ];
    listed(&left, &right, &made, &lines);
}

/// Right state 0 steps to 3, to 2 and to 1, in this order: 1 answers.
#[test]
fn by_2a_the_smallest_state_answers() {
    let left = table(0, &[0], &[[0, 0]]);
    let steps = [[0, 3], [0, 2], [0, 1], [1, 1], [2, 2], [3, 3]];
    let right = table(0, &[0; 4], &steps);
    let made = certificate(&left, &right, &[0b1111]);
    let lines = [
        "0 0 0 0 1 1",
        "1 0 0 0 1 0",
        "1 0 0 1 1 0",
        "1 0 0 2 1 0",
        "0 0 1 0 1 1",
        "1 0 1 3 1 0",
        "0 0 2 0 1 2",
        "1 0 2 4 1 0",
        "0 0 3 0 1 3",
        "1 0 3 5 1 0",
    ];
    listed(&left, &right, &made, &lines);
}

/// "On a refusal it prints the six numbers only": also where duties before the one
/// refused are met.
#[test]
fn a_refusal_lists_nothing() {
    listed(&P, &Q, &k_with(3, 4, 0, 1), &["19 2 1 0 0 0"]);
    listed(&P, &Q, &K[..50], &["14 2 0 0 0 0"]);
    listed(&P, &[], &K, &["1 1 0 0 0 0"]);
}

#[test]
fn without_a_duty_nothing_is_printed() {
    let still = table(0, &[0], &[]);
    let made = certificate(&still, &still, &[1]);
    judged(&still, &still, &made, "0 0 1 0 0 0");
    listed(&still, &still, &made, &[]);
}

/// A run to be followed: the path's side, the start on the other side, the path.
type Run<'a> = (u64, u64, &'a [u8]);

/// Calls the follower with outputs of these lengths, full of 0xEE.
fn follow_run(
    files: [&[u8]; 3],
    (side, start, path): Run,
    lengths: [usize; 2],
) -> (Answer, [Vec<u8>; 2]) {
    let [left, right, certificate] = files;
    let mut outputs = lengths.map(|length| vec![0xEE; length]);
    let [states, blocks] = &mut outputs;
    let answer = follow(left, right, certificate, side, start, path, states, blocks);
    (answer, outputs)
}

/// The follower writes these bytes, and later ones stay.
#[track_caller]
fn followed(files: [&[u8]; 3], run: Run, lengths: [usize; 2], states: &[u8], blocks: &[u8]) {
    let (answer, outputs) = follow_run(files, run, lengths);
    assert_eq!(answer, [0, 0, states.len() as u64 / 3, 0, 0, 0]);
    for (output, written) in outputs.iter().zip([states, blocks]) {
        let (front, rest) = output.split_at(written.len());
        assert_eq!(front, written);
        assert!(rest.iter().all(|&byte| byte == 0xEE));
    }
}

/// The follower refuses, and both outputs stay.
#[track_caller]
fn not_followed(files: [&[u8]; 3], run: Run, lengths: [usize; 2], code: u64, file: u64) {
    let (answer, outputs) = follow_run(files, run, lengths);
    assert_eq!(answer, [code, file, 0, 0, 0, 0]);
    assert_eq!(outputs, lengths.map(|length| vec![0xEE; length]));
}

/// P steps on at once. Q pauses first, by 2c, and then follows by 2a.
#[test]
fn a_run_of_p_followed_by_q() {
    let files: [&[u8]; 3] = [&P, &Q, &K];
    let run: Run = (0, 0, &[0, 1, 0, 1]);
    let states = [0, 0, 0, 1, 0, 0, 2, 0, 1, 0, 0, 2, 1, 0, 2, 2, 0, 3];
    let blocks = [0, 0, 0, 1, 0, 2, 0, 3];
    followed(files, run, [18, 8], &states, &blocks);
    followed(files, run, [49_152, 512], &states, &blocks);
    for lengths in [[17, 8], [18, 7], [0, 8], [18, 0], [0, 0]] {
        not_followed(files, run, lengths, 27, 3);
    }
    // From the pause on there is nothing to wait for.
    let run: Run = (0, 1, &[0, 1]);
    followed(files, run, [9, 9], &[1, 0, 0, 2, 0, 1], &[0, 0, 0, 1]);
}

/// The pause of Q is answered by 2b: P stays where it is, in the same block.
#[test]
fn a_run_of_q_followed_by_p() {
    let states = [0, 0, 0, 1, 0, 1, 0, 0, 2];
    let blocks = [0, 0, 0, 0, 0, 1, 0, 2];
    let run: Run = (1, 0, &[0, 1, 2, 0]);
    followed([&P, &Q, &K], run, [20, 10], &states, &blocks);
}

/// Right state 2 steps to 3 and to 1, right state 1 to 3 and to 0, right state 0 to 3:
/// the dead end 3 is reached by way of all of them.
#[test]
fn a_dead_end_is_followed_by_smallest_steps() {
    let left = table(0, &[0], &[]);
    let steps = [[2, 3], [2, 1], [1, 3], [1, 0], [0, 3]];
    let right = table(2, &[0; 4], &steps);
    let made = certificate(&left, &right, &[0b1111]);
    let files: [&[u8]; 3] = [&left, &right, &made];
    let states = [2, 0, 0, 1, 0, 0, 0, 0, 0, 3, 0, 0];
    followed(files, (0, 2, &[0]), [12, 2], &states, &[0, 0]);
    followed(files, (0, 3, &[0]), [12, 2], &[3, 0, 0], &[0, 0]);
    // A path that could still go on is followed to its end and no further.
    let made = certificate(&right, &right, &[0b0001, 0b0010, 0b0100, 0b1000]);
    let files: [&[u8]; 3] = [&right, &right, &made];
    let (states, blocks) = ([2, 0, 0, 1, 0, 1], [0, 0, 0, 1]);
    followed(files, (0, 2, &[2, 1]), [12, 4], &states, &blocks);
}

/// "all three after the judge's own refusals, in this order"
#[test]
fn refused_runs() {
    let files: [&[u8]; 3] = [&P, &Q, &K];
    let longest: Vec<u8> = [0, 1].repeat(129);
    let wrong_paths: [Run; 9] = [
        (2, 9, &[0]),
        (u64::MAX, 0, &[0]),
        (0, 0, &[]),
        (0, 0, &longest[..257]),
        (0, 0, &[0, 1, 2]),
        (1, 9, &[0, 1, 2, 3]),
        (0, 0, &[255]),
        (0, 0, &[0, 0]),
        (1, 0, &[0, 2]),
    ];
    for run in wrong_paths {
        not_followed(files, run, [0, 0], 25, 4);
        not_followed(files, run, [2_000, 600], 25, 4);
        not_followed([&P, &Q, &K[..50]], run, [0, 0], 14, 2);
    }
    let wrong_starts: [Run; 7] = [
        (0, 2, &[0]),
        (0, 3, &[0]),
        (0, 1, &[1, 0]),
        (0, 1 << 32, &[0]),
        (0, u64::MAX, &[0]),
        (1, 1, &[1]),
        (1, 2, &[2, 0]),
    ];
    for run in wrong_starts {
        not_followed(files, run, [0, 0], 26, 4);
        not_followed(files, run, [2_000, 600], 26, 4);
        not_followed([&P[..8], &Q, &K], run, [0, 0], 1, 0);
    }
    not_followed(files, (0, 0, &longest[..256]), [0, 0], 27, 3);
}
