//! The proved judge, the two proved makers with the enquiry and the commit, the proved
//! follower and the proved writer, for Rust: a safe interface to `include/stutter.h`.

/// "Six numbers: code, file, a, b, c, d."
pub type Answer = [u64; 6];

// A slice is a pointer and a length, and both are handed over.
extern "C" {
    fn stutter_judge(
        left: *const u8,
        left_length: usize,
        right: *const u8,
        right_length: usize,
        certificate: *const u8,
        certificate_length: usize,
        answer: *mut u64,
        answer_length: usize,
    ) -> bool;

    fn stutter_make(
        left: *const u8,
        left_length: usize,
        right: *const u8,
        right_length: usize,
        relation: *const u8,
        relation_length: usize,
        output: *mut u8,
        output_length: usize,
        answer: *mut u64,
        answer_length: usize,
    ) -> bool;

    fn stutter_make_by_sets(
        left: *const u8,
        left_length: usize,
        right: *const u8,
        right_length: usize,
        relation: *const u8,
        relation_length: usize,
        output: *mut u8,
        output_length: usize,
        answer: *mut u64,
        answer_length: usize,
    ) -> bool;

    fn stutter_enquire(
        left: *const u8,
        left_length: usize,
        right: *const u8,
        right_length: usize,
        relation: *const u8,
        relation_length: usize,
        slip: *mut u64,
        slip_length: usize,
        answer: *mut u64,
        answer_length: usize,
    ) -> bool;

    fn stutter_commit(
        left: *const u8,
        left_length: usize,
        right: *const u8,
        right_length: usize,
        relation: *const u8,
        relation_length: usize,
        slip: *const u64,
        slip_length: usize,
        output: *mut u8,
        output_length: usize,
        answer: *mut u64,
        answer_length: usize,
    ) -> bool;

    fn stutter_follow(
        left: *const u8,
        left_length: usize,
        right: *const u8,
        right_length: usize,
        certificate: *const u8,
        certificate_length: usize,
        side: u64,
        start: u64,
        path: *const u8,
        path_length: usize,
        states: *mut u8,
        states_length: usize,
        blocks: *mut u8,
        blocks_length: usize,
        answer: *mut u64,
        answer_length: usize,
    ) -> bool;

    fn stutter_write(
        marks: *const u32,
        marks_length: usize,
        starts: u64,
        steps: *const u16,
        steps_length: usize,
        output: *mut u8,
        output_length: usize,
        answer: *mut u64,
        answer_length: usize,
    ) -> bool;
}

/// The most bytes that are written for a table, one of 64 states and 256 steps.
pub const TABLE_MOST: usize = 784;

/// Judges a certificate for two tables, both with keys or both without.
pub fn judge(left: &[u8], right: &[u8], certificate: &[u8]) -> Answer {
    let mut answer = [0; 6];
    let had_room = judge_into(left, right, certificate, &mut answer);
    assert!(had_room, "six places are room enough");
    answer
}

/// Judges, and puts the six numbers into the first six places of `answer`. Where
/// it has fewer, nothing is written and the result is false.
pub fn judge_into(left: &[u8], right: &[u8], certificate: &[u8], answer: &mut [u64]) -> bool {
    // SAFETY: each pointer comes with its slice's length, the slices live through
    // the call, `answer` is borrowed for it alone, and nothing is kept.
    unsafe {
        stutter_judge(
            left.as_ptr(),
            left.len(),
            right.as_ptr(),
            right.len(),
            certificate.as_ptr(),
            certificate.len(),
            answer.as_mut_ptr(),
            answer.len(),
        )
    }
}

/// Makes a certificate for two tables and a relation at the front of `output`. On a
/// refusal `output` stays as it was.
pub fn make(left: &[u8], right: &[u8], relation: &[u8], output: &mut [u8]) -> Answer {
    let mut answer = [0; 6];
    let had_room = make_into(left, right, relation, output, &mut answer);
    assert!(had_room, "six places are room enough");
    answer
}

/// Makes, and puts the six numbers into the first six places of `answer`. Where it
/// has fewer, nothing is written, `output` stays as it was, and the result is false.
pub fn make_into(
    left: &[u8],
    right: &[u8],
    relation: &[u8],
    output: &mut [u8],
    answer: &mut [u64],
) -> bool {
    call_maker(stutter_make, left, right, relation, output, answer)
}

/// Makes as `make` does, with the same answer and the same bytes for every input, by sets: for
/// each step it grows the set of states at which the step is matched. This one is for large
/// tables, and `make` is the reference.
pub fn make_by_sets(left: &[u8], right: &[u8], relation: &[u8], output: &mut [u8]) -> Answer {
    let mut answer = [0; 6];
    let had_room = make_by_sets_into(left, right, relation, output, &mut answer);
    assert!(had_room, "six places are room enough");
    answer
}

/// Makes by sets, and puts the six numbers into `answer` as `make_into` does.
pub fn make_by_sets_into(
    left: &[u8],
    right: &[u8],
    relation: &[u8],
    output: &mut [u8],
    answer: &mut [u64],
) -> bool {
    call_maker(stutter_make_by_sets, left, right, relation, output, answer)
}

/// A maker of the library.
type Maker = unsafe extern "C" fn(
    *const u8,
    usize,
    *const u8,
    usize,
    *const u8,
    usize,
    *mut u8,
    usize,
    *mut u64,
    usize,
) -> bool;

/// Calls `stutter_make` or `stutter_make_by_sets`.
fn call_maker(
    maker: Maker,
    left: &[u8],
    right: &[u8],
    relation: &[u8],
    output: &mut [u8],
    answer: &mut [u64],
) -> bool {
    // SAFETY: each pointer comes with its slice's length, the slices live through
    // the call, `output` and `answer` are borrowed for it alone, and nothing is kept.
    unsafe {
        maker(
            left.as_ptr(),
            left.len(),
            right.as_ptr(),
            right.len(),
            relation.as_ptr(),
            relation.len(),
            output.as_mut_ptr(),
            output.len(),
            answer.as_mut_ptr(),
            answer.len(),
        )
    }
}

/// What an enquiry hands to the commit: the lengths of the three files and that of the
/// certificate, or zeros where the enquiry was refused. Only an enquiry makes one.
#[derive(Clone, Copy, Debug, PartialEq, Eq)]
pub struct Slip([u64; 4]);

impl Slip {
    /// The four numbers.
    pub fn numbers(&self) -> [u64; 4] {
        self.0
    }
}

/// Says whether a certificate can be made, as `make` does with an output that is long enough,
/// and gives the slip with which it is then made.
pub fn enquire(left: &[u8], right: &[u8], relation: &[u8]) -> (Answer, Slip) {
    let (mut answer, mut slip) = ([0; 6], [0; 4]);
    let had_room = enquire_into(left, right, relation, &mut slip, &mut answer);
    assert!(had_room, "six places and four are room enough");
    (answer, Slip(slip))
}

/// Enquires, and puts the slip into the first four places of `slip` and the six numbers into
/// the first six of `answer`. Where either has fewer, nothing is written and the result is
/// false.
pub fn enquire_into(
    left: &[u8],
    right: &[u8],
    relation: &[u8],
    slip: &mut [u64],
    answer: &mut [u64],
) -> bool {
    // SAFETY: each pointer comes with its slice's length, the slices live through
    // the call, `slip` and `answer` are borrowed for it alone, and nothing is kept.
    unsafe {
        stutter_enquire(
            left.as_ptr(),
            left.len(),
            right.as_ptr(),
            right.len(),
            relation.as_ptr(),
            relation.len(),
            slip.as_mut_ptr(),
            slip.len(),
            answer.as_mut_ptr(),
            answer.len(),
        )
    }
}

/// Makes as `make` does, where the slip is that of an enquiry with files of these lengths and
/// a certificate of this length. On a refusal `output` stays as it was.
pub fn commit(left: &[u8], right: &[u8], relation: &[u8], slip: Slip, output: &mut [u8]) -> Answer {
    commit_with(left, right, relation, &slip.0, output)
}

/// The same with any numbers as the slip, for tests. Of more than four the first four count;
/// fewer are not taken.
pub fn commit_with(
    left: &[u8],
    right: &[u8],
    relation: &[u8],
    slip: &[u64],
    output: &mut [u8],
) -> Answer {
    let mut answer = [0; 6];
    let had_room = commit_into(left, right, relation, slip, output, &mut answer);
    assert!(had_room, "a slip has four places");
    answer
}

/// Commits, and puts the six numbers into the first six places of `answer`. Where it has
/// fewer, or the slip fewer than four, nothing is written, `output` stays as it was, and the
/// result is false.
pub fn commit_into(
    left: &[u8],
    right: &[u8],
    relation: &[u8],
    slip: &[u64],
    output: &mut [u8],
    answer: &mut [u64],
) -> bool {
    // SAFETY: each pointer comes with its slice's length, the slices live through
    // the call, `output` and `answer` are borrowed for it alone, and nothing is kept.
    unsafe {
        stutter_commit(
            left.as_ptr(),
            left.len(),
            right.as_ptr(),
            right.len(),
            relation.as_ptr(),
            relation.len(),
            slip.as_ptr(),
            slip.len(),
            output.as_mut_ptr(),
            output.len(),
            answer.as_mut_ptr(),
            answer.len(),
        )
    }
}

/// Follows a run of one side on the other, of two tables without keys: the matching path goes
/// to the front of `states` and the block numbers of the states given to the front of
/// `blocks`. On a refusal both stay as they were.
pub fn follow(
    left: &[u8],
    right: &[u8],
    certificate: &[u8],
    side: u64,
    start: u64,
    path: &[u8],
    states: &mut [u8],
    blocks: &mut [u8],
) -> Answer {
    let mut answer = [0; 6];
    let had_room = follow_into(
        left,
        right,
        certificate,
        side,
        start,
        path,
        states,
        blocks,
        &mut answer,
    );
    assert!(had_room, "six places are room enough");
    answer
}

/// Follows, and puts the six numbers into the first six places of `answer`. Where it has
/// fewer, nothing is written, `states` and `blocks` stay as they were, and the result is
/// false.
pub fn follow_into(
    left: &[u8],
    right: &[u8],
    certificate: &[u8],
    side: u64,
    start: u64,
    path: &[u8],
    states: &mut [u8],
    blocks: &mut [u8],
    answer: &mut [u64],
) -> bool {
    // SAFETY: each pointer comes with its slice's length, the slices live through the
    // call, `states`, `blocks` and `answer` are borrowed for it alone, and nothing is
    // kept.
    unsafe {
        stutter_follow(
            left.as_ptr(),
            left.len(),
            right.as_ptr(),
            right.len(),
            certificate.as_ptr(),
            certificate.len(),
            side,
            start,
            path.as_ptr(),
            path.len(),
            states.as_mut_ptr(),
            states.len(),
            blocks.as_mut_ptr(),
            blocks.len(),
            answer.as_mut_ptr(),
            answer.len(),
        )
    }
}

/// Writes a table of version 4 at the front of `output`, with a mark for each state, a start
/// for each bit of the word, and steps in any order, from in the high byte and to in the low
/// one. On a refusal `output` stays as it was.
pub fn write(marks: &[u32], starts: u64, steps: &[u16], output: &mut [u8]) -> Answer {
    let mut answer = [0; 6];
    let had_room = write_into(marks, starts, steps, output, &mut answer);
    assert!(had_room, "six places are room enough");
    answer
}

/// Writes, and puts the six numbers into the first six places of `answer`. Where it has
/// fewer, nothing is written, `output` stays as it was, and the result is false.
pub fn write_into(
    marks: &[u32],
    starts: u64,
    steps: &[u16],
    output: &mut [u8],
    answer: &mut [u64],
) -> bool {
    // SAFETY: each pointer comes with its slice's length, the slices live through
    // the call, `output` and `answer` are borrowed for it alone, and nothing is kept.
    unsafe {
        stutter_write(
            marks.as_ptr(),
            marks.len(),
            starts,
            steps.as_ptr(),
            steps.len(),
            output.as_mut_ptr(),
            output.len(),
            answer.as_mut_ptr(),
            answer.len(),
        )
    }
}
