//! The judge once more, tuned: a set of states is one 64-bit word.
//!
//! It shares no code with the plain judge, so that the two check each other. What looks at
//! steps is compiled twice, for steps of two bytes and for steps of three, so that tables
//! without keys pay nothing for those with them.

use crate::Answer;
use std::borrow::Cow;

/// One table, read once. The steps from s, in table order, are
/// `order[first[s]..first[s + 1]]`.
pub(crate) struct Table<'a> {
    pub states: usize,
    /// A bit for each start.
    pub starts: u64,
    /// The starts stand in the file as a word.
    pub start_word: bool,
    /// The mark of each state, as a number.
    pub marks: [u32; 64],
    /// The bytes of all steps.
    pub steps: &'a [u8],
    /// How many of them a step has.
    pub step_width: usize,
    /// From and to of each silent step.
    pub silent: Cow<'a, [u8]>,
    /// For each state a bit for each state that it steps to silently.
    pub successors: [u64; 64],
    /// The same for every key, where the steps have keys.
    pub keyed: Option<Keyed>,
    pub first: [usize; 65],
    pub order: [u16; 256],
}

/// To what each state steps under each key. The keys of two tables that are read together
/// have slots, the same ones in both.
pub(crate) struct Keyed {
    /// The slot of each step's key.
    pub slots: Vec<u16>,
    /// How many slots there are.
    width: usize,
    /// A row for each state, with a word at each slot: the states it steps to.
    rows: Vec<u64>,
}

impl Keyed {
    /// The row of a state.
    #[inline]
    pub fn row(&self, state: usize) -> &[u64] {
        &self.rows[state * self.width..(state + 1) * self.width]
    }

    fn new(table: &Table, slot_of: &[u16; 256], width: usize) -> Keyed {
        let mut slots = Vec::with_capacity(table.step_count());
        let mut rows = vec![0; table.states * width];
        for step in table.steps.chunks_exact(3) {
            let slot = slot_of[step[2] as usize];
            slots.push(slot);
            rows[step[0] as usize * width + slot as usize] |= 1 << step[1];
        }
        Keyed { slots, width, rows }
    }

    /// Those of two tables whose steps have keys.
    fn of_both(left: &Table, right: &Table) -> [Keyed; 2] {
        let mut slot_of = [u16::MAX; 256];
        let mut width = 0;
        for table in [left, right] {
            for step in table.steps.chunks_exact(3) {
                let slot = &mut slot_of[step[2] as usize];
                if *slot == u16::MAX {
                    *slot = width;
                    width += 1;
                }
            }
        }
        [left, right].map(|table| Keyed::new(table, &slot_of, width as usize))
    }
}

impl Table<'_> {
    /// How many steps there are.
    pub fn step_count(&self) -> usize {
        self.steps.len() / self.step_width
    }
}

/// The key of step j, where steps have so many bytes.
#[inline]
pub(crate) fn key<const WIDTH: usize>(steps: &[u8], j: usize) -> u8 {
    if WIDTH == 3 {
        steps[3 * j + 2]
    } else {
        0
    }
}

/// One direction of judging. `related[s]` has a bit for each state of the other
/// table that is related to the own state s: the rows for the left side, the
/// columns for the right one.
pub(crate) struct Side<'a> {
    pub own: &'a Table<'a>,
    pub other: &'a Table<'a>,
    pub related: &'a [u64; 64],
    pub stutter: &'a [u8],
    pub chase: &'a [u8],
}

/// The six numbers of the judge.
pub fn judge(left: &[u8], right: &[u8], certificate: &[u8]) -> Answer {
    match try_judge(left, right, certificate) {
        Ok(answer) | Err(answer) => answer,
    }
}

fn try_judge(left: &[u8], right: &[u8], certificate: &[u8]) -> Result<Answer, Answer> {
    let (left, right) = read_tables(left, right)?;
    accept(&left, &right, certificate, |_, answer| Ok(answer))
}

/// Both tables, of one kind.
pub(crate) fn read_tables<'a>(
    left: &'a [u8],
    right: &'a [u8],
) -> Result<(Table<'a>, Table<'a>), Answer> {
    let mut left = read_table(left, 0)?;
    let mut right = read_table(right, 1)?;
    if left.step_width != right.step_width {
        return Err([30, 1, 0, 0, 0, 0]);
    }
    if left.step_width == 3 {
        let [of_left, of_right] = Keyed::of_both(&left, &right);
        left.keyed = Some(of_left);
        right.keyed = Some(of_right);
    }
    Ok((left, right))
}

/// Where the judge accepts, `then` is given the two sides and the six numbers.
#[inline]
pub(crate) fn accept(
    left: &Table,
    right: &Table,
    certificate: &[u8],
    then: impl FnOnce(&[Side; 2], Answer) -> Result<Answer, Answer>,
) -> Result<Answer, Answer> {
    let (n1, n2) = (left.states, right.states);
    let (m1, m2) = (left.step_count(), right.step_count());

    read_header(certificate, [n1, n2, m1, m2])?;
    let (rows, ranks) = certificate[11..].split_at(8 * n1);
    let (al, ranks) = ranks.split_at(n1 * n2);
    let (ar, ranks) = ranks.split_at(n1 * n2);
    let (cl, cr) = ranks.split_at(m1 * n2);
    let rows = read_rows(rows, n2)?;
    let columns = turn(&rows, n1);

    test_starts(left, right, &rows, &columns)?;
    let sides = [
        Side {
            own: left,
            other: right,
            related: &rows,
            stutter: al,
            chase: cl,
        },
        Side {
            own: right,
            other: left,
            related: &columns,
            stutter: ar,
            chase: cr,
        },
    ];
    let met = if left.step_width == 3 {
        judge_pairs::<3>(&sides)?
    } else {
        judge_pairs::<2>(&sides)?
    };
    let pairs: u32 = rows.iter().map(|row| row.count_ones()).sum();
    then(&sides, [0, 0, pairs as u64, met[0], met[1], met[2]])
}

/// Judges all pairs of tables with steps of so many bytes, and counts the clauses.
fn judge_pairs<const WIDTH: usize>(sides: &[Side; 2]) -> Result<[u64; 3], Answer> {
    let (left, right) = (sides[0].own, sides[1].own);
    let mut met = [0; 3];
    for s in 0..left.states {
        for t in bits(sides[0].related[s]) {
            if left.marks[s] != right.marks[t] {
                return Err([17, 2, s as u64, t as u64, 0, 0]);
            }
            let refusal = |side, (code, step)| [code, 2, side, s as u64, t as u64, step];
            judge_state::<WIDTH>(&sides[0], s, t, &mut met).map_err(|failed| refusal(0, failed))?;
            judge_state::<WIDTH>(&sides[1], t, s, &mut met).map_err(|failed| refusal(1, failed))?;
        }
    }
    Ok(met)
}

/// 16, where a start is related to no start of the other table.
pub(crate) fn test_starts(
    left: &Table,
    right: &Table,
    rows: &[u64; 64],
    columns: &[u64; 64],
) -> Result<(), Answer> {
    let unpaired = |starts, related: &[u64; 64], others| {
        bits(starts).find(|&start| related[start] & others == 0)
    };
    let (side, start) = if let Some(start) = unpaired(left.starts, rows, right.starts) {
        (0, start)
    } else if let Some(start) = unpaired(right.starts, columns, left.starts) {
        (1, start)
    } else {
        return Ok(());
    };
    if left.start_word || right.start_word {
        return Err([16, 2, side, start as u64, 0, 0]);
    }
    let [left, right] = [left.starts, right.starts].map(|word| u64::from(word.trailing_zeros()));
    Err([16, 2, left, right, 0, 0])
}

/// Judges the steps from the own state s at the other state t, and counts the
/// clauses in `met`. A failed duty gives 18 or 19 and the number of its step.
#[inline]
fn judge_state<const WIDTH: usize>(
    side: &Side,
    s: usize,
    t: usize,
    met: &mut [u64; 3],
) -> Result<(), (u64, u64)> {
    let others = side.other.states;
    let silent = side.other.successors[t];
    let waiting = silent & side.related[s];
    let by_key = match (&side.own.keyed, &side.other.keyed) {
        (Some(own), Some(other)) if WIDTH == 3 => Some((&own.slots[..], other.row(t))),
        _ => None,
    };
    for &j in &side.own.order[side.own.first[s]..side.own.first[s + 1]] {
        let j = j as usize;
        let u = side.own.steps[WIDTH * j + 1] as usize;
        let next = match by_key {
            Some((slots, row)) if WIDTH == 3 => row[slots[j] as usize],
            _ => silent,
        };
        if next & side.related[u] != 0 {
            met[0] += 1;
            continue;
        }
        let pausing = key::<WIDTH>(side.own.steps, j) == 0 && side.related[u] >> t & 1 == 1;
        if pausing && side.stutter[u * others + t] < side.stutter[s * others + t] {
            met[1] += 1;
            continue;
        }
        let chase = &side.chase[j * others..(j + 1) * others];
        if bits(waiting).any(|v| chase[v] < chase[t]) {
            met[2] += 1;
        } else if !pausing && waiting == 0 {
            return Err((18, j as u64));
        } else {
            return Err((19, j as u64));
        }
    }
    Ok(())
}

/// Reads a table with keys or without.
pub(crate) fn read_table(bytes: &[u8], file: u64) -> Result<Table<'_>, Answer> {
    read_table_of(&[b"TPT", b"TPK"], bytes, file)
}

/// Reads a table without keys.
pub(crate) fn read_table_without_keys(bytes: &[u8], file: u64) -> Result<Table<'_>, Answer> {
    read_table_of(&[b"TPT"], bytes, file)
}

/// Reads a table that begins with one of these, of which the second has keys.
#[inline]
fn read_table_of<'a>(kinds: &[&[u8; 3]], bytes: &'a [u8], file: u64) -> Result<Table<'a>, Answer> {
    let refuse = |code: u64, a: usize| Err([code, file, a as u64, 0, 0, 0]);
    if bytes.len() < 9 {
        return refuse(1, 0);
    }
    let Some(kind) = kinds.iter().position(|kind| bytes[..3] == kind[..]) else {
        return refuse(2, 0);
    };
    let has_keys = kind == 1;
    let version = u16::from_be_bytes([bytes[3], bytes[4]]);
    let greatest = if has_keys { 1 } else { 4 };
    if !(1..=greatest).contains(&version) {
        return refuse(3, 0);
    }
    let start_word = has_keys || version >= 3;
    let header = if start_word { 16 } else { 9 };
    let mark_width = if has_keys || version == 4 { 4 } else { 2 };
    let step_width = if has_keys { 3 } else { 2 };
    if bytes.len() < header {
        return refuse(1, 0);
    }
    let states = bytes[5] as usize;
    if !(1..=64).contains(&states) {
        return refuse(4, 0);
    }
    let starts = if start_word {
        let word = u64::from_be_bytes(bytes[6..14].try_into().unwrap());
        if word == 0 || word & !below(states) != 0 {
            return refuse(28, 0);
        }
        word
    } else {
        if bytes[6] as usize >= states {
            return refuse(5, 0);
        }
        1 << bytes[6]
    };
    let m = u16::from_be_bytes([bytes[header - 2], bytes[header - 1]]) as usize;
    if m > 256 {
        return refuse(6, 0);
    }
    if bytes.len() != header + mark_width * states + step_width * m {
        return refuse(7, 0);
    }
    let (mark_bytes, steps) = bytes[header..].split_at(mark_width * states);
    let mut marks = [0; 64];
    if mark_width == 4 {
        for (mark, bytes) in marks.iter_mut().zip(mark_bytes.chunks_exact(4)) {
            *mark = u32::from_be_bytes(bytes.try_into().unwrap());
        }
    } else {
        for (mark, bytes) in marks.iter_mut().zip(mark_bytes.chunks_exact(2)) {
            *mark = u32::from(u16::from_be_bytes(bytes.try_into().unwrap()));
        }
    }
    let ordered = if has_keys {
        read_steps::<3>(steps, states, true)
    } else {
        read_steps::<2>(steps, states, version != 1)
    };
    let Ordered {
        successors,
        first,
        order,
    } = match ordered {
        Ok(ordered) => ordered,
        Err((code, j)) => return refuse(code, j),
    };
    let silent = if has_keys {
        let mut silent = Vec::with_capacity(2 * m);
        for step in steps.chunks_exact(3).filter(|step| step[2] == 0) {
            silent.extend_from_slice(&step[..2]);
        }
        Cow::Owned(silent)
    } else {
        Cow::Borrowed(steps)
    };
    Ok(Table {
        states,
        starts,
        start_word,
        marks,
        steps,
        step_width,
        silent,
        successors,
        keyed: None,
        first,
        order,
    })
}

/// What a table is given of its steps.
struct Ordered {
    successors: [u64; 64],
    first: [usize; 65],
    order: [u16; 256],
}

/// Reads steps of so many bytes, which are to rise, or to be different. Gives 8, 9 or 24, and
/// the step, where there is one.
#[inline]
fn read_steps<const WIDTH: usize>(
    steps: &[u8],
    states: usize,
    rising: bool,
) -> Result<Ordered, (u64, usize)> {
    let too_high = |step: &[u8]| step[..2].iter().any(|&end| end as usize >= states);
    if let Some(j) = steps.chunks_exact(WIDTH).position(too_high) {
        return Err((8, j));
    }
    let mut successors = [0u64; 64];
    let mut first = [0; 65];
    let mut before = None;
    for (j, step) in steps.chunks_exact(WIDTH).enumerate() {
        let (from, to) = (step[0] as usize, step[1]);
        if !rising && successors[from] >> to & 1 == 1 {
            return Err((9, j));
        }
        if rising && before >= Some(step) {
            return Err((24, j));
        }
        before = Some(step);
        successors[from] |= u64::from(key::<WIDTH>(step, 0) == 0) << to;
        first[from + 1] += 1;
    }
    // Counts become places, and each step goes to the next place of its state.
    for s in 0..64 {
        first[s + 1] += first[s];
    }
    let mut place = first;
    let mut order = [0; 256];
    for (j, step) in steps.chunks_exact(WIDTH).enumerate() {
        let from = step[0] as usize;
        order[place[from]] = j as u16;
        place[from] += 1;
    }
    Ok(Ordered {
        successors,
        first,
        order,
    })
}

fn read_header(bytes: &[u8], [n1, n2, m1, m2]: [usize; 4]) -> Result<(), Answer> {
    let refuse = |code: u64| Err([code, 2, 0, 0, 0, 0]);
    if bytes.len() < 11 {
        return refuse(10);
    }
    if &bytes[..3] != b"TPC" {
        return refuse(11);
    }
    if bytes[3..5] != [0, 1] {
        return refuse(12);
    }
    let sizes = [
        bytes[5] as usize,
        bytes[6] as usize,
        u16::from_be_bytes([bytes[7], bytes[8]]) as usize,
        u16::from_be_bytes([bytes[9], bytes[10]]) as usize,
    ];
    if sizes != [n1, n2, m1, m2] {
        return refuse(13);
    }
    if bytes.len() != 11 + 8 * n1 + 2 * n1 * n2 + m1 * n2 + m2 * n1 {
        return refuse(14);
    }
    Ok(())
}

/// Rows past the last state stay 0.
pub(crate) fn read_rows(bytes: &[u8], n2: usize) -> Result<[u64; 64], Answer> {
    let mut rows = [0; 64];
    for (s, row) in bytes.chunks_exact(8).enumerate() {
        rows[s] = u64::from_be_bytes(row.try_into().unwrap());
        if rows[s] & !below(n2) != 0 {
            return Err([15, 2, s as u64, 0, 0, 0]);
        }
    }
    Ok(rows)
}

/// A bit for each of these many states, of which there is one at least.
fn below(states: usize) -> u64 {
    u64::MAX >> (64 - states)
}

/// Turns rows into columns.
pub(crate) fn turn(rows: &[u64; 64], n1: usize) -> [u64; 64] {
    let mut columns = [0; 64];
    for s in 0..n1 {
        for t in bits(rows[s]) {
            columns[t] |= 1 << s;
        }
    }
    columns
}

/// The states of a word, rising.
#[inline]
pub(crate) fn bits(mut word: u64) -> impl Iterator<Item = usize> {
    std::iter::from_fn(move || {
        if word == 0 {
            return None;
        }
        let lowest = word.trailing_zeros() as usize;
        word &= word - 1;
        Some(lowest)
    })
}
