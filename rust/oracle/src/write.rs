//! The writer: a table of version 4 from marks, a start word and a list of steps.

use crate::table::{Form, Step, TableLayout};
use crate::Answer;

/// "The writer takes marks as 32-bit numbers and steps as 16-bit numbers, from in the high
/// byte, writes version 4 and returns 0, 0 and its length." On a refusal "the output stays",
/// and "bytes after what is written stay".
pub fn write(marks: &[u32], starts: u64, steps: &[u16], output: &mut [u8]) -> Answer {
    let steps: Vec<Step> = steps.iter().map(|&step| from_high_byte(step)).collect();
    if let Err(refusal) = test(marks.len(), starts, &steps, output.len()) {
        return refusal;
    }
    let table = table(marks, starts, &steps);
    output[..table.len()].copy_from_slice(&table);
    [0, 0, table.len() as u64, 0, 0, 0]
}

/// "steps as 16-bit numbers, from in the high byte"
fn from_high_byte(step: u16) -> Step {
    Step {
        from: usize::from(step / 256),
        to: usize::from(step % 256),
        key: 0,
    }
}

/// "its length is 16 + 4n + 2m"
fn length(n: usize, m: usize) -> usize {
    let layout = TableLayout::of(Form::tpt(4)).expect("version 4 is known");
    layout.length(n, m)
}

/// "It uses 4, 28, 6, 8, 9 and 21 in that order, with file 3 throughout, a the step for 8 and
/// 9 as in document 01, and a the needed length for 21".
fn test(n: usize, starts: u64, steps: &[Step], output_length: usize) -> Result<(), Answer> {
    let refuse = |code: u64, a: usize| Err([code, 3, a as u64, 0, 0, 0]);
    let m = steps.len();

    // "n not 1 to 64"
    if n < 1 || n > 64 {
        return refuse(4, 0);
    }
    // "28 when the word is 0 or has a bit n or more"
    if starts == 0 || (n..64).any(|s| starts >> s & 1 == 1) {
        return refuse(28, 0);
    }
    // "m over 256"
    if m > 256 {
        return refuse(6, 0);
    }
    // "step end n or more", "a first such step"; every step is tested for this before any
    // for the next.
    if let Some(j) = (0..m).find(|&j| steps[j].from >= n || steps[j].to >= n) {
        return refuse(8, j);
    }
    // "step equal to an earlier one", "a first such step"
    if let Some(j) = (0..m).find(|&j| steps[..j].contains(&steps[j])) {
        return refuse(9, j);
    }
    // "output under L bytes", where L is the length of the table
    if output_length < length(n, m) {
        return refuse(21, length(n, m));
    }
    Ok(())
}

/// "Bytes 0 to 2: "TPT" [...]. Bytes 3, 4: version [...]. Byte 5: n", then "in place of byte 6,
/// a 64-bit word of starts", then m in two bytes. "Numbers of two bytes or more have the high
/// byte first."
fn table(marks: &[u32], starts: u64, steps: &[Step]) -> Vec<u8> {
    let mut bytes = b"TPT\0\x04".to_vec();
    bytes.push(marks.len() as u8);
    bytes.extend(starts.to_be_bytes());
    bytes.extend((steps.len() as u16).to_be_bytes());
    // "marks of four bytes"
    for mark in marks {
        bytes.extend(mark.to_be_bytes());
    }
    // "Then m steps, two bytes each, from and to"; "its steps rise by from, then by to"
    let mut rising = steps.to_vec();
    rising.sort();
    for step in rising {
        bytes.extend([step.from as u8, step.to as u8]);
    }
    bytes
}
