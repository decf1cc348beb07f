//! Changes to a file without regard to what it holds.

use crate::random::Random;

/// A change to a file and what it is called.
pub type ByteEdit = (&'static str, fn(&mut Random, &mut Vec<u8>));

pub const BYTE_EDITS: &[ByteEdit] = &[
    ("one byte replaced", |random, bytes| {
        if !bytes.is_empty() {
            let place = random.below(bytes.len());
            bytes[place] = random.byte();
        }
    }),
    ("one byte raised or lowered by one", |random, bytes| {
        if !bytes.is_empty() {
            let place = random.below(bytes.len());
            let by = random.pick(&[1, 255]);
            bytes[place] = bytes[place].wrapping_add(by);
        }
    }),
    ("one bit turned", |random, bytes| {
        if !bytes.is_empty() {
            let place = random.below(bytes.len());
            bytes[place] ^= 1 << random.below(8);
        }
    }),
    ("cut short", |random, bytes| {
        bytes.truncate(random.below(bytes.len() + 1));
    }),
    ("one byte short", |_, bytes| {
        bytes.pop();
    }),
    ("one byte more", |random, bytes| bytes.push(random.byte())),
    ("made longer", |random, bytes| {
        let further = random.within(1, 40);
        bytes.extend(random.bytes(further));
    }),
    ("random bytes", |random, bytes| {
        let length = random.below(60);
        *bytes = random.bytes(length);
    }),
    ("random bytes after a good beginning", |random, bytes| {
        let kept = bytes.len().min(random.pick(&[5, 6, 11, 14, 16]));
        let further = random.bytes(bytes.len() - kept);
        bytes.truncate(kept);
        bytes.extend(further);
    }),
];
