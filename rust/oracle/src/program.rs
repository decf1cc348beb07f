//! What the program prints.

use crate::judge;
use std::fmt::Write;

/// "It reads standard input: three pieces (left, right, certificate), each after
/// a two-byte length. [...] It prints the judge's six numbers in decimal, one
/// space between, and a newline."
pub fn program(input: &[u8]) -> String {
    let [left, right, certificate] = pieces(input);
    let mut text = String::new();
    print_line(&mut text, judge(left, right, certificate));
    text
}

/// Left, right and certificate; "later bytes are not read".
pub fn pieces(input: &[u8]) -> [&[u8]; 3] {
    let (left, rest) = next_piece(input);
    let (right, rest) = next_piece(rest);
    let (certificate, _) = next_piece(rest);
    [left, right, certificate]
}

/// The next piece, and what follows it. "A piece cut short is what is there; a
/// missing or half length is an empty piece." After a half length nothing is
/// left, so the pieces after it are empty too.
fn next_piece(input: &[u8]) -> (&[u8], &[u8]) {
    if input.len() < 2 {
        return (&[], &[]);
    }
    let length = input[0] as usize * 256 + input[1] as usize;
    let rest = &input[2..];
    rest.split_at(length.min(rest.len()))
}

/// Six numbers "in decimal, one space between, and a newline."
pub fn print_line(text: &mut String, [first, others @ ..]: [u64; 6]) {
    write!(text, "{first}").expect("a text takes all that is written");
    for number in others {
        write!(text, " {number}").expect("a text takes all that is written");
    }
    text.push('\n');
}
