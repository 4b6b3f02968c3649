//! What is wrong with a malformed line.

use crate::erased::commands::bits_of;
use crate::lines::widths::mask;
use std::fmt;

/// What is wrong with a line.
#[derive(Clone, Copy)]
pub enum RowError<'a> {
    /// The line is not UTF-8.
    Encoding,
    /// The line has this many columns.
    Columns(usize),
    /// The line has the first number of words, and should have the second.
    Numbers(usize, usize),
    /// A word is wrong: what is wrong, the word, and what is expected.
    Word(&'static str, &'a str, &'static str),
    /// A word has too many bits: what is wrong, the word, its number of bits, and the greatest number allowed.
    Bits(&'static str, &'a str, u32, usize),
}

impl fmt::Display for RowError<'_> {
    fn fmt(&self, f: &mut fmt::Formatter<'_>) -> fmt::Result {
        match *self {
            RowError::Encoding => f.write_str("it is not UTF-8"),
            RowError::Columns(count) => {
                write!(f, "columns: {count}, and a command has 2, a call 7")
            }
            RowError::Numbers(count, wanted) => {
                write!(f, "words: {count}, and a line has {wanted}")
            }
            RowError::Word(fault, word, expected) => {
                write!(f, "{fault}: `{word}`; expected: {expected}")
            }
            RowError::Bits(fault, word, length, width) => {
                write!(f, "{fault}: `{word}` has {length} bits; expected: at most {width}")
            }
        }
    }
}

/// The error for a word that does not spell bits of this width.
pub fn bits_error<'a>(fault: &'static str, word: &'a str, width: usize) -> RowError<'a> {
    match bits_of(word, 128) {
        Some(bits) if bits > mask(width) => {
            RowError::Bits(fault, word, 128_u32.saturating_sub(bits.leading_zeros()), width)
        }
        _ => RowError::Word(fault, word, "hexadecimal digits"),
    }
}
