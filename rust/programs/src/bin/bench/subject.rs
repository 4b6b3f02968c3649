//! The words of a command line, as what the program prints.

use crate::erased::commands::WrongWord;

/// The help.
pub const HELP: &str = "\
usage: bench [time | growth]
       bench --help | --version

Makes a fixed number of calls of each operation in each type. Without a word, it
prints a line for each operation, type and set of operands: the checksums of
1024 results with their flags, in the modes even, up, down, zero and away, or
one checksum if the operation has no mode.

time    prints the time of a call instead, the best of many rounds
growth  prints how times grow with the length of a text, with the difference of
        the exponents in a remainder, and with the digits of a quotient

--help, -h  writes this text
--version   writes the name and the version of the program

The exit status is 0; 1 if a write failed or there was not enough memory, and 2
for other arguments.
";

/// The words that may be given.
static WORDS: &[&str] = &["time", "growth", "--help", "-h", "--version"];

/// What is printed.
#[derive(Clone, Copy)]
pub enum Subject {
    /// Checksums of results.
    Checksums,
    /// The time of a call.
    Times,
    /// How times grow with the size of the operands.
    Growth,
}

impl Subject {
    /// What the words ask for, or `None` if one is wrong.
    pub fn named(words: &[String]) -> Option<Subject> {
        match words {
            [] => Some(Subject::Checksums),
            [word] => Subject::of_word(word),
            _ => None,
        }
    }

    /// What a word asks for.
    fn of_word(word: &str) -> Option<Subject> {
        match word {
            "time" => Some(Subject::Times),
            "growth" => Some(Subject::Growth),
            _ => None,
        }
    }
}

/// The first wrong word, if one is.
pub fn wrong_word(words: &[String]) -> Option<WrongWord<'_>> {
    let (first, others) = words.split_first()?;
    if Subject::of_word(first).is_none() {
        return Some(WrongWord { fault: "no such word", word: first, known: WORDS });
    }
    let (word, _) = others.split_first()?;
    Some(WrongWord { fault: "a word too many", word, known: &[] })
}
