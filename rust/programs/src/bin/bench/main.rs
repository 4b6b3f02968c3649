//! Makes a fixed number of calls of each operation in each type, and reports checksums of the results, or times.
//!
//! Without arguments it prints a line for each operation, type and set of operands: the checksums of 1024 results,
//! flags included, in the modes even, up, down, zero and away, or one checksum if the operation has no mode. With
//! `time` it prints the time of a call instead, the best of many rounds; with `growth` it prints how times grow with
//! the length of a text, with the difference of the exponents in a remainder, and with the digits of a quotient.
//!
//! The operands come from a generator of random integers. `HELP` explains the arguments.
//!
//! The exit status is 0, or 2 for other arguments, and 1 if a write fails or there is not enough memory.
#![forbid(unsafe_code)]

mod checksum;
mod encoding;
#[path = "../../erased.rs"]
mod erased;
mod generator;
mod growth;
mod kind;
mod measure;
mod nanoseconds;
mod numbers;
mod operand_set;
mod operands;
mod operation;
mod pairs;
mod report;
mod subject;
mod task;
mod wide_numbers;
#[path = "../../words.rs"]
mod words;

use crate::erased::commands::About;
use crate::growth::print_growth;
use crate::report::{print_checksums, print_times};
use crate::subject::{HELP, Subject, wrong_word};
use std::io::{self, Write};
use std::process::ExitCode;

const PROGRAM: &str = "bench";

fn main() -> ExitCode {
    match answer(&mut io::stdout(), &mut io::stderr()) {
        Ok(status) => ExitCode::from(status),
        Err(_) => ExitCode::from(1),
    }
}

/// The exit status.
fn answer(out: &mut impl Write, err: &mut impl Write) -> io::Result<u8> {
    let words = words::words()?;
    if let Some(about) = About::among(&words) {
        about.answer(PROGRAM, HELP, out)?;
        return Ok(0);
    }
    match Subject::named(&words) {
        Some(Subject::Checksums) => print_checksums(out)?,
        Some(Subject::Times) => print_times(out)?,
        Some(Subject::Growth) => print_growth(out)?,
        None => {
            if let Some(wrong) = wrong_word(&words) {
                wrong.write(PROGRAM, err)?;
            }
            return Ok(2);
        }
    }
    out.flush()?;
    Ok(0)
}
