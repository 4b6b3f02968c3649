//! Exact reductions of streams (IEEE 754-2019 9.4): `reduce_values sum FORMAT MODE` reads little-endian values of that
//! format from standard input, and writes their exact sum, rounded once, with the flags of that rounding; other words
//! ask for sums of magnitudes and of squares, and for dot products with the values or the blocks of a file.
//!
//! `HELP` explains the arguments.
//!
//! The exit status is 0 for a result, 1 if a stream ended inside a value or a block or has not as many as the file, 2
//! for other arguments, and 4 if a read or a write failed.
#![forbid(unsafe_code)]

#[path = "../../erased.rs"]
mod erased;
mod reduction;
mod request;
#[path = "../../words.rs"]
mod words;

use erased::commands::{About, write_fault, write_line};
use reduction::{Answer, Refusal, reduced};
use request::{Fault, HELP, Request};
use std::fs::File;
use std::io::{self, Read, Write};
use std::process::ExitCode;

const PROGRAM: &str = "reduce_values";

const UNEVEN: u8 = 1;

const OTHER_WORDS: u8 = 2;

const FAILED: u8 = 4;

fn main() -> ExitCode {
    let mut input = io::stdin().lock();
    let status = match words::words() {
        Ok(words) => answer(&words, &mut input, &mut io::stdout().lock(), &mut io::stderr()),
        Err(_) => write_fault(PROGRAM, "the words are not valid text", &mut io::stderr()).map(|()| OTHER_WORDS),
    };
    ExitCode::from(status.unwrap_or(FAILED))
}

/// The exit status, or the error of a write.
fn answer(words: &[String], input: &mut impl Read, out: &mut impl Write, err: &mut impl Write) -> io::Result<u8> {
    if let Some(about) = About::among(words) {
        about.answer(PROGRAM, HELP, out)?;
        return Ok(0);
    }
    let request = match Request::named(words) {
        Ok(request) => request,
        Err(fault) => {
            match fault {
                Fault::Words(what) => write_fault(PROGRAM, what, err)?,
                Fault::Word(word) => word.write(PROGRAM, err)?,
            }
            return Ok(OTHER_WORDS);
        }
    };
    let name = request.other.unwrap_or_default();
    let reduced = match request.other.map(File::open).transpose() {
        Ok(mut file) => reduced(&request, input, file.as_mut().map(|file| file as &mut dyn Read)),
        Err(error) => Err(Refusal::Other(error)),
    };
    let (status, message) = match reduced {
        Ok(Answer { bits, digits, status }) => {
            write_line(bits, digits, status, out)?;
            return Ok(0);
        }
        Err(Refusal::Uneven(bytes)) => (UNEVEN, format!("{bytes} bytes after the last value or block")),
        Err(Refusal::LengthsDiffer) => (UNEVEN, format!("{name} has not as many values")),
        Err(Refusal::Input(error)) => (FAILED, format!("standard input: {error}")),
        Err(Refusal::Other(error)) => (FAILED, format!("{name}: {error}")),
    };
    writeln!(err, "{PROGRAM}: {message}")?;
    Ok(status)
}
