//! Reports what a conversion does to values: `report_conversion FROM TO.. MODE` reads little-endian values of the
//! format FROM from standard input, and writes how many of them each format TO has exactly, what becomes of the others,
//! how far they are moved, and how they are distributed over binades. With `--svg FILE` it draws that instead. The
//! conversions are those of `convert_values`, in any of three rules of scales.
//!
//! `HELP` explains the arguments.
//!
//! The exit status is 0 for a report, 1 if the stream ended inside a value or a block, 2 for other arguments, 3 if
//! there is not enough memory for them, and 4 if a read or a write failed.
#![forbid(unsafe_code)]

mod blocks;
mod decibels;
#[path = "../../erased.rs"]
mod erased;
mod measures;
mod request;
mod run;
mod svg;
mod target;
mod text;
#[path = "../../words.rs"]
mod words;

use std::io;
use std::process::ExitCode;

fn main() -> ExitCode {
    let mut input = io::stdin().lock();
    ExitCode::from(run::run(words::words(), &mut input, &mut io::stdout().lock(), &mut io::stderr()))
}
