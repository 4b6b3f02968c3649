//! Explains a computation: `explain FORMAT OP MODE A [B [C]]` shows the operands, the two neighbours of the exact
//! result, its place between them, which of them the mode picks, and the flags; `explain FORMAT A` shows a value. With
//! `--machine NAME` the result and the flags are those of a machine, and `--svg FILE` draws it all into a file.
//!
//! `HELP` explains the arguments.
//!
//! The exit status is 0 for an explanation, 2 for other arguments, 3 if there is not enough memory for them, and 1 if a
//! write fails.
#![forbid(unsafe_code)]

mod compute;
#[path = "../../erased.rs"]
mod erased;
mod explanation;
mod grid;
#[path = "../../machine_words.rs"]
mod machine_words;
mod on_machine;
mod picture;
mod question;
mod run;
mod svg;
#[path = "../../words.rs"]
mod words;

use std::io::{self, IsTerminal};
use std::process::ExitCode;

fn main() -> ExitCode {
    let mut out = io::stdout().lock();
    let in_colour = out.is_terminal();
    ExitCode::from(run::run(words::words(), in_colour, &mut out, &mut io::stderr()))
}
