//! Checks files of test vectors. `check_vectors --help` has the arguments.
//!
//! `lines` reads rows and the lines of other programs, as calls; `calls` makes these.
#![forbid(unsafe_code)]

mod calls;
mod check;
#[path = "../../erased.rs"]
mod erased;
mod failure;
mod library;
mod lines;
mod program;
#[path = "../../progress.rs"]
mod progress;
mod summary;
#[path = "../../words.rs"]
mod words;

use std::io::{self, IsTerminal};
use std::process::ExitCode;

fn main() -> ExitCode {
    let mut err = io::stderr();
    let is_terminal = err.is_terminal();
    ExitCode::from(program::run(words::words(), is_terminal, &mut io::stdout(), &mut err))
}
