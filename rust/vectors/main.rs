//! `vectors FORMAT OP MODE A [B [C]]` prints the bits and the flags of the result of one operation.
//!
//! It is the text of the proved program of this name, but for `main`, and has the same replies and exit statuses.
#![forbid(unsafe_code)]

mod erased;

use erased::commands::run_given;
use std::env;
use std::io::{self, ErrorKind};
use std::process::ExitCode;

fn main() -> ExitCode {
    ExitCode::from(run_given(words_of_system(), &mut io::stdout(), &mut io::stderr()))
}

/// The words of the command line without the program's own name.
fn words_of_system() -> io::Result<Vec<String>> {
    let words = env::args_os().skip(1).map(|word| word.into_string());
    words.collect::<Result<_, _>>().map_err(|_| io::Error::from(ErrorKind::InvalidInput))
}
