//! The words of the command line.

use std::io::{self, ErrorKind};

/// The words of the command line without the program's own name. The error says whether there was no memory for them,
/// or one is not valid text.
pub fn words() -> io::Result<Vec<String>> {
    let given = std::env::args_os().skip(1);
    let mut words = Vec::new();
    words.try_reserve(given.len())?;
    for word in given {
        words.push(word.into_string().map_err(|_| ErrorKind::InvalidInput)?);
    }
    Ok(words)
}
