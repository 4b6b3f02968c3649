//! Failures that end a check before the end of its input.

use std::collections::TryReserveError;
use std::{fmt, io};

/// The failure that ended a check.
pub enum Failure {
    /// There was not enough memory.
    Memory,
    /// The input could not be opened or read: the verb, and the cause.
    Input(&'static str, io::Error),
    /// The output could not be written.
    Output(io::Error),
}

impl Failure {
    /// The failure to do what the verb says with the input.
    pub fn of_input(verb: &'static str, error: io::Error) -> Failure {
        match error.kind() {
            io::ErrorKind::OutOfMemory => Failure::Memory,
            _ => Failure::Input(verb, error),
        }
    }

    /// The exit status.
    pub fn status(&self) -> u8 {
        match self {
            Failure::Memory => 3,
            _ => 4,
        }
    }
}

/// The failure to write, or to get memory.
impl From<io::Error> for Failure {
    fn from(error: io::Error) -> Failure {
        match error.kind() {
            io::ErrorKind::OutOfMemory => Failure::Memory,
            _ => Failure::Output(error),
        }
    }
}

impl From<TryReserveError> for Failure {
    fn from(_: TryReserveError) -> Failure {
        Failure::Memory
    }
}

impl fmt::Display for Failure {
    fn fmt(&self, f: &mut fmt::Formatter<'_>) -> fmt::Result {
        match self {
            Failure::Memory => f.write_str("no memory"),
            Failure::Input(verb, error) => write!(f, "cannot {verb}: {error}"),
            Failure::Output(error) => write!(f, "cannot write: {error}"),
        }
    }
}
