//! Why a text is not erased.

use std::fmt;
use std::path::PathBuf;

/// A text that the eraser does not know, or a file that it cannot read or write.
#[derive(Clone, Debug, PartialEq, Eq)]
pub struct Refusal {
    /// The file.
    pub file: PathBuf,
    /// The line, from 1; 0 for the whole file.
    pub line: usize,
    /// What is wrong there.
    pub why: String,
}

impl fmt::Display for Refusal {
    fn fmt(&self, f: &mut fmt::Formatter<'_>) -> fmt::Result {
        match self.line {
            0 => write!(f, "{}: {}", self.file.display(), self.why),
            line => write!(f, "{}:{line}: {}", self.file.display(), self.why),
        }
    }
}

impl std::error::Error for Refusal {}

/// What is wrong in a text, before its file is known.
#[derive(Clone, Debug, PartialEq, Eq)]
pub(crate) struct Fault {
    pub line: usize,
    pub why: String,
}

impl Fault {
    pub fn new<T>(line: usize, why: impl Into<String>) -> Result<T, Fault> {
        Err(Fault { line, why: why.into() })
    }
}
