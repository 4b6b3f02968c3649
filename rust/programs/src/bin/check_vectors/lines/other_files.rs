//! Lines of other programs, and what the library returns for them.

use crate::lines::fpgen::Fpgen;
use crate::lines::given::given;
use crate::lines::row_error::RowError;
use crate::lines::testfloat::TestFloat;
use crate::summary::Summary;
use std::collections::TryReserveError;
use std::io::{self, Write};

impl TestFloat {
    /// Whether what the library returns agrees with a line.
    pub fn agrees_with(self, line: &str) -> Result<bool, RowError<'_>> {
        let (call, stated) = self.read(line)?;
        match given(&call) {
            Some(given) => Ok(self.agrees(given, stated)),
            None => Err(self.no_call(line)),
        }
    }

    /// Counts a line under its call and its format.
    pub fn count(self, agrees: bool, summary: &mut Summary) -> Result<(), TryReserveError> {
        summary.count(self.call_name(), self.format().as_str(), agrees)
    }

    /// Writes the result and the flags that the library returns for a line.
    pub fn write_returned(self, line: &str, out: &mut impl Write) -> io::Result<()> {
        let Ok((call, _)) = self.read(line) else {
            return Ok(());
        };
        match given(&call) {
            Some(given) => self.write_given(given, out),
            None => Ok(()),
        }
    }
}

impl Fpgen {
    /// Whether what the library returns agrees with a line; `None` if the line states what is delivered to a trap
    /// handler, or is skipped.
    pub fn agrees_with(self, line: &str) -> Result<Option<bool>, RowError<'_>> {
        let Some(test) = self.read(line)? else {
            return Ok(None);
        };
        match given(&test.call) {
            Some(given) => Ok(Some(test.agrees(given))),
            None => Err(Fpgen::no_call(line)),
        }
    }

    /// Counts a line under its call and its format.
    pub fn count(self, line: &str, agrees: bool, summary: &mut Summary) -> Result<(), TryReserveError> {
        match self.call_in(line) {
            Some((call, format)) => summary.count(call, format.as_str(), agrees),
            None => Ok(()),
        }
    }

    /// Writes the bits and the flags that the library returns for a line.
    pub fn write_returned(self, line: &str, out: &mut impl Write) -> io::Result<()> {
        let Ok(Some(test)) = self.read(line) else {
            return Ok(());
        };
        match given(&test.call) {
            Some(given) => test.write_given(given, out),
            None => Ok(()),
        }
    }
}
