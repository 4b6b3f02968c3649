//! Checks the lines of an input one at a time, counts them, and reports progress.

use crate::failure::Failure;
use crate::lines::{CallRow, CommandRow, Fpgen, RowError, TestFloat, agrees, row_of, write_answers};
use crate::progress::Progress;
use crate::summary::Summary;
use std::collections::TryReserveError;
use std::io::{self, BufRead, ErrorKind, Write};
use std::{fmt, str};

/// Lines read between two readings of the clock.
const LINES: u64 = 1024;

/// The byte order mark, which some editors write at the start of a file in UTF-8.
const BYTE_ORDER_MARK: &[u8] = b"\xef\xbb\xbf";

/// A check in progress.
pub struct Check {
    tally: Tally,
    task: Task,
    summary: Summary,
}

/// The options of a check.
#[derive(Clone, Copy)]
pub struct Task {
    /// The kind of lines.
    pub lines: Lines,
    /// Whether only counts by call and format are written.
    pub is_summary: bool,
    /// The number of differing rows after which the check ends, if it is limited.
    pub first: Option<u64>,
    /// Whether a long check says how far it has come.
    pub shows_progress: bool,
}

impl Task {
    /// The check of lines to the end, which writes those that differ.
    pub fn of(lines: Lines) -> Task {
        Task { lines, is_summary: false, first: None, shows_progress: false }
    }

    /// The same check, which says how far it has come if that is shown.
    pub fn showing_progress(self, shows_progress: bool) -> Task {
        Task { shows_progress, ..self }
    }
}

/// The kinds of lines of an input.
#[derive(Clone, Copy)]
pub enum Lines {
    /// Rows.
    Rows,
    /// Lines of TestFloat for a function.
    TestFloat(TestFloat),
    /// Lines of FPgen.
    Fpgen(Fpgen),
    /// Lines of TestFloat for a function that the library does not have; all of them are skipped.
    Unknown,
}

impl Lines {
    /// The same kind of lines with an option of the program that writes them, if there is such an option.
    pub fn with(self, option: &str) -> Option<Lines> {
        match self {
            Lines::Rows => None,
            Lines::TestFloat(function) => Some(Lines::TestFloat(function.with(option)?)),
            Lines::Fpgen(fpgen) => Some(Lines::Fpgen(fpgen.with(option)?)),
            Lines::Unknown if is_option(option) => Some(Lines::Unknown),
            Lines::Unknown => None,
        }
    }

    /// Counts a line under its call and its format.
    fn count(self, text: &str, agrees: bool, summary: &mut Summary) -> Result<(), TryReserveError> {
        match self {
            Lines::Rows => summary.count_row(text, agrees),
            Lines::TestFloat(function) => function.count(agrees, summary),
            Lines::Fpgen(fpgen) => fpgen.count(text, agrees, summary),
            Lines::Unknown => Ok(()),
        }
    }
}

/// Whether a word may be an option of TestFloat, or is the one that belongs to its lines.
fn is_option(word: &str) -> bool {
    word == "--any-nan" || (word.len() > 1 && word.starts_with('-') && !word.starts_with("--"))
}

impl Check {
    /// A check before the first line.
    pub fn new(task: Task) -> Check {
        Check { tally: Tally::default(), task, summary: Summary::new() }
    }

    /// The counts of the lines so far.
    pub fn tally(&self) -> Tally {
        self.tally
    }

    /// Checks the lines of an input to its end. Differences and malformed lines are written to `out`, and progress, if
    /// it is shown, to `err`.
    pub fn take(
        &mut self,
        input: &mut impl BufRead,
        out: &mut impl Write,
        err: &mut impl Write,
    ) -> Result<(), Failure> {
        let mut progress = Progress::new(self.task.shows_progress);
        let mut line = Vec::new();
        while read_line(input, &mut line)? > 0 {
            self.take_next(without_end(&line), out)?;
            if self.is_limit_reached() {
                break;
            }
            self.report_progress(&mut progress, err);
        }
        Ok(())
    }

    /// Checks the next line, of which the first one may begin with a byte order mark.
    fn take_next(&mut self, text: &[u8], out: &mut impl Write) -> Result<(), Failure> {
        if self.tally.lines() == 0 {
            return self.take_line(text.strip_prefix(BYTE_ORDER_MARK).unwrap_or(text), out);
        }
        self.take_line(text, out)
    }

    /// Whether as many rows differ as end the check.
    fn is_limit_reached(&self) -> bool {
        self.task.first.is_some_and(|first| self.tally.differing >= first)
    }

    /// Says how far a long check has come, if it is time to say so. A failure of this write is harmless.
    fn report_progress(&self, progress: &mut Progress, err: &mut impl Write) {
        let lines = self.tally.lines();
        if !lines.is_multiple_of(LINES) {
            return;
        }
        if let Some(seconds) = progress.due() {
            let _ = writeln!(err, "check_vectors: {lines} lines after {seconds} seconds");
        }
    }

    /// Checks one line.
    fn take_line(&mut self, line: &[u8], out: &mut impl Write) -> Result<(), Failure> {
        let Ok(text) = str::from_utf8(line) else {
            return self.take_error(RowError::Encoding, out);
        };
        if text.starts_with('#') || text.trim_start().is_empty() {
            self.tally.skipped += 1;
            return Ok(());
        }
        match self.task.lines {
            Lines::Rows => self.take_row(text, out),
            Lines::TestFloat(function) => self.take_testfloat(function, text, out),
            Lines::Fpgen(fpgen) => self.take_fpgen(fpgen, text, out),
            Lines::Unknown => {
                self.tally.skipped += 1;
                Ok(())
            }
        }
    }

    /// Checks a line of TestFloat.
    fn take_testfloat(&mut self, function: TestFloat, text: &str, out: &mut impl Write) -> Result<(), Failure> {
        match function.agrees_with(text) {
            Ok(agrees) => {
                if self.takes_difference(text, agrees, out)? {
                    function.write_returned(text, out)?;
                }
                Ok(())
            }
            Err(error) => self.take_error(error, out),
        }
    }

    /// Checks a line of FPgen.
    fn take_fpgen(&mut self, fpgen: Fpgen, text: &str, out: &mut impl Write) -> Result<(), Failure> {
        match fpgen.agrees_with(text) {
            Ok(Some(agrees)) => {
                if self.takes_difference(text, agrees, out)? {
                    fpgen.write_returned(text, out)?;
                }
                Ok(())
            }
            Ok(None) => {
                self.tally.skipped += 1;
                Ok(())
            }
            Err(error) => self.take_error(error, out),
        }
    }

    /// Checks a row.
    fn take_row(&mut self, text: &str, out: &mut impl Write) -> Result<(), Failure> {
        match text.split_once('\t') {
            Some((command, reply)) if !reply.contains('\t') => {
                self.take_command(CommandRow { command, reply }, text, out)
            }
            _ => match row_of(text) {
                Some(row) => self.take_call(row, text, out),
                None => self.take_error(RowError::Columns(text.split('\t').count()), out),
            },
        }
    }

    /// Checks a call.
    fn take_call(&mut self, row: CallRow<'_>, text: &str, out: &mut impl Write) -> Result<(), Failure> {
        match agrees(row) {
            Ok(agrees) => {
                if self.takes_difference(text, agrees, out)? {
                    write_answers(row, out)?;
                }
                Ok(())
            }
            Err(fault) => self.take_error(row.error(fault), out),
        }
    }

    /// Checks a command with its reply.
    fn take_command(&mut self, row: CommandRow<'_>, text: &str, out: &mut impl Write) -> Result<(), Failure> {
        if row.agrees() {
            self.takes_difference(text, true, out)?;
            return Ok(());
        }
        match row.fault() {
            Some(error) => self.take_error(error, out),
            None => self.take_reply(row, text, out),
        }
    }

    /// Checks a command whose reply is not the expected one as it is written, but may be the same result.
    fn take_reply(&mut self, row: CommandRow<'_>, text: &str, out: &mut impl Write) -> Result<(), Failure> {
        let wrong = row.wrong_reply()?;
        if wrong.is_some()
            && let Some(error) = row.width_fault()
        {
            return self.take_error(error, out);
        }
        if self.takes_difference(text, wrong.is_none(), out)?
            && let Some(given) = wrong
        {
            write!(out, "  expected: {}\n  given: ", row.reply)?;
            out.write_all(&given)?;
        }
        Ok(())
    }

    /// Counts a row, and writes it if it differs. Returns whether what the library gives has to be written too.
    fn takes_difference(&mut self, text: &str, agrees: bool, out: &mut impl Write) -> Result<bool, Failure> {
        if agrees {
            self.tally.agreeing += 1;
        } else {
            self.tally.differing += 1;
        }
        if self.task.is_summary {
            self.task.lines.count(text, agrees, &mut self.summary)?;
            return Ok(false);
        }
        if !agrees {
            let number = self.tally.lines();
            writeln!(out, "line {number} differs: {text}")?;
        }
        Ok(!agrees)
    }

    /// Counts a malformed line, and writes what is wrong with it.
    fn take_error(&mut self, error: RowError<'_>, out: &mut impl Write) -> Result<(), Failure> {
        self.tally.malformed += 1;
        if self.task.is_summary {
            return Ok(());
        }
        let number = self.tally.lines();
        Ok(writeln!(out, "line {number} malformed: {error}")?)
    }

    /// Writes the counts by call and format, if asked for, and the number of lines of each kind.
    pub fn write_counts(&self, out: &mut impl Write) -> io::Result<()> {
        self.summary.write(out)?;
        writeln!(out, "{}", self.tally)
    }
}

/// Reads the next line, with its newline, in place of the last one. Returns its length in bytes, which is 0 at the end
/// of the input. The line may be as long as the input, so memory may be refused.
fn read_line(input: &mut impl BufRead, line: &mut Vec<u8>) -> Result<usize, Failure> {
    line.clear();
    loop {
        let available = match input.fill_buf() {
            Err(error) if error.kind() == ErrorKind::Interrupted => continue,
            read => read.map_err(|error| Failure::of_input("read", error))?,
        };
        let end = available.iter().position(|byte| *byte == b'\n');
        let count = end.map_or(available.len(), |end| end + 1);
        line.try_reserve(count)?;
        line.extend_from_slice(&available[..count]);
        input.consume(count);
        if end.is_some() || count == 0 {
            return Ok(line.len());
        }
    }
}

/// A line without its newline or CR LF.
fn without_end(line: &[u8]) -> &[u8] {
    let line = line.strip_suffix(b"\n").unwrap_or(line);
    line.strip_suffix(b"\r").unwrap_or(line)
}

/// The number of lines of each kind.
#[derive(Clone, Copy, Default)]
pub struct Tally {
    /// Rows that agree with the library.
    pub agreeing: u64,
    /// Rows that differ from it.
    pub differing: u64,
    /// Lines that are not rows.
    pub malformed: u64,
    /// Comments and empty lines.
    pub skipped: u64,
}

impl Tally {
    /// The number of all lines.
    pub fn lines(self) -> u64 {
        self.agreeing + self.differing + self.malformed + self.skipped
    }

    /// Whether there was no row to check.
    pub fn is_empty(self) -> bool {
        self.agreeing == 0 && self.differing == 0 && self.malformed == 0
    }

    /// The exit status for an input that was read to its end. A malformed line takes precedence over a row that
    /// differs, since what it should have checked is not known.
    pub fn status(self) -> u8 {
        if self.is_empty() || self.malformed > 0 { 2 } else { u8::from(self.differing > 0) }
    }
}

impl fmt::Display for Tally {
    fn fmt(&self, f: &mut fmt::Formatter<'_>) -> fmt::Result {
        write!(f, "{} rows agree, {} differ, ", self.agreeing, self.differing)?;
        write!(f, "{} malformed; {} lines skipped", self.malformed, self.skipped)
    }
}
