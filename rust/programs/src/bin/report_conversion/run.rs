//! Runs the program.

use crate::erased::apfloat_arrays::{Counts, Extended, width};
use crate::erased::commands::{About, write_fault};
use crate::measures::{Binades, Kinds, Measures, doubles};
use crate::request::{Fault, HELP, Request};
use crate::svg::write_svg;
use crate::target::doubles_of;
use crate::text::write_text;
use std::fs::File;
use std::io::{self, BufWriter, ErrorKind, Read, Write};

const PROGRAM: &str = "report_conversion";

const UNEVEN: u8 = 1;

const OTHER_WORDS: u8 = 2;

const NO_MEMORY: u8 = 3;

const FAILED: u8 = 4;

/// How many values are read at once, but for blocks that do not divide it.
const VALUES_AT_ONCE: usize = 1 << 15;

/// What is reported.
pub struct Report<'a> {
    pub request: Request<'a>,
    pub values: Kinds,
    pub binades: Binades,
    /// The measures of each target, with the flags of its conversions.
    pub measures: Vec<(Measures, Counts)>,
    /// The bytes after the last value or block.
    pub left_over: usize,
}

/// Runs the program with the arguments from the system, and returns its exit status.
pub fn run(given: io::Result<Vec<String>>, input: &mut impl Read, out: &mut impl Write, err: &mut impl Write) -> u8 {
    match given {
        Ok(words) => answer(&words, input, out, err).unwrap_or(FAILED),
        Err(error) if error.kind() == ErrorKind::OutOfMemory => {
            write_fault(PROGRAM, "no memory for the words", err).map_or(FAILED, |()| NO_MEMORY)
        }
        Err(_) => write_fault(PROGRAM, "the words are not valid text", err).map_or(FAILED, |()| OTHER_WORDS),
    }
}

/// The exit status, or the error of a write.
fn answer(words: &[String], input: &mut impl Read, out: &mut impl Write, err: &mut impl Write) -> io::Result<u8> {
    if let Some(about) = About::among(words) {
        about.answer(PROGRAM, HELP, out)?;
        return Ok(0);
    }
    let request = match Request::named(words) {
        Ok(request) => request,
        Err(fault) => {
            match fault {
                Fault::Words(what) => write_fault(PROGRAM, what, err)?,
                Fault::Word(word) => word.write(PROGRAM, err)?,
            }
            return Ok(OTHER_WORDS);
        }
    };
    let report = match Report::read(request, input) {
        Ok(report) => report,
        Err(error) => return failed("standard input", &error, err),
    };
    let left_over = report.left_over;
    match report.request.svg {
        None => write_text(report, out)?,
        Some(name) => {
            let drawn = File::create(name).map(BufWriter::new).and_then(|mut file| {
                write_svg(report, &mut file)?;
                file.flush()
            });
            if let Err(error) = drawn {
                return failed(name, &error, err);
            }
        }
    }
    if left_over == 0 {
        return Ok(0);
    }
    writeln!(err, "{PROGRAM}: {left_over} bytes after the last value or block")?;
    Ok(UNEVEN)
}

/// Says what failed.
fn failed(what: &str, error: &io::Error, err: &mut impl Write) -> io::Result<u8> {
    writeln!(err, "{PROGRAM}: {what}: {error}")?;
    Ok(FAILED)
}

impl<'a> Report<'a> {
    /// The report on all values.
    fn read(request: Request<'a>, input: &mut impl Read) -> io::Result<Report<'a>> {
        let measures = request.targets.iter().map(|_| (Measures::new(), Counts::NONE)).collect();
        let mut report = Report { request, values: Kinds::default(), binades: Binades::new(), measures, left_over: 0 };
        let bytes = width(report.request.way.source, Extended::Packed) * report.request.values_together();
        let mut buffer = vec![0; (VALUES_AT_ONCE / report.request.values_together()).max(1) * bytes];
        loop {
            let read = fill(input, &mut buffer)?;
            let whole = read - read % bytes;
            report.count(&buffer[..whole]);
            if read < buffer.len() {
                report.left_over = read - whole;
                return Ok(report);
            }
        }
    }

    /// Counts some more values.
    fn count(&mut self, values: &[u8]) {
        let way = self.request.way;
        let mut numbers = vec![0; values.len() / width(way.source, Extended::Packed) * 8];
        doubles_of(way.source, values, &mut numbers);
        for x in doubles(&numbers) {
            self.values.count(x);
            self.binades.count(x);
        }
        for ((_, target), (measures, counts)) in self.request.targets.iter().zip(&mut self.measures) {
            let converted = target.convert(way, values);
            measures.count(target.digits(), target.values_together(), &numbers, &converted);
            counts.add(converted.counts);
        }
    }
}

/// Reads until the buffer is full or the stream ends, and returns how much was read.
fn fill(input: &mut impl Read, buffer: &mut [u8]) -> io::Result<usize> {
    let mut filled = 0;
    while filled < buffer.len() {
        match input.read(&mut buffer[filled..]) {
            Ok(0) => break,
            Ok(more) => filled += more,
            Err(error) if error.kind() == ErrorKind::Interrupted => {}
            Err(error) => return Err(error),
        }
    }
    Ok(filled)
}
