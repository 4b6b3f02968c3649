//! What the words of a command line ask for.

use crate::erased::commands::{FORMATS, MODES, WrongWord};
use crate::erased::formats_at_run_time::{BuiltInFormat, BuiltInKind, mode_named};
use crate::erased::rustc_apfloat::Round;
use crate::erased::small_formats::blocks::ElementFormat;

/// The help; `packaging/manual` makes the man page and the completions of it.
pub const HELP: &str = "\
usage: reduce_values OP FORMAT MODE [FILE] < values
       reduce_values [--block-length N] dot_blocks FORM TO MODE FILE < blocks
       reduce_values --help | --version

Adds all values of a stream, or what OP makes of them, and writes the exact
result, rounded once, with the flags of that rounding, as the program vectors
does. It does not depend on the order of the values, but for which NaN it is.
Values are little-endian, and blocks those of convert_values.

OP      sum         the values
        sum_abs     their magnitudes
        sum_square  their squares
        dot         their products with the values at the same places of FILE
        dot_blocks  the same of blocks, delivered in the format TO
FORMAT  half single double bfloat e5m2 e4m3fn e4m3fnuz e4m3 e5m2fnuz
        e4m3b11fnuz tf32 quad x87
TO      half single double bfloat e5m2 e4m3fn e4m3fnuz e4m3 e5m2fnuz
        e4m3b11fnuz tf32 quad x87
FORM    mxfp4 mxfp6e2m3 mxfp6e3m2 mxfp8e4m3 mxfp8e5m2  blocks with a scale
MODE    even    to the nearest value, ties to even
        up      toward positive
        down    toward negative
        zero    toward zero
        away    to the nearest value, ties away from zero

--block-length N  elements in a block, 1 to 1024; 32 without it

--help, -h  writes this text
--version   writes the name and the version of the program

The exit status is 0 for a result, 1 if a stream ended inside a value or a block
or has not as many as the file, 2 for other arguments, and 4 if a read or a
write failed.

    reduce_values sum single even < weights
    reduce_values dot_blocks mxfp4 single even others < blocks
";

/// The options.
const OPTIONS: &[&str] = &["--help", "-h", "--version", "--block-length"];

/// What is done with values.
const CALLS: &[&str] = &["sum", "sum_abs", "sum_square", "dot", "dot_blocks"];

/// The forms of blocks.
const FORMS: &[&str] = &["mxfp4", "mxfp6e2m3", "mxfp6e3m2", "mxfp8e4m3", "mxfp8e5m2"];

/// The most elements in a block.
const LONGEST: usize = 1024;

/// The elements in a block of OCP Microscaling Formats 1.0.
const BLOCK: usize = 32;

/// What is added.
#[derive(Clone, Copy)]
pub enum Terms {
    Values,
    Magnitudes,
    Squares,
    Products,
}

/// What a stream has.
#[derive(Clone, Copy)]
pub enum Stream {
    Values(Terms),
    /// Blocks of so many elements, whose products are added.
    Blocks(ElementFormat, usize),
}

/// What is asked for.
pub struct Request<'a> {
    pub stream: Stream,
    /// The format of the result, and of the values.
    pub format: BuiltInFormat,
    pub round: Round,
    /// The file with the values or blocks of the other vector.
    pub other: Option<&'a str>,
}

/// Why there is no result.
pub enum Fault<'a> {
    Words(&'static str),
    Word(WrongWord<'a>),
}

impl<'a> Request<'a> {
    /// What these words ask for, without the program's own name.
    pub fn named(words: &'a [String]) -> Result<Request<'a>, Fault<'a>> {
        let mut words = words;
        let mut length = BLOCK;
        while let [option, others @ ..] = words
            && option.starts_with('-')
        {
            let ("--block-length", [value, others @ ..]) = (option.as_str(), others) else {
                return Err(unknown("no such option", option, OPTIONS));
            };
            let found = value.parse().ok().filter(|length| (1..=LONGEST).contains(length));
            length = found.ok_or(unknown("no such length of blocks", value, &[]))?;
            words = others;
        }
        let [call, words @ ..] = words else {
            return Err(Fault::Words("too few words"));
        };
        let terms = match call.as_str() {
            "sum" => Terms::Values,
            "sum_abs" => Terms::Magnitudes,
            "sum_square" => Terms::Squares,
            "dot" | "dot_blocks" => Terms::Products,
            _ => return Err(unknown("no such reduction", call, CALLS)),
        };
        let (stream, words) = match words {
            [form, words @ ..] if call == "dot_blocks" => {
                let element = element_named(form).ok_or(unknown("no such blocks", form, FORMS))?;
                if length % group(element) != 0 {
                    return Err(Fault::Words("the codes of a block do not fill bytes"));
                }
                (Stream::Blocks(element, length), words)
            }
            _ => (Stream::Values(terms), words),
        };
        let (format, mode, other) = match (words, terms) {
            ([format, mode, other], Terms::Products) => (format, mode, Some(other.as_str())),
            ([format, mode], Terms::Values | Terms::Magnitudes | Terms::Squares) => (format, mode, None),
            _ => return Err(Fault::Words("too few or too many words")),
        };
        let found = BuiltInKind::named(format).and_then(BuiltInKind::format);
        let Some(found) = found else {
            return Err(unknown("no such format", format, FORMATS));
        };
        let Some(round) = mode_named(mode) else {
            return Err(unknown("no such mode", mode, MODES));
        };
        Ok(Request { stream, format: found, round, other })
    }
}

/// How many codes together fill bytes.
pub fn group(element: ElementFormat) -> usize {
    match element.bits() {
        4 => 2,
        6 => 4,
        _ => 1,
    }
}

/// The elements of the blocks with this name.
fn element_named(word: &str) -> Option<ElementFormat> {
    Some(match word {
        "mxfp4" => ElementFormat::E2M1FN,
        "mxfp6e2m3" => ElementFormat::E2M3FN,
        "mxfp6e3m2" => ElementFormat::E3M2FN,
        "mxfp8e4m3" => ElementFormat::E4M3FN,
        "mxfp8e5m2" => ElementFormat::E5M2,
        _ => return None,
    })
}

fn unknown<'a>(fault: &'static str, word: &'a str, known: &'static [&'static str]) -> Fault<'a> {
    Fault::Word(WrongWord { fault, word, known })
}
