//! What the words of a command line ask for.

use crate::blocks::{RULES, rule_named};
use crate::erased::commands::{FORMATS, MODES, WrongWord, suggested};
use crate::erased::formats_at_run_time::mode_named;
use crate::erased::small_formats::saturation::{FiniteNan, Overflow};
use crate::target::{Target, Way, built_in_named, is_within_double};

/// The help; `packaging/manual` makes the man page and the completions of it.
pub const HELP: &str = "\
usage: report_conversion [--saturate | --saturate-finite | --saturate-all]
           [--block-length N] [--svg FILE] FROM TO.. MODE < values
       report_conversion --help | --version

Reports what a conversion does to values: it reads little-endian values of the
format FROM from standard input, and says of each format TO, of which there may
be four, how many it has exactly, how many become zero or are past its largest
value, how large the errors are, and the ratio of signal to noise; then the same
for each binade, the values with the same exponent. A conversion is that of
convert_values.

A number is past the largest value if its result is no number, or is more than
one ulp away, one unit in the last place of the result: it was saturated, or is
below zero in a format without a sign. A number with another result is inexact.
Errors and noise are those of all numbers whose results are numbers.

FROM  half single double bfloat e5m2 e4m3fn e4m3fnuz e4m3 e5m2fnuz
      e4m3b11fnuz tf32
TO    half single double bfloat e5m2 e4m3fn e4m3fnuz e4m3 e5m2fnuz
      e4m3b11fnuz tf32 quad x87
      e2m1fn e2m3fn e3m2fn e3m4 e8m0fnu ue4m3
      mxfp4 mxfp6e2m3 mxfp6e3m2 mxfp8e4m3 mxfp8e5m2  blocks with a scale
MODE  even    to the nearest value, ties to even
      up      toward positive
      down    toward negative
      zero    toward zero
      away    to the nearest value, ties away from zero

The exponent of a scale follows from the greatest magnitude in the block by a
rule, which may stand after the blocks' word, as in mxfp4+ceil:

RULE  floor   the exponent of the magnitude less that of the largest element;
              the rule of convert_values, and the one without a word
      ceil    the least exponent with which no element is past the largest
      even    as floor, once the magnitude has only as many digits as elements

--saturate          numbers past the largest value become that
--saturate-finite   infinities too
--saturate-all      NaNs too
--block-length N    values in a block, 1 to 1024; 32 without it
--svg FILE          draws the report into FILE, in SVG, and writes nothing else

--help, -h  writes this text
--version   writes the name and the version of the program

The exit status is 0 for a report, 1 if the stream ended inside a value or a
block, 2 for other arguments, 3 if there is not enough memory for them, and 4 if
a read or a write failed.

    report_conversion single e4m3fn mxfp4 mxfp4+ceil even < weights
    report_conversion --svg report.svg bfloat e5m2 even < gradients
";

/// The options.
const OPTIONS: &[&str] =
    &["--help", "-h", "--version", "--saturate", "--saturate-finite", "--saturate-all", "--block-length", "--svg"];

/// The formats that values may have.
const SOURCES: &[&str] =
    &["half", "single", "double", "bfloat", "e5m2", "e4m3fn", "e4m3fnuz", "e4m3", "e5m2fnuz", "e4m3b11fnuz", "tf32"];

/// What values may be converted to beside the built-in formats.
const OTHER_TARGETS: &[&str] = &[
    "e2m1fn",
    "e2m3fn",
    "e3m2fn",
    "e3m4",
    "e8m0fnu",
    "ue4m3",
    "mxfp4",
    "mxfp6e2m3",
    "mxfp6e3m2",
    "mxfp8e4m3",
    "mxfp8e5m2",
];

/// How many targets a report has room for.
const MOST_TARGETS: usize = 4;

/// The most values in a block.
const LONGEST: usize = 1024;

/// The values in a block of OCP Microscaling Formats 1.0.
const BLOCK: usize = 32;

/// What is asked for.
pub struct Request<'a> {
    pub source_word: &'a str,
    pub way: Way,
    /// The targets with their words.
    pub targets: Vec<(&'a str, Target)>,
    pub svg: Option<&'a str>,
}

/// Why there is nothing to report.
pub enum Fault<'a> {
    Words(&'static str),
    Word(WrongWord<'a>),
}

/// The options.
struct Options<'a> {
    overflow: Overflow,
    length: usize,
    svg: Option<&'a str>,
}

impl<'a> Request<'a> {
    /// What these words ask for, without the program's own name.
    pub fn named(words: &'a [String]) -> Result<Request<'a>, Fault<'a>> {
        let mut options = Options { overflow: Overflow::Rounded, length: BLOCK, svg: None };
        let mut rest = words;
        while let [option, others @ ..] = rest
            && option.starts_with('-')
        {
            rest = options.take(option, others)?;
        }
        let [source_word, targets @ .., mode] = rest else {
            return Err(Fault::Words("too few words"));
        };
        let Some(source) = built_in_named(source_word).filter(|format| is_within_double(*format)) else {
            return Err(unknown("no such format of values", source_word, SOURCES));
        };
        match targets.len() {
            0 => return Err(Fault::Words("too few words")),
            many if many > MOST_TARGETS => return Err(Fault::Words("too many formats")),
            _ => {}
        }
        let named = |word: &'a String| options.target(word).map(|target| (word.as_str(), target));
        let targets = targets.iter().map(named).collect::<Result<_, _>>()?;
        let Some(round) = mode_named(mode) else {
            return Err(unknown("no such mode", mode, MODES));
        };
        let way = Way { source, round, overflow: options.overflow };
        Ok(Request { source_word, way, targets, svg: options.svg })
    }

    /// How many values are converted together.
    pub fn values_together(&self) -> usize {
        self.targets.iter().map(|(_, target)| target.values_together()).max().unwrap_or(1)
    }
}

impl<'a> Options<'a> {
    /// The target of this word.
    fn target(&self, word: &'a str) -> Result<Target, Fault<'a>> {
        let (format, rule) = word.split_once('+').unwrap_or((word, "floor"));
        let is_block = |target: &Target| matches!(target, Target::Blocks(_)) || format == word;
        let rule = rule_named(rule).ok_or(unknown("no such rule of scales", rule, RULES))?;
        let known = if suggested(format, FORMATS).is_some() { FORMATS } else { OTHER_TARGETS };
        Target::named(format, self.length, rule).filter(is_block).ok_or(unknown("no such format", word, known))
    }

    /// Takes an option, and returns the words after it and its value.
    fn take(&mut self, option: &'a str, others: &'a [String]) -> Result<&'a [String], Fault<'a>> {
        match option {
            "--saturate" => self.overflow = Overflow::Saturated,
            "--saturate-finite" => self.overflow = Overflow::Finite(FiniteNan::Kept),
            "--saturate-all" => self.overflow = Overflow::Finite(FiniteNan::Largest),
            "--block-length" | "--svg" => {
                let [value, others @ ..] = others else {
                    return Err(Fault::Words("too few words"));
                };
                if option == "--svg" {
                    self.svg = Some(value);
                } else {
                    let length = value.parse().ok().filter(|length| (1..=LONGEST).contains(length));
                    self.length = length.ok_or(unknown("no such length of blocks", value, &[]))?;
                }
                return Ok(others);
            }
            _ => return Err(unknown("no such option", option, OPTIONS)),
        }
        Ok(others)
    }
}

fn unknown<'a>(fault: &'static str, word: &'a str, known: &'static [&'static str]) -> Fault<'a> {
    Fault::Word(WrongWord { fault, word, known })
}
