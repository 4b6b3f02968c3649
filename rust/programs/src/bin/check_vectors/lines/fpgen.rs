//! Lines of test files of IBM's FPgen: `b32+ =0 +1.000000P0 +1.400000P1 -> +1.000000P2`.
//!
//! The first word is a format and an operation, or two formats and a conversion. It is followed by the rounding mode,
//! the exceptions that trap, the operands, an arrow, the result, and a letter for each flag. Flags are those that
//! processors raise. Comparisons and copies round nothing, and may have no mode. The result of a comparison is `<`,
//! `>`, `=`, or `?` if the operands are unordered.

use crate::erased::commands::bits_of;
use crate::lines::columns::{Columns, LineCall, is_nan};
use crate::lines::row_error::RowError;
use crate::lines::table::found;
use crate::lines::text::Text;
use crate::lines::widths::mask;
use std::fmt::Write as _;
use std::io;
use std::io::Write;

/// The form of a line, for messages.
const LINE: &str = "a line such as `b32+ =0 +1.000000P0 +1.400000P1 -> +1.000000P2`";

/// The form of operands and results, for messages. The digits of a fraction are those of its bits as a number: six for
/// the 23 bits of `b32`.
const NUMBERS: &str =
    "numbers such as +1.400000P-3 (1.5 * 2^-3 in b32), +Zero, -Inf, Q or S, as many as the operation has";

/// A format of FPgen.
#[derive(Clone, Copy)]
struct BinaryFormat {
    /// The word of the format in rows, with the flags of processors.
    word: &'static str,
    /// The same with tininess detected before rounding.
    word_before: &'static str,
    /// The width of a value in bits.
    width: usize,
    /// The width of the fraction in bits.
    fraction: usize,
    /// The bits of infinity.
    infinity: u128,
    /// The biased exponent of 1.
    bias: i32,
}

/// The formats, by the beginning of a line.
static FORMATS: &[(&str, BinaryFormat)] = &[
    (
        "b128",
        BinaryFormat {
            word: "quad+ieee",
            word_before: "quad+ieee+before",
            width: 128,
            fraction: 112,
            infinity: 0x7fff_0000_0000_0000_0000_0000_0000_0000,
            bias: 16383,
        },
    ),
    (
        "b64",
        BinaryFormat {
            word: "double+ieee",
            word_before: "double+ieee+before",
            width: 64,
            fraction: 52,
            infinity: 0x7ff0_0000_0000_0000,
            bias: 1023,
        },
    ),
    (
        "b32",
        BinaryFormat {
            word: "single+ieee",
            word_before: "single+ieee+before",
            width: 32,
            fraction: 23,
            infinity: 0x7f80_0000,
            bias: 127,
        },
    ),
];

/// What kind of operation a line states.
#[derive(Clone, Copy)]
enum Kind {
    /// An operation that rounds in a mode.
    Rounded,
    /// An operation without a mode, whose result is a value.
    Unrounded,
    /// The copy of a value.
    Copied,
    /// A conversion to another format.
    Converted,
    /// A comparison; if true, any NaN raises INVALID_OP.
    Compared(bool),
}

/// The operations, each with its call, the number of its operands, and its kind.
static OPERATIONS: &[(&str, (&str, usize, Kind))] = &[
    ("+", ("add_r", 2, Kind::Rounded)),
    ("-", ("sub_r", 2, Kind::Rounded)),
    ("*", ("wide_mul_r", 2, Kind::Rounded)),
    ("*+", ("wide_mul_add_r", 3, Kind::Rounded)),
    ("/", ("div_r", 2, Kind::Rounded)),
    ("%", ("ieee_rem", 2, Kind::Unrounded)),
    ("V", ("sqrt_r", 1, Kind::Rounded)),
    ("rfi", ("round_to_integral", 1, Kind::Rounded)),
    ("cff", ("convert_r", 1, Kind::Converted)),
    ("cp", ("copy_sign", 1, Kind::Copied)),
    ("~", ("neg", 1, Kind::Unrounded)),
    ("A", ("abs", 1, Kind::Unrounded)),
    ("@", ("copy_sign", 2, Kind::Unrounded)),
    ("qC", ("compare_quiet_unordered", 2, Kind::Compared(false))),
    ("sC", ("compare_signaling_unordered", 2, Kind::Compared(true))),
];

/// The quiet call that tells whether a relation holds.
static QUIET: &[(&str, &str)] = &[
    ("<", "compare_quiet_less"),
    (">", "compare_quiet_greater"),
    ("=", "compare_quiet_equal"),
    ("?", "compare_quiet_unordered"),
];

/// The signaling call that tells whether a relation holds.
static SIGNALING: &[(&str, &str)] = &[
    ("<", "compare_signaling_less"),
    (">", "compare_signaling_greater"),
    ("=", "compare_signaling_equal"),
    ("?", "compare_signaling_unordered"),
];

/// The rounding modes.
static ROUNDINGS: &[(&str, &str)] = &[("=0", "even"), (">", "up"), ("<", "down"), ("0", "zero"), ("=^", "away")];

/// How lines of FPgen are interpreted.
#[derive(Clone, Copy)]
pub struct Fpgen {
    /// Whether tininess is detected before rounding.
    tiny_before_rounding: bool,
    /// Whether lines of other formats and operations are skipped.
    skips_unknown: bool,
}

/// What a line says.
#[derive(Clone, Copy)]
pub struct FpgenTest {
    /// The call that it asks for.
    pub call: LineCall,
    // The format of the result, or none if it is a truth value.
    format: Option<BinaryFormat>,
    stated: Columns,
}

impl Fpgen {
    /// Lines with tininess detected after rounding.
    pub fn new() -> Fpgen {
        Fpgen { tiny_before_rounding: false, skips_unknown: false }
    }

    /// The same lines, of which those of other formats and operations are skipped if asked.
    pub fn skipping(self, skips_unknown: bool) -> Fpgen {
        Fpgen { skips_unknown, ..self }
    }

    /// The same with this option, if there is such an option.
    pub fn with(self, option: &str) -> Option<Fpgen> {
        match option {
            "-tininessbefore" => Some(Fpgen { tiny_before_rounding: true, ..self }),
            "-tininessafter" => Some(Fpgen { tiny_before_rounding: false, ..self }),
            _ => None,
        }
    }

    /// What a line says; `None` if it states what is delivered to a trap handler, or is skipped.
    pub fn read(self, line: &str) -> Result<Option<FpgenTest>, RowError<'_>> {
        let Some((name, left, right)) = cut_line(line) else {
            return Err(RowError::Word("no line of FPgen", line, LINE));
        };
        let operation = match self.operation_named(name) {
            Ok(operation) => operation,
            Err(_) if self.skips_unknown => return Ok(None),
            Err(error) => return Err(error),
        };
        let (rounding, words) = left.split_once(' ').unwrap_or((left, ""));
        match found(ROUNDINGS, rounding) {
            None if operation.rounds() => Err(RowError::Word("no mode", rounding, "=0 > < 0 or =^")),
            None if has_traps(left) => Ok(None),
            None => operation.test("-", left, right),
            Some(_) if has_traps(words) => Ok(None),
            Some(mode) => operation.test(mode, words, right),
        }
    }

    /// The name of the call of a line, and its format.
    pub fn call_in(self, line: &str) -> Option<(&'static str, Text)> {
        let (name, _, right) = cut_line(line)?;
        self.operation_named(name).ok().map(|operation| (operation.call_stating(right), operation.word()))
    }

    /// The error of a line whose call the library does not have.
    pub fn no_call(line: &str) -> RowError<'_> {
        RowError::Word("no such call here", line, LINE)
    }

    /// The operation of this name, which begins with its format.
    fn operation_named(self, name: &str) -> Result<Operation, RowError<'_>> {
        let Some((format, rest)) = format_of(name) else {
            return Err(RowError::Word("no format", name, "b32, b64 or b128"));
        };
        let (target, operation) = format_of(rest).unwrap_or((format, rest));
        match found(OPERATIONS, operation) {
            Some((call, operand_count, kind)) if (rest == operation) != matches!(kind, Kind::Converted) => {
                Ok(Operation {
                    format,
                    target,
                    tiny_before_rounding: self.tiny_before_rounding,
                    call,
                    operand_count,
                    kind,
                })
            }
            _ => Err(RowError::Word("no call", name, CALLS)),
        }
    }
}

impl FpgenTest {
    /// Whether the result and the flags are those stated; any NaN agrees with any other.
    pub fn agrees(self, given: Columns) -> bool {
        given.flags == self.stated.flags
            && (given.result == self.stated.result || (self.is_nan(given.result) && self.is_nan(self.stated.result)))
    }

    /// Writes the bits and the flags that the library returns, or of a comparison whether its relation holds.
    pub fn write_given(self, given: Columns, out: &mut impl Write) -> io::Result<()> {
        let Columns { result, flags } = given;
        let letters = letters_of(flags);
        match self.format {
            Some(format) => {
                let digits = format.width / 4;
                writeln!(out, "  given: {result:0digits$x} {}", letters.as_str())
            }
            None => writeln!(out, "  given: {} {}", result != 0, letters.as_str()),
        }
    }

    /// Whether bits are those of a NaN.
    fn is_nan(self, bits: u128) -> bool {
        match self.format {
            Some(format) => is_nan(bits, format.width, format.infinity),
            None => false,
        }
    }
}

/// The first word of a line, the text between it and the arrow, and the text after the arrow.
fn cut_line(line: &str) -> Option<(&str, &str, &str)> {
    let (left, right) = line.split_once(" -> ")?;
    match left.split_once(' ') {
        Some((name, left)) => Some((name, left, right)),
        None => None,
    }
}

/// Whether the operands follow the letters of exceptions that trap.
fn has_traps(words: &str) -> bool {
    match words.split_once(' ') {
        Some((letters, operands)) => flags_of(letters).is_some() && !operands.is_empty(),
        None => false,
    }
}

/// An operation in a format, or from one to another.
#[derive(Clone, Copy)]
struct Operation {
    format: BinaryFormat,
    target: BinaryFormat,
    tiny_before_rounding: bool,
    call: &'static str,
    operand_count: usize,
    kind: Kind,
}

impl Operation {
    /// The test of the operation that the rest of a line states; `None` if it states what is delivered to a trap
    /// handler.
    fn test<'a>(self, mode: &'static str, words: &'a str, right: &'a str) -> Result<Option<FpgenTest>, RowError<'a>> {
        if words.split(' ').count() != self.operand_count {
            return Err(RowError::Word("no operands of the call", words, NUMBERS));
        }
        let Some(operands) = operands_of(words, self.format) else {
            return Err(RowError::Word("no operands of the call", words, NUMBERS));
        };
        if let Some(calls) = self.calls_of_relations() {
            return self.comparison(calls, operands, right);
        }
        match stated_in(right, self.target) {
            Ok(Some(stated)) => {
                Ok(Some(FpgenTest { call: self.call_on(self.call, mode, operands), format: Some(self.target), stated }))
            }
            Ok(None) => Ok(None),
            Err(error) => Err(error),
        }
    }

    /// The calls that tell which relation holds, of a comparison.
    fn calls_of_relations(self) -> Option<&'static [(&'static str, &'static str)]> {
        match self.kind {
            Kind::Compared(true) => Some(SIGNALING),
            Kind::Compared(false) => Some(QUIET),
            _ => None,
        }
    }

    /// The name of the call whose result a line states.
    fn call_stating(self, right: &str) -> &'static str {
        let (relation, _) = right.split_once(' ').unwrap_or((right, ""));
        match self.calls_of_relations() {
            Some(calls) => found(calls, relation).unwrap_or(self.call),
            None => self.call,
        }
    }

    /// The test whether the relation that a line states holds.
    fn comparison<'a>(
        self,
        calls: &'static [(&'static str, &'static str)],
        operands: Text,
        right: &'a str,
    ) -> Result<Option<FpgenTest>, RowError<'a>> {
        let (relation, flags) = right.split_once(' ').unwrap_or((right, ""));
        if relation == "#" {
            return Ok(None);
        }
        match (found(calls, relation), flags_of(flags)) {
            (None, _) => Err(RowError::Word("no relation", relation, "< > = or ?")),
            (_, None) => Err(RowError::Word("no flags", flags, "letters of x u o z i")),
            (Some(call), Some(flags)) => Ok(Some(FpgenTest {
                call: self.call_on(call, "-", operands),
                format: None,
                stated: Columns { result: 1, flags },
            })),
        }
    }

    /// A call on operands, in a mode if it has one. A copy is the value with its own sign.
    fn call_on(self, name: &'static str, mode: &'static str, operands: Text) -> LineCall {
        LineCall {
            name,
            format: self.word(),
            mode: if self.rounds() { mode } else { "-" },
            operands: match self.kind {
                Kind::Copied => Text::of_parts(&[operands.as_str(), " ", operands.as_str()]),
                _ => operands,
            },
        }
    }

    /// Whether its result is rounded in a mode.
    fn rounds(self) -> bool {
        matches!(self.kind, Kind::Rounded | Kind::Converted)
    }

    /// The word in rows of its format, or of its two formats.
    fn word(self) -> Text {
        match self.kind {
            Kind::Converted => Text::of_parts(&[self.word_of(self.format), ">", self.word_of(self.target)]),
            _ => Text::of(self.word_of(self.format)),
        }
    }

    /// The word in rows of a format.
    fn word_of(self, format: BinaryFormat) -> &'static str {
        if self.tiny_before_rounding { format.word_before } else { format.word }
    }
}

/// The operations, for messages.
const CALLS: &str = "+ - * *+ / % V rfi cp ~ A @ qC or sC after the format, or cff after two";

/// The result and the flags of a line; `None` if there is no result because of a trap.
fn stated_in(right: &str, format: BinaryFormat) -> Result<Option<Columns>, RowError<'_>> {
    let (result, flags) = right.split_once(' ').unwrap_or((right, ""));
    if result == "#" {
        return Ok(None);
    }
    match (bits_of_word(result, format), flags_of(flags)) {
        (None, _) => Err(RowError::Word("no result", result, NUMBERS)),
        (_, None) => Err(RowError::Word("no flags", flags, "letters of x u o z i")),
        (Some(result), Some(flags)) => Ok(Some(Columns { result, flags })),
    }
}

/// The format that the name of a test begins with, and the operation after it.
fn format_of(name: &str) -> Option<(BinaryFormat, &str)> {
    for (word, format) in FORMATS {
        if let Some(operation) = name.strip_prefix(word) {
            return Some((*format, operation));
        }
    }
    None
}

/// The operands as a row has them.
fn operands_of(words: &str, format: BinaryFormat) -> Option<Text> {
    let mut text = Text::of("");
    for word in words.split(' ') {
        let bits = bits_of_word(word, format)?;
        if !text.as_bytes().is_empty() {
            text.write_str(" ").ok()?;
        }
        write!(text, "{bits:x}").ok()?;
    }
    Some(text)
}

/// The bits of a number, an infinity or a NaN: `+1.400000P-3`, `-0.000001P-126`, `+Zero`, `-Inf`, `Q`, `S`.
fn bits_of_word(word: &str, format: BinaryFormat) -> Option<u128> {
    match word {
        "Q" => return Some(format.infinity | (unit_of(format) >> 1)),
        "S" => return Some(format.infinity | 1),
        _ => {}
    }
    if let Some(magnitude) = word.strip_prefix('-') {
        return negated(bits_of_magnitude(magnitude, format), format);
    }
    word.strip_prefix('+').and_then(|magnitude| bits_of_magnitude(magnitude, format))
}

/// The distance between the bits of consecutive powers of two.
fn unit_of(format: BinaryFormat) -> u128 {
    mask(format.fraction).wrapping_add(1)
}

/// The bits with the sign bit set, if there are bits.
fn negated(bits: Option<u128>, format: BinaryFormat) -> Option<u128> {
    bits.map(|bits| bits | (mask(format.width) ^ (mask(format.width) >> 1)))
}

/// The bits of a word without its sign.
fn bits_of_magnitude(word: &str, format: BinaryFormat) -> Option<u128> {
    match word {
        "Zero" => return Some(0),
        "Inf" => return Some(format.infinity),
        _ => {}
    }
    let (digits, exponent) = word.split_once('P')?;
    let exponent = exponent.parse::<i32>().ok()?;
    let (whole, fraction) = digits.split_once('.')?;
    match (whole, bits_of(fraction, format.fraction)) {
        ("0", fraction) => fraction,
        ("1", Some(fraction)) => bits_of_normal(fraction, exponent, format),
        _ => None,
    }
}

/// The bits of a normal number.
fn bits_of_normal(fraction: u128, exponent: i32, format: BinaryFormat) -> Option<u128> {
    let biased = exponent.checked_add(format.bias)?;
    let biased = u32::try_from(biased).ok()?;
    u128::from(biased).checked_mul(unit_of(format)).map(|bits| bits | fraction)
}

/// The letters of the flags: inexact, underflow, overflow, division by zero, invalid operation.
static LETTERS: &[(&str, u128)] = &[("x", 1), ("u", 2), ("o", 4), ("z", 8), ("i", 16)];

/// The flags that letters name.
fn flags_of(letters: &str) -> Option<u128> {
    let mut flags = 0;
    for letter in letters.as_bytes() {
        flags |= match *letter {
            b'x' => 1,
            b'u' => 2,
            b'o' => 4,
            b'z' => 8,
            b'i' => 16,
            _ => return None,
        };
    }
    Some(flags)
}

/// The letters for flags.
fn letters_of(flags: u128) -> Text {
    let mut text = Text::of("");
    for (letter, flag) in LETTERS {
        if flags & *flag != 0 {
            let _ = text.write_str(letter);
        }
    }
    text
}
