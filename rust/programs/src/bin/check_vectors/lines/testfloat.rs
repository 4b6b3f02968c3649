//! Lines of Berkeley TestFloat, as `testfloat_gen` writes them for one of its functions: the operands, the result and
//! the flags, in hexadecimal digits, separated by single spaces.
//!
//! Flags are those that processors raise, so the formats have the rule of flags of IEEE 754-2019.

use crate::erased::commands::bits_of;
use crate::lines::columns::{Columns, LineCall, is_nan};
use crate::lines::row_error::RowError;
use crate::lines::table::found;
use crate::lines::text::{Text, shown};
use crate::lines::widths::mask;
use std::fmt::Write as _;
use std::io;
use std::io::Write;

/// The kind of an operand or a result of a function.
#[derive(Clone, Copy)]
enum Kind {
    /// A value of a format: the word of the format, its width in bits, and the bits of its infinity.
    Float(&'static str, usize, u128),
    /// An unsigned integer of this many bits.
    Unsigned(usize),
    /// A signed integer of this many bits.
    Signed(usize),
    /// Whether a comparison holds.
    Truth,
}

/// The kinds, by their words in the names of functions.
static KINDS: &[(&str, Kind)] = &[
    ("f16", Kind::Float("half", 16, 0x7c00)),
    ("f32", Kind::Float("single", 32, 0x7f80_0000)),
    ("f64", Kind::Float("double", 64, 0x7ff0_0000_0000_0000)),
    ("extF80", Kind::Float("x87", 80, 0x7fff_8000_0000_0000_0000)),
    ("f128", Kind::Float("quad", 128, 0x7fff << 112)),
    ("ui32", Kind::Unsigned(32)),
    ("ui64", Kind::Unsigned(64)),
    ("i32", Kind::Signed(32)),
    ("i64", Kind::Signed(64)),
];

/// The operations on values of one format, by their words in the names of functions: the call, and the number of its
/// operands.
static OPERATIONS: &[(&str, (&str, usize))] = &[
    ("add", ("add_r", 2)),
    ("sub", ("sub_r", 2)),
    ("mul", ("wide_mul_r", 2)),
    ("mulAdd", ("wide_mul_add_r", 3)),
    ("div", ("div_r", 2)),
    ("rem", ("ieee_rem", 2)),
    ("sqrt", ("sqrt_r", 1)),
    ("roundToInt", ("round_to_integral", 1)),
    ("eq", ("compare_quiet_equal", 2)),
    ("le", ("compare_signaling_less_equal", 2)),
    ("lt", ("compare_signaling_less", 2)),
    ("eq_signaling", ("compare_signaling_equal", 2)),
    ("le_quiet", ("compare_quiet_less_equal", 2)),
    ("lt_quiet", ("compare_quiet_less", 2)),
];

/// The options of rounding, with their modes.
static ROUNDINGS: &[(&str, &str)] = &[
    ("-rnear_even", "even"),
    ("-rmax", "up"),
    ("-rmin", "down"),
    ("-rminMag", "zero"),
    ("-rnear_maxMag", "away"),
    ("-rodd", ODD),
];

/// The endings of functions that round in a mode of their own to integral values and integers: the mode, and whether
/// the inexact flag is compared.
static OWN_ROUNDINGS: &[(&str, (&str, bool))] = &[
    ("_r_near_even", ("even", false)),
    ("_r_near_maxMag", ("away", false)),
    ("_r_minMag", ("zero", false)),
    ("_r_min", ("down", false)),
    ("_r_max", ("up", false)),
    ("_rx_near_even", ("even", true)),
    ("_rx_near_maxMag", ("away", true)),
    ("_rx_minMag", ("zero", true)),
    ("_rx_min", ("down", true)),
    ("_rx_max", ("up", true)),
];

/// The mode of rounding to odd, for which rows have calls of their own.
const ODD: &str = "odd";

/// The calls of rows that round to odd, in place of calls that take a mode.
static ODD_CALLS: &[(&str, &str)] = &[
    ("add_r", "add_odd"),
    ("sub_r", "sub_odd"),
    ("wide_mul_r", "mul_odd"),
    ("wide_mul_add_r", "mul_add_odd"),
    ("div_r", "div_odd"),
    ("sqrt_r", "sqrt_odd"),
    ("round_to_integral", "round_to_odd_integral"),
    ("convert_r", "convert_odd"),
    ("from_u128_r", "from_u128_odd"),
    ("from_i128_r", "from_i128_odd"),
    ("to_u128_r", "to_u128_odd"),
    ("to_i128_r", "to_i128_odd"),
];

/// The calls that deliver in another format, in place of those whose result an x87 rounds to fewer digits.
static CALLS_TO_FEWER_DIGITS: &[(&str, &str)] =
    &[("add_r", "add_to"), ("sub_r", "sub_to"), ("wide_mul_r", "mul_to"), ("div_r", "div_to"), ("sqrt_r", "sqrt_to")];

/// How far the NaNs of lines are compared.
#[derive(Clone, Copy)]
enum NanCheck {
    /// A NaN agrees with any other.
    Any,
    /// A NaN that a line states has to be quiet. TestFloat's own verifier compares no more than this by default.
    Quiet,
    /// All bits.
    Bits,
}

/// The function of TestFloat that the lines of a file test, how it rounds, and what is compared.
#[derive(Clone, Copy)]
pub struct TestFloat {
    call: &'static str,
    mode: &'static str,
    // Whether the mode is part of the function.
    has_own_mode: bool,
    operand: Kind,
    operand_count: usize,
    result: Kind,
    tiny_before_rounding: bool,
    is_exact: bool,
    nan_check: NanCheck,
    // Whether the integer of an invalid conversion is compared.
    checks_invalid: bool,
    // The format in which an x87 rounds to fewer digits, if it does.
    fewer_digits: Option<&'static str>,
}

impl TestFloat {
    /// The function of this name, with TestFloat's defaults: rounding to nearest, ties to even, tininess detected after
    /// rounding, and the inexact flag not compared for integral values and integers. Of a NaN
    /// only that it is quiet is compared.
    pub fn named(name: &str) -> Option<TestFloat> {
        if let Some(name) = name.strip_suffix("_x") {
            return exact_integral(without_ending(name));
        }
        for (ending, (mode, is_exact)) in OWN_ROUNDINGS {
            if let Some(name) = name.strip_suffix(ending) {
                return with_own_rounding(without_ending(name), mode, *is_exact);
            }
        }
        without_ending(name)
    }

    /// The function that makes a call on `operand_count` operands of a kind.
    fn of(call: &'static str, operand: Kind, operand_count: usize, given: Kind) -> TestFloat {
        TestFloat {
            call,
            mode: if call == "ieee_rem" || is_comparison(call) { "-" } else { "even" },
            has_own_mode: false,
            operand,
            operand_count,
            result: given,
            tiny_before_rounding: false,
            is_exact: false,
            nan_check: NanCheck::Quiet,
            checks_invalid: false,
            fewer_digits: None,
        }
    }

    /// The function with an option of TestFloat or `--any-nan`, if there is such an option.
    pub fn with(self, option: &str) -> Option<TestFloat> {
        let mut changed = self;
        match option {
            "-tininessbefore" => changed.tiny_before_rounding = true,
            "-tininessafter" => changed.tiny_before_rounding = false,
            "-exact" => changed.is_exact = true,
            "-notexact" => changed.is_exact = false,
            "--any-nan" => changed.nan_check = NanCheck::Any,
            "-checkNaNs" => changed.nan_check = NanCheck::Bits,
            "-checkInvInts" => changed.checks_invalid = true,
            "-checkAll" => (changed.nan_check, changed.checks_invalid) = (NanCheck::Bits, true),
            "-precision80" => changed.fewer_digits = None,
            "-precision64" => changed.fewer_digits = self.of_fewer_digits("x87p53"),
            "-precision32" => changed.fewer_digits = self.of_fewer_digits("x87p24"),
            _ => return self.rounded(found(ROUNDINGS, option)),
        }
        Some(changed)
    }

    /// The function in a mode, if there is one. Remainders and comparisons have none, and truncations their own.
    fn rounded(self, mode: Option<&'static str>) -> Option<TestFloat> {
        let mode = match (self.mode, mode) {
            (_, None) => return None,
            (own, _) if self.has_own_mode => own,
            ("-", _) => "-",
            (_, Some(mode)) => mode,
        };
        Some(TestFloat { mode, ..self })
    }

    /// The format of fewer digits, if an x87 rounds results of the function to it.
    fn of_fewer_digits(self, format: &'static str) -> Option<&'static str> {
        match (self.operand, found(CALLS_TO_FEWER_DIGITS, self.call)) {
            (Kind::Float("x87", _, _), Some(_)) => Some(format),
            _ => None,
        }
    }

    /// The name of the call that lines ask for.
    pub fn call_name(self) -> &'static str {
        if self.mode == ODD {
            return found(ODD_CALLS, self.call).unwrap_or(self.call);
        }
        match self.fewer_digits {
            Some(_) => found(CALLS_TO_FEWER_DIGITS, self.call).unwrap_or(self.call),
            None => self.call,
        }
    }

    /// The mode of the call, or `-` for a call without one.
    fn mode_word(self) -> &'static str {
        if self.mode == ODD { "-" } else { self.mode }
    }

    /// The call that a line asks for, and the result and the flags that it states.
    pub fn read(self, line: &str) -> Result<(LineCall, Columns), RowError<'_>> {
        let (operands, stated) = self.cut(line)?;
        match self.call_on(operands) {
            Some(call) => Ok((call, stated)),
            None => Err(operand_error(operands)),
        }
    }

    /// The error of a line whose call the library does not have.
    pub fn no_call(self, line: &str) -> RowError<'_> {
        match self.cut(line) {
            Ok((operands, _)) => operand_error(operands),
            Err(error) => error,
        }
    }

    /// Whether what the library returns agrees with what a line states.
    pub fn agrees(self, given: Columns, stated: Columns) -> bool {
        let given = self.cut_to_width(given);
        self.flags_agree(given, stated) && self.results_agree(given, stated)
    }

    /// Writes the result and the flags that the library returns.
    pub fn write_given(self, given: Columns, out: &mut impl Write) -> io::Result<()> {
        let Columns { result, flags } = self.cut_to_width(given);
        let digits = width_of(self.result).div_ceil(4);
        writeln!(out, "  given: {result:0digits$X} {flags:02X}")
    }

    /// The result without the bits above its width, which are set in a negative integer.
    fn cut_to_width(self, given: Columns) -> Columns {
        Columns { result: given.result & mask(width_of(self.result)), flags: given.flags }
    }

    /// Whether the flags are the same, or differ only in the inexact flag where that is not compared.
    fn flags_agree(self, given: Columns, stated: Columns) -> bool {
        match given.flags ^ stated.flags {
            0 => true,
            1 => !self.is_exact && self.is_integral(),
            _ => false,
        }
    }

    /// Whether the result is an integral value or an integer.
    fn is_integral(self) -> bool {
        match self.result {
            Kind::Float(_, _, _) => self.call == "round_to_integral",
            Kind::Unsigned(_) | Kind::Signed(_) => true,
            Kind::Truth => false,
        }
    }

    /// Whether two results are the same, or are not compared. The result of an invalid conversion to an integer depends
    /// on the processor, and so does which NaN is delivered; TestFloat too compares them only on request.
    fn results_agree(self, given: Columns, stated: Columns) -> bool {
        if given.result == stated.result {
            return true;
        }
        match self.result {
            Kind::Float(_, width, infinity) => {
                is_nan(given.result, width, infinity) && self.allows_nan(stated.result, width, infinity)
            }
            Kind::Unsigned(_) | Kind::Signed(_) => stated.flags & 16 != 0 && !self.checks_invalid,
            Kind::Truth => false,
        }
    }

    /// Whether a line may state this result where another NaN is given.
    fn allows_nan(self, stated: u128, width: usize, infinity: u128) -> bool {
        match self.nan_check {
            NanCheck::Any => is_nan(stated, width, infinity),
            NanCheck::Quiet => is_nan(stated, width, infinity) && is_quiet(stated, infinity),
            NanCheck::Bits => false,
        }
    }

    /// The operands of a line, and its result and flags.
    fn cut<'a>(self, line: &'a str) -> Result<(&'a str, Columns), RowError<'a>> {
        let count = line.split(' ').count();
        let wanted = self.operand_count.saturating_add(2);
        let Some((operands, result, flags)) = last_two_words(line) else {
            return Err(RowError::Numbers(count, wanted));
        };
        if count != wanted {
            return Err(RowError::Numbers(count, wanted));
        }
        self.stated(result, flags).map(|stated| (operands, stated))
    }

    /// The result and the flags that two words spell.
    fn stated<'a>(self, value: &'a str, flags: &'a str) -> Result<Columns, RowError<'a>> {
        match (bits_of(value, width_of(self.result)), bits_of(flags, 5)) {
            (None, _) => Err(RowError::Word("no result", value, "hexadecimal digits of its width")),
            (_, None) => Err(RowError::Word("no flags", flags, "two hexadecimal digits, 00 to 1F")),
            (Some(result), Some(flags)) => Ok(Columns { result, flags }),
        }
    }

    /// The call on these operands, if they are well-formed.
    fn call_on(self, operands: &str) -> Option<LineCall> {
        self.words(operands).map(|words| LineCall {
            name: self.call_name(),
            format: self.format(),
            mode: self.mode_word(),
            operands: words,
        })
    }

    /// The format of the row, or both formats of a conversion. The flags of a conversion are those of its target.
    pub fn format(self) -> Text {
        let rule = if self.tiny_before_rounding { "+ieee+before" } else { "+ieee" };
        if let Some(target) = self.fewer_digits {
            return Text::of_parts(&["x87>", target, rule]);
        }
        match (self.operand, self.result) {
            (Kind::Float(source, _, _), Kind::Float(target, _, _)) if self.call == "convert_r" => {
                Text::of_parts(&[source, ">", target, rule])
            }
            (Kind::Float(word, _, _), _) | (_, Kind::Float(word, _, _)) => Text::of_parts(&[word, rule]),
            _ => Text::of(""),
        }
    }

    /// The operands as a row has them: integers in decimal digits, and the width if the result is an integer.
    fn words(self, operands: &str) -> Option<Text> {
        match (self.operand, self.result) {
            (Kind::Unsigned(width), _) => decimal(bits_of(operands, width)),
            (Kind::Signed(width), _) => signed_decimal(bits_of(operands, width), width),
            (_, Kind::Unsigned(width) | Kind::Signed(width)) => with_width(operands, width),
            _ => Text::whole(operands),
        }
    }
}

/// The error for operands that the function does not take.
fn operand_error(operands: &str) -> RowError<'_> {
    RowError::Word("no operands of the function", operands, "hexadecimal digits of their widths")
}

/// The function that converts one kind to another, if both exist.
fn conversion(source: Option<Kind>, target: Option<Kind>) -> Option<TestFloat> {
    let (Some(source), Some(target)) = (source, target) else {
        return None;
    };
    call_between(source, target).map(|call| TestFloat::of(call, source, 1, target))
}

/// The function that makes a call on operands of one kind, if the kind and the call exist.
fn operation_on(kind: Option<Kind>, operation: Option<(&'static str, usize)>) -> Option<TestFloat> {
    match (kind, operation) {
        (Some(kind), Some((call, count))) if is_comparison(call) => Some(TestFloat::of(call, kind, count, Kind::Truth)),
        (Some(kind), Some((call, count))) => Some(TestFloat::of(call, kind, count, kind)),
        _ => None,
    }
}

/// Whether a call is a comparison predicate.
fn is_comparison(call: &str) -> bool {
    call.starts_with("compare_")
}

/// The function of this name, which has no ending that says how it rounds.
fn without_ending(name: &str) -> Option<TestFloat> {
    if let Some((source, target)) = name.split_once("_to_") {
        return conversion(found(KINDS, source), found(KINDS, target));
    }
    match name.split_once('_') {
        Some((format, operation)) => operation_on(found(KINDS, format), found(OPERATIONS, operation)),
        None => None,
    }
}

/// A function that rounds to an integral value, with the inexact flag compared.
fn exact_integral(function: Option<TestFloat>) -> Option<TestFloat> {
    match function {
        Some(function) if function.call == "round_to_integral" => Some(TestFloat { is_exact: true, ..function }),
        _ => None,
    }
}

/// A function that rounds to integral values or integers, in this mode.
fn with_own_rounding(function: Option<TestFloat>, mode: &'static str, is_exact: bool) -> Option<TestFloat> {
    match function {
        Some(function) if function.is_integral() => Some(TestFloat { mode, has_own_mode: true, is_exact, ..function }),
        _ => None,
    }
}

/// The call that converts one kind to another.
fn call_between(source: Kind, target: Kind) -> Option<&'static str> {
    match (source, target) {
        (Kind::Float(_, _, _), Kind::Float(_, _, _)) => Some("convert_r"),
        (Kind::Float(_, _, _), Kind::Unsigned(_)) => Some("to_u128_r"),
        (Kind::Float(_, _, _), Kind::Signed(_)) => Some("to_i128_r"),
        (Kind::Unsigned(_), Kind::Float(_, _, _)) => Some("from_u128_r"),
        (Kind::Signed(_), Kind::Float(_, _, _)) => Some("from_i128_r"),
        _ => None,
    }
}

/// Whether the quiet bit of a NaN is set: the one below the lowest bit of an infinity, which is the exponent's, or the
/// integer bit of x87.
fn is_quiet(nan: u128, infinity: u128) -> bool {
    nan << 1 >> infinity.trailing_zeros() & 1 == 1
}

/// The width of a value of a kind in bits.
fn width_of(kind: Kind) -> usize {
    match kind {
        Kind::Float(_, width, _) | Kind::Unsigned(width) | Kind::Signed(width) => width,
        Kind::Truth => 1,
    }
}

/// The text before the last two words of a line, and the two words.
fn last_two_words(line: &str) -> Option<(&str, &str, &str)> {
    let (others, last) = line.rsplit_once(' ')?;
    match others.rsplit_once(' ') {
        Some((others, last_but_one)) => Some((others, last_but_one, last)),
        None => None,
    }
}

/// An integer in decimal digits, if there is one.
fn decimal(number: Option<u128>) -> Option<Text> {
    number.map(shown)
}

/// The integer that bits of this width represent in two's complement, in decimal digits; `None` without bits.
fn signed_decimal(bits: Option<u128>, width: usize) -> Option<Text> {
    let bits = bits?;
    signed(bits, width).map(shown)
}

/// A text, a space and a width.
fn with_width(text: &str, width: usize) -> Option<Text> {
    let mut joined = Text::of("");
    match write!(joined, "{text} {width}") {
        Ok(()) => Some(joined),
        Err(_) => None,
    }
}

/// The integer that bits of this width represent in two's complement.
fn signed(bits: u128, width: usize) -> Option<i128> {
    let mask = mask(width);
    if bits <= mask >> 1 {
        return i128::try_from(bits).ok();
    }
    i128::try_from(mask.wrapping_sub(bits)).ok().map(|below| !below)
}
