//! Writes an explanation, in lines of at most 80 columns.

use crate::erased::apfloat_machines::{FusedOrder, Machine, NanChoice};
use crate::erased::formats_at_run_time::Arithmetic;
use crate::erased::rustc_apfloat::{Flags, Round, Status};
use crate::explanation::{
    Between, Exact, Explanation, Meaning, NanSource, Operand, Place, Reading, Shown, Side, Widths,
};
use crate::grid::{Element, Grid};
use crate::question::{Operation, Question};
use std::io;
use std::io::Write;

/// The width of the drawn line between two neighbours, without its first column.
const WAY: u32 = 64;

/// Writes an explanation.
pub fn write_explanation(
    question: Question,
    explanation: &Explanation,
    in_colour: bool,
    out: &mut impl Write,
) -> io::Result<()> {
    let widths = explanation.widths;
    if let Operation::Value = question.operation {
        return write_operand(widths, question.format_word, &explanation.operands[0], out);
    }
    write_question(question, out)?;
    write_operands(widths, question.operation.operand_count(), explanation, out)?;
    if let Some(grid) = explanation.grid {
        write_grid(grid, out)?;
        return write_flags(grid.status, in_colour, out);
    }
    write_place(widths, question.round, &explanation.place, in_colour, out)?;
    if let (Some((machine, _)), Some(source)) = (question.machine, explanation.nan_source) {
        write_nan_source(machine, question.operation, source, out)?;
    }
    write_shown(widths, "result", &explanation.result, out)?;
    write_flags(explanation.status, in_colour, out)
}

/// Writes the operation, its format, its rounding mode, and the machine if there is one.
fn write_question(question: Question, out: &mut impl Write) -> io::Result<()> {
    let (format, operation) = (question.format_word, name_of(question.operation));
    write!(out, "{format} {operation}, {}", rule_of(question.round))?;
    match question.machine {
        Some((_, name)) => writeln!(out, ", on {name}\n"),
        None => writeln!(out, "\n"),
    }
}

/// Writes the operands.
fn write_operands(widths: Widths, count: usize, explanation: &Explanation, out: &mut impl Write) -> io::Result<()> {
    write_operand(widths, "A", &explanation.operands[0], out)?;
    if count > 1 {
        write_operand(widths, "B", &explanation.operands[1], out)?;
    }
    if count > 2 {
        write_operand(widths, "C", &explanation.operands[2], out)?;
    }
    writeln!(out)
}

/// Writes an operand: its value, and how its word was read.
fn write_operand(widths: Widths, name: &str, operand: &Operand, out: &mut impl Write) -> io::Result<()> {
    write_shown(widths, name, &operand.value, out)?;
    write_reading(operand, out)
}

/// Writes how the word of an operand was read.
pub fn write_reading(operand: &Operand, out: &mut impl Write) -> io::Result<()> {
    match operand.reading {
        Reading::Only => {}
        Reading::Bits => writeln!(out, "        read as bits; a number has a dot or ends in d")?,
        Reading::Number => writeln!(out, "        read as a number; bits may begin with 0x")?,
    }
    if operand.is_rounded {
        writeln!(out, "        the nearest value to what was given")?;
    }
    Ok(())
}

/// The name of an operation.
pub fn name_of(operation: Operation) -> &'static str {
    match operation {
        Operation::Value => "value",
        Operation::OfTwo(Arithmetic::Sum) => "sum A + B",
        Operation::OfTwo(Arithmetic::Difference) => "difference A - B",
        Operation::OfTwo(Arithmetic::Product) => "product A * B",
        Operation::OfTwo(Arithmetic::Quotient) => "quotient A / B",
        Operation::OfTwo(Arithmetic::NearestRemainder) => "remainder of A by B (nearest)",
        Operation::OfTwo(Arithmetic::TruncatedRemainder) => "remainder of A by B (cut)",
        Operation::FusedSum => "fused sum A * B + C",
        Operation::SquareRoot => "square root of A",
        Operation::Into(Element::E2M1FN) => "A in e2m1fn",
        Operation::Into(Element::E2M3FN) => "A in e2m3fn",
        Operation::Into(Element::E3M2FN) => "A in e3m2fn",
    }
}

/// The rule of a rounding mode.
pub fn rule_of(round: Round) -> &'static str {
    match round {
        Round::NearestTiesToEven => "to nearest, ties to even",
        Round::TowardPositive => "toward positive",
        Round::TowardNegative => "toward negative",
        Round::TowardZero => "toward zero",
        Round::NearestTiesToAway => "to nearest, ties away from zero",
    }
}

/// Writes a value: its bits and its shortest decimal, its fields, and what it is exactly.
fn write_shown(widths: Widths, name: &str, shown: &Shown, out: &mut impl Write) -> io::Result<()> {
    write_head(widths, name, shown, out)?;
    write!(out, "        ")?;
    write_fields(widths, shown.bits, out)?;
    write!(out, "\n        ")?;
    write_meaning(shown, out)?;
    writeln!(out)
}

/// Writes the bits of a value and its shortest decimal, on separate lines if there are 128 bits.
fn write_head(widths: Widths, name: &str, shown: &Shown, out: &mut impl Write) -> io::Result<()> {
    write!(out, "{name:<7} ")?;
    write_digits(shown.bits, widths.bits.div_ceil(4), 4, out)?;
    out.write_all(if widths.bits > 80 { b"\n        " } else { b" = " })?;
    write_decimal(shown, out)?;
    writeln!(out)
}

/// Writes the shortest decimal of a number, or the word for another value.
pub fn write_decimal(shown: &Shown, out: &mut impl Write) -> io::Result<()> {
    match shown.decimal {
        Some(decimal) => write!(out, "{decimal}"),
        None => write!(out, "{}{}", sign_of(shown), word_of(shown.meaning)),
    }
}

/// `-` if the value is negative, otherwise nothing.
fn sign_of(shown: &Shown) -> &'static str {
    if shown.negative { "-" } else { "" }
}

/// The word for a value that is not a number.
fn word_of(meaning: Meaning) -> &'static str {
    match meaning {
        Meaning::Infinity => "infinity",
        Meaning::SignalingNan => "signaling NaN",
        _ => "NaN",
    }
}

/// Writes the lowest `count` digits of a number, in base 2 or 16.
pub fn write_digits(number: u128, count: u32, width: u32, out: &mut impl Write) -> io::Result<()> {
    for place in 0..count {
        let below = (count - 1 - place).saturating_mul(width);
        let digit = number.checked_shr(below).unwrap_or(0) % (1 << width.min(4));
        write!(out, "{digit:x}")?;
    }
    Ok(())
}

/// Writes the fields of an encoding: the sign and the biased exponent in binary digits, and the digits of the
/// significand, in hexadecimal if they are more than 52.
fn write_fields(widths: Widths, bits: u128, out: &mut impl Write) -> io::Result<()> {
    let rest = widths.bits.saturating_sub(1).saturating_sub(widths.exponent);
    write_digits(bits.checked_shr(widths.bits.saturating_sub(1)).unwrap_or(0), 1, 1, out)?;
    write!(out, " ")?;
    write_digits(bits.checked_shr(rest).unwrap_or(0), widths.exponent, 1, out)?;
    write!(out, " ")?;
    if rest <= 52 { write_digits(bits, rest, 1, out) } else { write_digits(bits, rest / 4, 4, out) }
}

/// Writes what a value is exactly.
pub fn write_meaning(shown: &Shown, out: &mut impl Write) -> io::Result<()> {
    let sign = sign_of(shown);
    match shown.meaning {
        Meaning::Zero => write!(out, "{sign}0"),
        Meaning::Number(significand, exponent) => {
            let kind = if shown.is_denormal { ", denormal" } else { "" };
            write!(out, "{sign}{significand} * 2^{exponent}{kind}")
        }
        Meaning::Infinity => write!(out, "{sign}infinity"),
        Meaning::QuietNan => write!(out, "not a number"),
        Meaning::SignalingNan => write!(out, "not a number, which raises INVALID_OP"),
    }
}

/// Writes where the NaN of a machine's result comes from.
fn write_nan_source(machine: Machine, operation: Operation, source: NanSource, out: &mut impl Write) -> io::Result<()> {
    match source {
        NanSource::NoNan => writeln!(out, "No operand is a NaN: the result is the default NaN.\n"),
        NanSource::InvalidProduct => writeln!(out, "An infinity times a zero: the default NaN takes the place of C.\n"),
        NanSource::Operands => {
            write!(out, "{}", choice_of(machine.nan_choice))?;
            match operation {
                Operation::FusedSum => writeln!(out, " Order: {}.\n", order_of(machine)),
                _ => writeln!(out, "\n"),
            }
        }
    }
}

/// The rule by which a NaN is chosen.
fn choice_of(choice: NanChoice) -> &'static str {
    match choice {
        NanChoice::First => "The first NaN is taken, quieted.",
        NanChoice::SignalingFirst => "The first signaling NaN is taken, else the first NaN, quieted.",
        NanChoice::SignalingLast => "The last signaling NaN is taken, else the last NaN, quieted.",
        NanChoice::Greater => {
            "The quiet one of two NaNs is taken, else the greater, else the positive one.\n\
             Bits that the unit does not take give the default NaN."
        }
        NanChoice::AlwaysDefault => "A result that is a NaN is the default NaN.",
    }
}

/// The order in which the operands of a fused sum are looked at.
fn order_of(machine: Machine) -> &'static str {
    match machine.fused_order {
        FusedOrder::FactorsFirst => "A, B, C",
        FusedOrder::AddendFirst => "C, A, B",
        FusedOrder::AddendSecond => "A, C, B",
    }
}

/// Writes where the exact result is.
fn write_place(widths: Widths, round: Round, place: &Place, in_colour: bool, out: &mut impl Write) -> io::Result<()> {
    match place {
        Place::None => Ok(()),
        Place::Exact => writeln!(out, "The exact result is a value of the format.\n"),
        Place::Beyond(exact) => {
            write_exact(exact, out)?;
            writeln!(out, "The exact result is beyond the largest value.\n")
        }
        Place::Between(between) => {
            write_exact(&between.exact, out)?;
            writeln!(out, "The exact result lies between two neighbours:\n")?;
            write_way(widths, between, in_colour, out)?;
            write_pick(round, between, out)
        }
    }
}

/// Writes an exact result, or its first binary digits if it has more than 125.
pub fn write_exact(exact: &Exact, out: &mut impl Write) -> io::Result<()> {
    let sign = if exact.negative { "-" } else { "" };
    let more = if exact.is_cut { "a little more than " } else { "" };
    match exact.digits {
        Meaning::Number(significand, exponent) => {
            writeln!(out, "exact   {more}{sign}{significand} * 2^{exponent}\n")
        }
        _ => Ok(()),
    }
}

/// Draws the line from one neighbour to the next.
fn write_way(widths: Widths, between: &Between, in_colour: bool, out: &mut impl Write) -> io::Result<()> {
    let (start, end) = if in_colour { ("\x1b[1;32m", "\x1b[0m") } else { ("", "") };
    let parts = between.parts.min(WAY) as usize;
    write_head(widths, "lower", &between.lower, out)?;
    writeln!(out, "        |---------------|---------------|---------------|---------------|")?;
    writeln!(out, "        {:parts$}{start}^{end}", "")?;
    write_head(widths, "upper", &between.upper, out)?;
    writeln!(out)
}

/// Writes the numbers of a storage format with the sign of the result, in order, and where A is among them.
fn write_grid(grid: Grid, out: &mut impl Write) -> io::Result<()> {
    let count = grid.element.count();
    let last = count.saturating_sub(1);
    let negative = grid.taken >= count;
    if negative && grid.is_beyond() {
        write_between(out)?;
    }
    for place in 0..count {
        let index = if negative { last.saturating_sub(place) } else { place };
        let code = if negative { index.saturating_add(count) } else { index };
        write_point(grid, code, index, negative, out)?;
        if code == grid.lower && code != grid.upper {
            write_between(out)?;
        }
    }
    if !negative && grid.is_beyond() {
        write_between(out)?;
    }
    writeln!(out)
}

/// Writes that A is between two numbers, or past the last one.
fn write_between(out: &mut impl Write) -> io::Result<()> {
    writeln!(out, "        ----------- A")
}

/// Ten-thousandths without zeros at the end, and with how many digits they are written.
fn without_zeros(fraction: u32) -> (u32, usize) {
    if fraction % 1000 == 0 {
        (fraction / 1000, 1)
    } else if fraction % 100 == 0 {
        (fraction / 100, 2)
    } else if fraction % 10 == 0 {
        (fraction / 10, 3)
    } else {
        (fraction, 4)
    }
}

/// Writes a number of a storage format, exactly, and whether it is the result.
fn write_point(grid: Grid, code: u8, index: u8, negative: bool, out: &mut impl Write) -> io::Result<()> {
    let label = if code == grid.taken { "result" } else { "" };
    let sign = if negative { "-" } else { "" };
    let sixteenths = grid.element.sixteenths(index);
    let whole = sixteenths / 16;
    let (fraction, width) = without_zeros((sixteenths % 16) * 625);
    writeln!(out, "{label:<7} {code:02x} = {sign}{whole}.{fraction:0width$}")
}

/// Writes which neighbour is the result, and why.
pub fn write_pick(round: Round, between: &Between, out: &mut impl Write) -> io::Result<()> {
    let place = match between.side {
        Side::Lower => "below the middle",
        Side::Middle => "exactly in the middle",
        Side::Upper => "above the middle",
    };
    let taken = if between.takes_upper { "upper" } else { "lower" };
    let reason = reason_of(round, between.side);
    writeln!(out, "It is {place}.\n{reason} the {taken} one.\n")
}

/// Why a neighbour is picked.
fn reason_of(round: Round, side: Side) -> &'static str {
    match (round, side) {
        (Round::NearestTiesToEven, Side::Middle) => "Ties go to the neighbour with an even last digit,",
        (Round::NearestTiesToAway, Side::Middle) => "Ties go to the neighbour of greater magnitude,",
        (Round::NearestTiesToEven | Round::NearestTiesToAway, _) => "The nearer one is taken,",
        (Round::TowardPositive, _) => "The mode takes the upper neighbour,",
        (Round::TowardNegative, _) => "The mode takes the lower neighbour,",
        (Round::TowardZero, _) => "The mode takes the neighbour nearer to zero,",
    }
}

/// Writes the flags, each with the clause of IEEE 754-2019 that defines it.
pub fn write_flags(status: Status, in_colour: bool, out: &mut impl Write) -> io::Result<()> {
    if status.is_empty() {
        return writeln!(out, "flags   none");
    }
    let mut label: &[u8] = b"flags   ";
    for flag in Status::flags() {
        if status.intersects(*flag.value()) {
            out.write_all(label)?;
            write_flag(flag.name(), *flag.value(), in_colour, out)?;
            label = b"        ";
        }
    }
    Ok(())
}

/// Writes the name of a flag and its clause.
fn write_flag(name: &str, flag: Status, in_colour: bool, out: &mut impl Write) -> io::Result<()> {
    let (start, end) = if in_colour { ("\x1b[1;33m", "\x1b[0m") } else { ("", "") };
    writeln!(out, "{start}{name}{end}: {}", clause_of(flag))
}

/// The clause that defines a flag, and what it says.
fn clause_of(flag: Status) -> &'static str {
    if flag.intersects(Status::INVALID_OP) {
        "no number results, or an operand is a signaling NaN (7.2)"
    } else if flag.intersects(Status::DIV_BY_ZERO) {
        "a nonzero number divided by zero (7.3)"
    } else if flag.intersects(Status::OVERFLOW) {
        "rounded, the result is past the largest value (7.4)"
    } else if flag.intersects(Status::UNDERFLOW) {
        "inexact, and below the smallest normal number (7.5)"
    } else {
        "the result is not the exact one (7.6)"
    }
}
