//! How times grow with the size of the operands.

use crate::encoding::Encoding;
use crate::erased::formats_at_run_time::{CommandFormat, CommandKind};
use crate::erased::rustc_apfloat::ieee::{Double, DoubleS, IeeeFloat, QuadS, Semantics, X87DoubleExtendedS};
use crate::erased::rustc_apfloat::{Float, Round, StatusAnd};
use crate::generator::Generator;
use crate::kind::measured;
use crate::measure::{Calls, for_each, measured_calls};
use crate::nanoseconds::Nanoseconds;
use crate::numbers::Reads;
use crate::operand_set::OperandSet;
use crate::operation::Operation;
use crate::task::Task;
use std::collections::TryReserveError;
use std::io::{self, Write};

/// Prints the times of reading a text by its length, of a remainder by the difference of the exponents, and of a
/// quotient by the precision.
pub fn print_growth(out: &mut impl Write) -> io::Result<()> {
    print_readings(out)?;
    print_remainders(out)?;
    print_quotients(out)
}

/// Prints a table of the times of reading a text, by the number of its digits.
fn print_readings(out: &mut impl Write) -> io::Result<()> {
    writeln!(out, "| Hexadecimal digits, read as a double | Nanoseconds | For each digit |\n|---|---|---|")?;
    for digits in [1_000, 1_000_000, 100_000_000, 1_000_000_000] {
        let reading = time_of_reading(digits)?;
        writeln!(out, "| {digits} | {reading} | {} |", reading.part(digits as u64))?;
    }
    writeln!(out)
}

/// The time of reading a text with `digits` digits as a double.
fn time_of_reading(digits: usize) -> io::Result<Nanoseconds> {
    let calls = Reads(Round::NearestTiesToEven);
    let known = measured_calls(300, calls, &[long_text(digits)?], Double::zero());
    Ok(Nanoseconds::of_each(known))
}

/// A text with `digits` digits after the point, a multiple of 8.
fn long_text(digits: usize) -> Result<String, TryReserveError> {
    let (start, part) = ("0x1.", "3b9e0d57");
    let mut text = String::new();
    text.try_reserve_exact(start.len() + digits)?;
    text.push_str(start);
    for _ in 0..digits / part.len() {
        text.push_str(part);
    }
    Ok(text)
}

/// Prints a table of the times of remainders, by the difference of the operands' exponents.
fn print_remainders(out: &mut impl Write) -> io::Result<()> {
    writeln!(
        out,
        "| Remainders in | Exponents' difference | c_fmod | For each | ieee_rem | For each |\n|---|---|---|---|---|---|"
    )?;
    for difference in [1, 10, 100, 1000, 2000] {
        print_remainder::<DoubleS>(out, "double", difference)?;
    }
    for difference in [1, 10, 100, 1000, 16_000, 30_000] {
        print_remainder::<QuadS>(out, "quad", difference)?;
    }
    for difference in [1, 10, 100, 1000, 16_000, 30_000] {
        print_remainder::<X87DoubleExtendedS>(out, "x87", difference)?;
    }
    writeln!(out)
}

/// Prints the row of a format and a difference of exponents.
fn print_remainder<S: Semantics>(out: &mut impl Write, name: &str, difference: i32) -> io::Result<()> {
    let steps = u64::from(difference.unsigned_abs());
    let truncated = time_of_remainder::<S>(Operation::TruncatedRemainder, difference);
    let nearest = time_of_remainder::<S>(Operation::NearestRemainder, difference);
    write!(out, "| {name} | {difference} | {truncated} | {} |", truncated.part(steps))?;
    writeln!(out, " {nearest} | {} |", nearest.part(steps))
}

/// The time of a remainder whose operands' exponents differ by `difference`.
fn time_of_remainder<S: Semantics>(operation: Operation, difference: i32) -> Nanoseconds {
    let drawn = apart::<S>(difference);
    let blank = IeeeFloat::<S>::zero();
    let known = measured_calls(300, Remainders(operation), &drawn, blank);
    Nanoseconds::of_each(known)
}

/// Computes the remainder of each pair of operands.
#[derive(Clone, Copy)]
struct Remainders(Operation);

impl<S: Semantics> Calls<[IeeeFloat<S>; 2], IeeeFloat<S>> for Remainders {
    fn make(self, operands: &[[IeeeFloat<S>; 2]], answers: &mut [StatusAnd<IeeeFloat<S>>]) {
        match self.0 {
            Operation::TruncatedRemainder => for_each!(operands, answers, x => x[0].c_fmod(x[1])),
            _ => for_each!(operands, answers, x => x[0].ieee_rem(x[1])),
        }
    }
}

/// Pairs of normal numbers whose exponents differ by `difference`.
fn apart<S: Semantics>(difference: i32) -> Vec<[IeeeFloat<S>; 2]> {
    let encoding = Encoding::of::<S>();
    let mut generator = Generator::new();
    let mut pairs = Vec::new();
    let lower = 0i32.saturating_sub(difference / 2);
    let upper = lower.saturating_add(difference);
    for _ in 0..256 {
        let x = encoding.normal_bits(false, upper, generator.wide_word());
        let y = encoding.normal_bits(false, lower, generator.wide_word());
        pairs.push([IeeeFloat::from_bits(x), IeeeFloat::from_bits(y)]);
    }
    pairs
}

static PRECISIONS: [(CommandFormat, u64); 7] = [
    (CommandFormat::E4M3FN, 4),
    (CommandFormat::BFloat, 8),
    (CommandFormat::Half, 11),
    (CommandFormat::Single, 24),
    (CommandFormat::Double, 53),
    (CommandFormat::X87, 64),
    (CommandFormat::Quad, 113),
];

/// Prints a table of the times of quotients, by the precision.
fn print_quotients(out: &mut impl Write) -> io::Result<()> {
    writeln!(out, "| Quotients in | Precision | Nanoseconds | For each digit |\n|---|---|---|---|")?;
    for (format, precision) in &PRECISIONS {
        print_quotient(out, CommandKind::OfFormat(*format), *precision)?;
    }
    Ok(())
}

/// Prints the row of a type and its precision.
fn print_quotient(out: &mut impl Write, kind: CommandKind, precision: u64) -> io::Result<()> {
    let task =
        Task { operation: Operation::Quotient, set: OperandSet::Normal, mode: Round::NearestTiesToEven, rounds: 300 };
    let Some(known) = measured(kind, task) else {
        return Ok(());
    };
    let quotient = Nanoseconds::of_each(known);
    writeln!(out, "| {} | {precision} | {quotient} | {} |", kind.built_in().word(), quotient.part(precision))
}
