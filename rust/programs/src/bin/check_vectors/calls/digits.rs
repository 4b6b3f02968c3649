//! The decimal and the hexadecimal digits of a value (5.12.2, 5.12.3), in the built-in formats.
//!
//! The value of a row is the digits that are written, and `exponent=` the exponent of ten of the first decimal one.

use crate::calls::in_a_format::{OfValue, of_value};
use crate::erased::apfloat_digits::decimal::{Written, digit_count, write_digits};
use crate::erased::apfloat_digits::hexadecimal::{write_hex, write_hex_rounded};
use crate::erased::rustc_apfloat::ieee::{IeeeFloat, Semantics};
use crate::erased::rustc_apfloat::{ExpInt, Round};
use crate::lines::{
    Answered, CallFault, ExtraField, Operand, OperationCall, Request, RowAnswer, RowFormat, StatusField, Text,
    ValueField,
};
use std::str;

/// What a call on the digits of a value returns in a format, if that is a built-in one with the flags of the built-in
/// formats.
pub(crate) fn digits_in(format: RowFormat, call: OperationCall, request: Request) -> Answered {
    of_value(format, request.operands.first, DigitsIn { call, request })
}

/// A call on the digits of a value.
struct DigitsIn {
    call: OperationCall,
    request: Request,
}

impl OfValue for DigitsIn {
    fn of<S: Semantics>(self, x: IeeeFloat<S>) -> Answered {
        let (operand, round) = (self.request.operands.second, self.request.round);
        match self.call {
            OperationCall::WriteDigits => written(x, asked(operand)?, round),
            OperationCall::DigitCount => Ok(counted(x)),
            OperationCall::WriteHex => written_in_hex(x),
            _ => rounded_in_hex(x, asked(operand)?, round),
        }
    }
}

/// The number of digits that the row asks for.
fn asked<N: TryFrom<ExpInt>>(operand: Operand) -> Result<N, CallFault> {
    match operand {
        Operand::Integer(count) => N::try_from(count).map_err(|_| CallFault::Operands),
        _ => Err(CallFault::Operands),
    }
}

/// How many decimal digits a value has.
#[inline(never)]
fn counted<S: Semantics>(x: IeeeFloat<S>) -> RowAnswer {
    match digit_count(x) {
        Some(count) => RowAnswer::told(ValueField::Unsigned(u128::from(count))),
        None => RowAnswer::told(ValueField::Text(Text::of("None"))),
    }
}

/// So many decimal digits of a value.
#[inline(never)]
fn written<S: Semantics>(x: IeeeFloat<S>, count: usize, round: Round) -> Answered {
    if !(1..=128).contains(&count) {
        return Err(CallFault::Operands);
    }
    let mut digits = [0; 128];
    match write_digits(x, round, &mut digits[..count]) {
        Written::Digits(answer) => Ok(RowAnswer {
            value: spelled(&digits, count),
            status: StatusField::Flags(answer.status),
            extra: ExtraField::Exponent(answer.value),
        }),
        Written::WithoutDigits(_) | Written::NoRoom => Ok(RowAnswer::told(ValueField::Text(Text::of("None")))),
    }
}

/// The hexadecimal digits of a value. A text has at most 45 bytes.
#[inline(never)]
fn written_in_hex<S: Semantics>(x: IeeeFloat<S>) -> Answered {
    let mut text = [0; 64];
    match write_hex(x, &mut text[..]) {
        Ok(length) => Ok(RowAnswer::told(spelled(&text, length))),
        Err(_) => Err(CallFault::Support),
    }
}

/// The hexadecimal digits of a value, rounded to so many after the dot.
#[inline(never)]
fn rounded_in_hex<S: Semantics>(x: IeeeFloat<S>, places: u32, round: Round) -> Answered {
    let mut text = [0; 64];
    match write_hex_rounded(x, places, round, &mut text[..]) {
        Ok(answer) => Ok(RowAnswer {
            value: spelled(&text, answer.value),
            status: StatusField::Flags(answer.status),
            extra: ExtraField::Nothing,
        }),
        Err(_) => Err(CallFault::Operands),
    }
}

/// The first bytes of a text.
fn spelled(text: &[u8], length: usize) -> ValueField {
    let written = &text[..length.min(text.len())];
    ValueField::Text(Text::of(str::from_utf8(written).unwrap_or("")))
}
