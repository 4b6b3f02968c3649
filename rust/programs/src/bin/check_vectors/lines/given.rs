//! What the library returns for a line of another program, as numbers.

use crate::erased::rustc_apfloat::{Flags, Status};
use crate::lines::answer::{StatusField, ValueField};
use crate::lines::asked::Asked;
use crate::lines::columns::{Columns, LineCall};

/// What a call returns, if it exists; a call without a status raises no flag.
pub fn given(call: &LineCall) -> Option<Columns> {
    let (format, operands) = (call.format.as_str(), call.operands.as_str());
    let asked = Asked::of(call.name, format, call.mode, operands, "-").ok()?;
    let answer = asked.answer().ok()?;
    let flags = match answer.status {
        StatusField::Flags(status) => bits_of_status(status),
        StatusField::Nothing => 0,
        StatusField::Refused => return None,
    };
    Some(Columns { result: bits_of_field(answer.value)?, flags })
}

/// A result as bits.
fn bits_of_field(field: ValueField) -> Option<u128> {
    match field {
        ValueField::Bits(bits, _) => Some(bits),
        ValueField::Unsigned(number) => Some(number),
        ValueField::Signed(number) => Some(bits_of_signed(number)),
        ValueField::Truth(holds) => Some(u128::from(holds)),
        _ => None,
    }
}

/// The bits of an integer in two's complement.
fn bits_of_signed(number: i128) -> u128 {
    if number < 0 { 0_u128.wrapping_sub(number.unsigned_abs()) } else { number.unsigned_abs() }
}

/// The flags as a number.
fn bits_of_status(status: Status) -> u128 {
    let mut bits = 0;
    for (flag, bit) in [
        (Status::INEXACT, 1),
        (Status::UNDERFLOW, 2),
        (Status::OVERFLOW, 4),
        (Status::DIV_BY_ZERO, 8),
        (Status::INVALID_OP, 16),
    ] {
        if status.contains(flag) {
            bits |= bit;
        }
    }
    bits
}
