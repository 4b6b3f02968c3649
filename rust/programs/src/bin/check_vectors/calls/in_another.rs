//! Operations on values of one format whose result is of another (5.4.1, formatOf).
//!
//! The operands carry their format with them, so that there is a copy of the code for each target, and not for each
//! pair of formats.

use crate::calls::in_a_format::rounded_in;
use crate::erased::rustc_apfloat::ieee::{Flagged, IeeeFloat};
use crate::erased::rustc_apfloat::{Round, StatusAnd};
use crate::library::{AnyFloat, any_value};
use crate::lines::{Answered, CallFault, CallInFormat, FormatOfCall, Operands, Quanta, Request, RowFormat};

/// What an operation on values of a built-in format returns in another.
pub(crate) fn in_another(source: RowFormat, target: RowFormat, call: FormatOfCall, request: Request) -> Answered {
    if matches!(source, RowFormat::Other(_)) {
        return Err(CallFault::Support);
    }
    match operation_of(call, source, request.operands) {
        Some(operation) => target.run(InTarget { operation, round: request.round, stated: request.stated }),
        None => Err(CallFault::Operand),
    }
}

/// An operation with its operands.
#[derive(Clone, Copy)]
pub(crate) enum Operation {
    Add(AnyFloat, AnyFloat),
    Sub(AnyFloat, AnyFloat),
    Mul(AnyFloat, AnyFloat),
    Div(AnyFloat, AnyFloat),
    Sqrt(AnyFloat),
    MulAdd(AnyFloat, AnyFloat, AnyFloat),
}

/// An operation with its operands, if they are values of the format.
pub(crate) fn operation_of(call: FormatOfCall, format: RowFormat, operands: Operands) -> Option<Operation> {
    let Operands { first, second, third } = operands;
    let x = any_value(format, first)?;
    if let FormatOfCall::Sqrt = call {
        return Some(Operation::Sqrt(x));
    }
    let y = any_value(format, second)?;
    match call {
        FormatOfCall::Add => Some(Operation::Add(x, y)),
        FormatOfCall::Sub => Some(Operation::Sub(x, y)),
        FormatOfCall::Mul => Some(Operation::Mul(x, y)),
        FormatOfCall::Div => Some(Operation::Div(x, y)),
        FormatOfCall::MulAdd => any_value(format, third).map(|z| Operation::MulAdd(x, y, z)),
        FormatOfCall::Sqrt => None,
    }
}

/// An operation that delivers in a format.
struct InTarget {
    operation: Operation,
    round: Round,
    stated: Option<Quanta>,
}

impl CallInFormat for InTarget {
    type Output = Answered;

    fn made_in<T: Flagged>(self) -> Answered {
        let answer = delivered::<T>(self.operation, self.round);
        Ok(rounded_in(answer, self.stated))
    }
}

/// The result of an operation in the format `T`.
#[inline(never)]
pub(crate) fn delivered<T: Flagged>(operation: Operation, round: Round) -> StatusAnd<IeeeFloat<T>> {
    match operation {
        Operation::Add(x, y) => x.add_to::<T>(y, round),
        Operation::Sub(x, y) => x.sub_to::<T>(y, round),
        Operation::Mul(x, y) => x.mul_to::<T>(y, round),
        Operation::Div(x, y) => x.div_to::<T>(y, round),
        Operation::Sqrt(x) => x.sqrt_to::<T>(round),
        Operation::MulAdd(x, y, z) => x.mul_add_to::<T>(y, z, round),
    }
}
