//! Rounding to odd: of arithmetic, conversions and integers.

use crate::calls::fewer_digits::in_fewer_digits;
use crate::calls::formats;
use crate::calls::in_a_format::{rounded_in, value_in};
use crate::calls::in_another::in_another;
use crate::erased::formats_at_run_time::{BuiltInFormat, InFlaggedFormat, InFormat};
use crate::erased::round_to_odd::{
    from_i128_odd, from_u128_odd, round_odd_to, round_to_odd_integral, to_i128_odd, to_odd, to_u128_odd,
};
use crate::erased::rustc_apfloat::ieee::{Flagged, HalfS, IeeeFloat, Semantics, SingleS};
use crate::erased::rustc_apfloat::{Float, Round, Status, StatusAnd};
use crate::library::zero;
use crate::lines::{
    Answered, Call, CallFault, ConversionCall, FormatOfCall, Formats, OddCall, Operand, Request, RowAnswer, RowFormat,
    StatusField, ValueField,
};

/// What an operation rounded to odd returns in its formats, of which the target is a built-in one.
pub(crate) fn in_odd(formats: Formats, call: OddCall, request: Request) -> Answered {
    match (formats, call) {
        (Formats::One(format), OddCall::Arithmetic(call)) => arithmetic(format, format, call, request),
        (Formats::Between(source, target), OddCall::Arithmetic(call)) => arithmetic(source, target, call, request),
        (Formats::ToFewerDigits(target), OddCall::Arithmetic(call)) => {
            in_fewer_digits(target, call, None, request.operands)
        }
        (Formats::Between(source, target), OddCall::Convert) => converted(source, target, request),
        (Formats::Between(source, target), OddCall::Again) => again(source, target, request),
        (_, OddCall::Arithmetic(_) | OddCall::Convert | OddCall::Again) => Err(CallFault::Support),
        (Formats::One(RowFormat::BuiltIn(_, format)), _) => format.run(InOdd { call, request }),
        _ => Err(CallFault::Support),
    }
}

/// An operation on values of a format whose result is of another, rounded to odd.
fn arithmetic(source: RowFormat, target: RowFormat, call: FormatOfCall, request: Request) -> Answered {
    let truncated = Request { round: Round::TowardZero, ..request };
    in_another(source, target, call, truncated).and_then(|answer| made_odd(target, answer))
}

/// A conversion between formats, rounded to odd.
fn converted(source: RowFormat, target: RowFormat, request: Request) -> Answered {
    let truncated = Request {
        call: Call::Conversion(ConversionCall::ConvertR),
        round: Round::TowardZero,
        operands: request.operands,
        stated: None,
    };
    formats::answer(Formats::Between(source, target), truncated, "").and_then(|answer| made_odd(target, answer))
}

/// A result that was rounded to odd, rounded again. It is code of its own for each pair of formats, so rows can name
/// few first formats, in which flags make no difference.
fn again(source: RowFormat, target: RowFormat, request: Request) -> Answered {
    match source {
        RowFormat::BuiltIn(BuiltInFormat::Half, _) => again_from::<HalfS>(target, request),
        RowFormat::BuiltIn(BuiltInFormat::Single, _) => again_from::<SingleS>(target, request),
        _ => Err(CallFault::Support),
    }
}

/// The same, from the format `S`.
fn again_from<S: Semantics>(target: RowFormat, request: Request) -> Answered {
    let (Some(x), Operand::Status(status)) = (value_in::<S>(request.operands.first), request.operands.second) else {
        return Err(CallFault::Operand);
    };
    match target {
        RowFormat::BuiltIn(_, format) => format.run(Again { first: status.and(x), round: request.round }),
        RowFormat::Other(_) => Err(CallFault::Support),
    }
}

/// A result that was rounded to odd.
struct Again<S: Semantics> {
    first: StatusAnd<IeeeFloat<S>>,
    round: Round,
}

impl<S: Semantics> InFlaggedFormat for Again<S> {
    type Output = Answered;

    fn in_flagged_format<T: Flagged>(self) -> Answered {
        Ok(rounded_in(round_odd_to::<S, T>(self.first, self.round), None))
    }
}

/// An answer toward zero in a built-in format, rounded to odd.
fn made_odd(target: RowFormat, truncated: RowAnswer) -> Answered {
    match (target, truncated.value, truncated.status) {
        (RowFormat::BuiltIn(format, _), ValueField::Bits(bits, _), StatusField::Flags(status)) => {
            format.run(MadeOdd { bits, status })
        }
        _ => Err(CallFault::Support),
    }
}

/// An answer toward zero, which is rounded to odd. Neither depends on the rule of flags, so it is taken in the format
/// without one.
struct MadeOdd {
    bits: u128,
    status: Status,
}

impl InFormat for MadeOdd {
    type Output = Answered;

    /// Only in a format with -0: in another, a result that is truncated to zero loses its sign.
    fn in_format<S: Semantics>(self) -> Answered {
        if !(-zero::<IeeeFloat<S>>()).is_negative() {
            return Err(CallFault::Support);
        }
        let truncated = IeeeFloat::<S>::from_bits(self.bits);
        let answer = to_odd(self.status.and(truncated), truncated.is_negative());
        Ok(rounded_in(answer, None))
    }
}

/// An operation on an integer, or on a value as an integer, rounded to odd.
struct InOdd {
    call: OddCall,
    request: Request,
}

impl InFlaggedFormat for InOdd {
    type Output = Answered;

    fn in_flagged_format<S: Flagged>(self) -> Answered {
        let operand = self.request.operands.first;
        match self.call {
            OddCall::FromU128 | OddCall::FromI128 => from_integer::<S>(operand),
            OddCall::RoundToIntegral => integral::<S>(operand),
            _ => to_integer::<S>(self.call, operand, self.request.operands.second),
        }
    }
}

/// An integer as a value.
#[inline(never)]
fn from_integer<S: Flagged>(operand: Operand) -> Answered {
    match operand {
        Operand::Unsigned(number) => Ok(rounded_in(from_u128_odd::<S>(number), None)),
        Operand::Signed(number) => Ok(rounded_in(from_i128_odd::<S>(number), None)),
        _ => Err(CallFault::Operands),
    }
}

/// A value as an integral value.
#[inline(never)]
fn integral<S: Flagged>(operand: Operand) -> Answered {
    match value_in::<S>(operand) {
        Some(x) => Ok(rounded_in(round_to_odd_integral(x), None)),
        None => Err(CallFault::Operand),
    }
}

/// A value as an integer.
#[inline(never)]
fn to_integer<S: Flagged>(call: OddCall, operand: Operand, width: Operand) -> Answered {
    let Operand::Integer(width) = width else {
        return Err(CallFault::Operands);
    };
    let Ok(width) = usize::try_from(width) else {
        return Err(CallFault::Operands);
    };
    let Some(x) = value_in::<S>(operand) else {
        return Err(CallFault::Operand);
    };
    if !(1..=128).contains(&width) {
        return Err(CallFault::Operands);
    }
    match call {
        OddCall::ToU128 => Ok(unsigned(x, width)),
        _ if width < 2 => Err(CallFault::Operands),
        _ => Ok(signed(x, width)),
    }
}

/// A value as an unsigned integer of this width.
fn unsigned<S: Flagged>(x: IeeeFloat<S>, width: usize) -> RowAnswer {
    let answer = to_u128_odd(x, width);
    RowAnswer::flagged(answer.status.and(ValueField::Unsigned(answer.value)))
}

/// A value as a signed integer of this width.
fn signed<S: Flagged>(x: IeeeFloat<S>, width: usize) -> RowAnswer {
    let answer = to_i128_odd(x, width);
    RowAnswer::flagged(answer.status.and(ValueField::Signed(answer.value)))
}
