//! Operations in one format.

use crate::calls::in_a_format::{rounded_in, two_values_in, value_in};
use crate::erased::ieee_operations::{
    Extremum, class_of, compare, convert_to_signed, convert_to_signed_exact, convert_to_unsigned,
    convert_to_unsigned_exact, extremum_number_of, extremum_of, integer_log_b, is_canonical, is_canonical_encoding,
    log_b, radix, round_to_integral_in, total_cmp, total_order, total_order_mag,
};
use crate::erased::rustc_apfloat::ieee::{Flagged, IeeeFloat};
use crate::erased::rustc_apfloat::{Round, StatusAnd};
use crate::library::times_power;
use crate::lines::{
    Answered, CallFault, CallInFormat, GeneralCall, Operand, OperationCall, OrderCall, Request, RowAnswer, RowFormat,
    ToIntegerCall, ValueField, mask, shown,
};

/// What an operation returns in a format.
pub(crate) fn in_format(format: RowFormat, call: OperationCall, request: Request) -> Answered {
    format.run(InOne { call, request })
}

/// An operation in one format.
struct InOne {
    call: OperationCall,
    request: Request,
}

impl CallInFormat for InOne {
    type Output = Answered;

    fn made_in<S: Flagged>(self) -> Answered {
        operated::<S>(self.call, self.request)
    }
}

/// What an operation returns in the format `S`.
fn operated<S: Flagged>(call: OperationCall, request: Request) -> Answered {
    match call {
        OperationCall::OfOne(GeneralCall::IsCanonicalEncoding) => of_encoding::<S>(request.operands.first),
        OperationCall::OfOne(call) => of_one::<S>(call, request),
        OperationCall::ScaleB => scaled::<S>(request),
        OperationCall::ToInteger(call) => to_integer::<S>(call, request),
        OperationCall::Comparison(_, _) | OperationCall::Order(_) | OperationCall::Extremum(_, _) => {
            of_two::<S>(call, request)
        }
        _ => Err(CallFault::Support),
    }
}

/// What an operation on two values returns.
#[inline(never)]
fn of_two<S: Flagged>(call: OperationCall, request: Request) -> Answered {
    let Some((x, y)) = two_values_in::<S>(request.operands) else {
        return Err(CallFault::Operand);
    };
    match call {
        OperationCall::Comparison(predicate, on_nan) => {
            let answer = compare(predicate, on_nan, x, y);
            Ok(RowAnswer::flagged(answer.status.and(ValueField::Truth(answer.value))))
        }
        OperationCall::Extremum(which, prefers_number) => {
            Ok(rounded_in(extremum(which, prefers_number, x, y), request.stated))
        }
        OperationCall::Order(call) => in_total_order(call, x, y),
        _ => Err(CallFault::Support),
    }
}

/// A minimum or a maximum.
fn extremum<S: Flagged>(
    which: Extremum,
    prefers_number: bool,
    x: IeeeFloat<S>,
    y: IeeeFloat<S>,
) -> StatusAnd<IeeeFloat<S>> {
    if prefers_number { extremum_number_of(which, x, y) } else { extremum_of(which, x, y) }
}

/// The place of two values in the total order, in a format with bits.
fn in_total_order<S: Flagged>(call: OrderCall, x: IeeeFloat<S>, y: IeeeFloat<S>) -> Answered {
    if S::PRECISION >= S::BITS {
        return Err(CallFault::Support);
    }
    let value = match call {
        OrderCall::TotalOrder => ValueField::Truth(total_order(x, y)),
        OrderCall::TotalOrderMag => ValueField::Truth(total_order_mag(x, y)),
        OrderCall::TotalCmp => ValueField::Order(Some(total_cmp(x, y))),
    };
    Ok(RowAnswer::told(value))
}

/// What an operation on one value returns.
#[inline(never)]
fn of_one<S: Flagged>(call: GeneralCall, request: Request) -> Answered {
    let Some(x) = value_in::<S>(request.operands.first) else {
        return Err(CallFault::Operand);
    };
    match call {
        GeneralCall::LogB => Ok(rounded_in(log_b(x, request.round), request.stated)),
        GeneralCall::RoundToIntegralIn => Ok(rounded_in(round_to_integral_in(x, request.round), request.stated)),
        GeneralCall::IntegerLogB => {
            let answer = integer_log_b(x);
            let value = ValueField::Signed(i128::from(answer.value));
            Ok(RowAnswer::flagged(answer.status.and(value)))
        }
        GeneralCall::Class => Ok(RowAnswer::told(ValueField::Text(shown(class_of(x))))),
        GeneralCall::Radix => Ok(RowAnswer::told(ValueField::Unsigned(u128::from(radix(x))))),
        GeneralCall::IsCanonical => Ok(RowAnswer::told(ValueField::Truth(is_canonical(x)))),
        GeneralCall::IsCanonicalEncoding => Err(CallFault::Support),
    }
}

/// Whether bits are a canonical encoding, in a format with bits.
fn of_encoding<S: Flagged>(operand: Operand) -> Answered {
    match operand {
        Operand::Bits(bits) if S::PRECISION < S::BITS && bits <= mask(S::BITS) => {
            Ok(RowAnswer::told(ValueField::Truth(is_canonical_encoding::<S>(bits))))
        }
        _ => Err(CallFault::Operand),
    }
}

/// A value times a power of two.
#[inline(never)]
fn scaled<S: Flagged>(request: Request) -> Answered {
    let Operand::Integer(power) = request.operands.second else {
        return Err(CallFault::Operands);
    };
    match value_in::<S>(request.operands.first) {
        Some(x) => Ok(rounded_in(times_power(x, power, request.round), request.stated)),
        None => Err(CallFault::Operand),
    }
}

/// A value as an integer.
#[inline(never)]
fn to_integer<S: Flagged>(call: ToIntegerCall, request: Request) -> Answered {
    let Operand::Integer(width) = request.operands.second else {
        return Err(CallFault::Operands);
    };
    let Ok(width) = usize::try_from(width) else {
        return Err(CallFault::Operands);
    };
    let Some(x) = value_in::<S>(request.operands.first) else {
        return Err(CallFault::Operand);
    };
    if !(1..=128).contains(&width) {
        return Err(CallFault::Operands);
    }
    match call {
        ToIntegerCall::Unsigned | ToIntegerCall::UnsignedExact => {
            Ok(RowAnswer::flagged(unsigned(call, x, width, request.round)))
        }
        _ if width < 2 => Err(CallFault::Operands),
        _ => Ok(RowAnswer::flagged(signed(call, x, width, request.round))),
    }
}

/// A value as an unsigned integer of this width.
fn unsigned<S: Flagged>(call: ToIntegerCall, x: IeeeFloat<S>, width: usize, round: Round) -> StatusAnd<ValueField> {
    let answer = match call {
        ToIntegerCall::UnsignedExact => convert_to_unsigned_exact(x, width, round),
        _ => convert_to_unsigned(x, width, round),
    };
    answer.status.and(ValueField::Unsigned(answer.value))
}

/// A value as a signed integer of this width.
fn signed<S: Flagged>(call: ToIntegerCall, x: IeeeFloat<S>, width: usize, round: Round) -> StatusAnd<ValueField> {
    let answer = match call {
        ToIntegerCall::SignedExact => convert_to_signed_exact(x, width, round),
        _ => convert_to_signed(x, width, round),
    };
    answer.status.and(ValueField::Signed(answer.value))
}
