//! Calls as machines answer them: with their NaNs, their integers and their rule of tininess, and with tiny results
//! flushed to zero where the row asks for that.
//!
//! The answer of the same call in the format with the machine's rule of tininess is settled. That does not depend on
//! the rule, so it is done in the format without one: there are seven copies of the code, and none of arithmetic.

use crate::calls::formats;
use crate::calls::in_a_format::{rounded_in, two_values_in, value_in};
use crate::calls::in_one::in_format;
use crate::erased::apfloat_machines::{
    Flush, Machine, MinimumRule, default_nan, flushed, greatest, least, settled, settled_conversion, settled_fused,
    settled_signed, settled_unary, settled_unsigned,
};
use crate::erased::formats_at_run_time::{BuiltInFormat, InFormat};
use crate::erased::rustc_apfloat::ieee::{Flagged, IeeeFloat, Semantics};
use crate::erased::rustc_apfloat::{Float, Status, StatusAnd};
use crate::library::zero;
use crate::lines::{
    Answered, Call, CallFault, CallInFormat, ConversionCall, FormatCall, Formats, GeneralCall, IntegerCall,
    MachineFormat, OneValueCall, Operand, Operands, OperationCall, Request, RowAnswer, RowFormat, StatusField,
    TwoValuesCall, ValueField,
};

/// What a call returns in the formats of a machine.
pub fn answer(formats: Formats, request: Request) -> Answered {
    match formats {
        Formats::OnMachine(target) => on_machine(target, request),
        Formats::BetweenOnMachine(source, target) => between_on_machine(source, target, request),
        _ => Err(CallFault::Support),
    }
}

/// What a call returns in a format on a machine.
fn on_machine(target: MachineFormat, request: Request) -> Answered {
    if let Call::Operation(OperationCall::OnMachine(rule, is_least)) = request.call {
        return target.run_plain(OfRule { rule, is_least, machine: target.machine, operands: request.operands });
    }
    plain_answer(target, request).and_then(|plain| target.run_plain(Settled { target, request, plain }))
}

/// The answer of a call in the format with the machine's rule of tininess, if machines have the call.
fn plain_answer(target: MachineFormat, request: Request) -> Answered {
    match request.call {
        Call::Operation(call) => integral_answer(target, call, request),
        Call::OfTwoValues(
            TwoValuesCall::AddR
            | TwoValuesCall::SubR
            | TwoValuesCall::MulR
            | TwoValuesCall::DivR
            | TwoValuesCall::IeeeRem
            | TwoValuesCall::CFmod,
        )
        | Call::OfFormat(FormatCall::WideMulR | FormatCall::WideMulAddR | FormatCall::MulAddR)
        | Call::OfOneValue(OneValueCall::SqrtR | OneValueCall::RoundToIntegral)
        | Call::OfValueAndInteger(IntegerCall::ToU128R | IntegerCall::ToI128R) => {
            formats::answer(Formats::One(target.with_flags()), request, "")
        }
        _ => Err(CallFault::Support),
    }
}

/// The same of rounding to an integral value without INEXACT.
fn integral_answer(target: MachineFormat, call: OperationCall, request: Request) -> Answered {
    match call {
        OperationCall::OfOne(GeneralCall::RoundToIntegralIn) => in_format(target.with_flags(), call, request),
        _ => Err(CallFault::Support),
    }
}

/// The answer of a call, which the machine settles.
struct Settled {
    target: MachineFormat,
    request: Request,
    plain: RowAnswer,
}

impl CallInFormat for Settled {
    type Output = Answered;

    fn made_in<S: Flagged>(self) -> Answered {
        let StatusField::Flags(status) = self.plain.status else {
            return Err(CallFault::Support);
        };
        match self.plain.value {
            ValueField::Bits(bits, _) => settled_value::<S>(self.target, self.request.operands, bits, status),
            ValueField::Unsigned(number) => {
                unsigned::<S>(self.target.machine, self.request.operands, status.and(number))
            }
            ValueField::Signed(number) => signed::<S>(self.target.machine, self.request.operands, status.and(number)),
            _ => Err(CallFault::Support),
        }
    }
}

/// A result with these bits, first flushed if tiny results are, as the machine settles it.
#[inline(never)]
fn settled_value<S: Flagged>(target: MachineFormat, operands: Operands, bits: u128, status: Status) -> Answered {
    if S::PRECISION >= S::BITS {
        return Err(CallFault::Support);
    }
    let plain = flushed_if(target.flush, status.and(IeeeFloat::<S>::from_bits(bits)));
    settled_answer(target.machine, operands, plain)
}

/// The answer with a tiny result flushed, if tiny results are.
fn flushed_if<S: Flagged>(flush: Option<Flush>, answer: StatusAnd<IeeeFloat<S>>) -> StatusAnd<IeeeFloat<S>> {
    match flush {
        Some(flush) => flushed(flush, answer),
        None => answer,
    }
}

/// An answer on one, two or three values, as the machine settles it.
fn settled_answer<S: Flagged>(machine: Machine, operands: Operands, plain: StatusAnd<IeeeFloat<S>>) -> Answered {
    let Some(x) = value_in::<S>(operands.first) else {
        return Err(CallFault::Operand);
    };
    let Some(y) = value_in::<S>(operands.second) else {
        return Ok(rounded_in(settled_unary(machine, x, plain), None));
    };
    let Some(z) = value_in::<S>(operands.third) else {
        return Ok(rounded_in(settled(machine, x, y, plain), None));
    };
    match settled_fused(machine, x, y, z, plain) {
        Some(answer) => Ok(rounded_in(answer, None)),
        None => Err(CallFault::Support),
    }
}

/// The width of an integer, if it is one of integers.
fn width_of(operand: Operand) -> Option<usize> {
    match operand {
        Operand::Integer(width) => usize::try_from(width).ok(),
        _ => None,
    }
}

/// An unsigned integer, as the machine settles it, if it has conversions to those.
#[inline(never)]
fn unsigned<S: Flagged>(machine: Machine, operands: Operands, plain: StatusAnd<u128>) -> Answered {
    let (Some(x), Some(width)) = (value_in::<S>(operands.first), width_of(operands.second)) else {
        return Err(CallFault::Operand);
    };
    if !(1..=128).contains(&width) {
        return Err(CallFault::Operands);
    }
    match settled_unsigned(machine, x, width, plain) {
        Some(answer) => Ok(RowAnswer::flagged(answer.status.and(ValueField::Unsigned(answer.value)))),
        None => Err(CallFault::Support),
    }
}

/// A signed integer, as the machine settles it.
#[inline(never)]
fn signed<S: Flagged>(machine: Machine, operands: Operands, plain: StatusAnd<i128>) -> Answered {
    let (Some(x), Some(width)) = (value_in::<S>(operands.first), width_of(operands.second)) else {
        return Err(CallFault::Operand);
    };
    if !(2..=128).contains(&width) {
        return Err(CallFault::Operands);
    }
    let answer = settled_signed(machine, x, width, plain);
    Ok(RowAnswer::flagged(answer.status.and(ValueField::Signed(answer.value))))
}

/// A minimum or a maximum by a rule.
struct OfRule {
    rule: MinimumRule,
    is_least: bool,
    machine: Machine,
    operands: Operands,
}

impl CallInFormat for OfRule {
    type Output = Answered;

    #[inline(never)]
    fn made_in<S: Flagged>(self) -> Answered {
        if S::PRECISION >= S::BITS {
            return Err(CallFault::Support);
        }
        let Some((x, y)) = two_values_in::<S>(self.operands) else {
            return Err(CallFault::Operand);
        };
        if self.is_least {
            Ok(rounded_in(least(self.rule, self.machine, x, y), None))
        } else {
            Ok(rounded_in(greatest(self.rule, self.machine, x, y), None))
        }
    }
}

/// What a conversion from a format to another on a machine returns.
fn between_on_machine(source: BuiltInFormat, target: MachineFormat, request: Request) -> Answered {
    if !matches!(request.call, Call::Conversion(ConversionCall::ConvertR)) {
        return Err(CallFault::Support);
    }
    let formats = Formats::Between(RowFormat::plain(source), target.with_flags());
    match formats::answer(formats, request, "") {
        Ok(plain) => target.run_plain(SettledConversion {
            target,
            plain,
            is_lost: source.run(IsLost { machine: target.machine, operand: request.operands.first }),
        }),
        Err(fault) => Err(fault),
    }
}

/// Whether a value is a NaN that the machine does not keep when it converts it, whatever the target.
struct IsLost {
    machine: Machine,
    operand: Operand,
}

impl InFormat for IsLost {
    type Output = bool;

    /// The answer that is settled is a zero, so that a NaN is the machine's.
    fn in_format<S: Semantics>(self) -> bool {
        match value_in::<S>(self.operand) {
            Some(x) => {
                let zero = Status::OK.and(zero::<IeeeFloat<S>>());
                settled_conversion(self.machine, x, zero).value.is_nan()
            }
            None => false,
        }
    }
}

/// The answer of a conversion, and whether it is the machine's default NaN instead.
struct SettledConversion {
    target: MachineFormat,
    plain: RowAnswer,
    is_lost: bool,
}

impl CallInFormat for SettledConversion {
    type Output = Answered;

    #[inline(never)]
    fn made_in<T: Flagged>(self) -> Answered {
        let (ValueField::Bits(bits, _), StatusField::Flags(status)) = (self.plain.value, self.plain.status) else {
            return Err(CallFault::Support);
        };
        if self.is_lost {
            return Ok(rounded_in(status.and(default_nan::<T>(self.target.machine)), None));
        }
        if T::PRECISION >= T::BITS {
            return Err(CallFault::Support);
        }
        let plain = status.and(IeeeFloat::<T>::from_bits(bits));
        Ok(rounded_in(flushed_if(self.target.flush, plain), None))
    }
}
