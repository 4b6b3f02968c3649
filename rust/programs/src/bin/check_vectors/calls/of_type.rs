//! The calls that every type of values has.

use crate::calls::magnitudes::Magnitudes;
use crate::erased::formats_at_run_time::ValueType;
use crate::erased::rustc_apfloat::{ExpInt, Float, Round, StatusAnd};
use crate::library;
use crate::lines::{
    Answered, AssigningOperator, Call, CallFault, Constant, ExtraField, IntegerCall, OneValueCall, Operand, Property,
    Quanta, Request, Returned, RowAnswer, Text, TextCall, TwoValuesCall, ValueField, WordCall, shown, two_values,
    value_of,
};
use std::fmt::Debug;

/// What a call returns; `text` is its operand if that is a text.
pub fn of_type<F: ValueType + Magnitudes + Debug>(request: Request, text: &str) -> Answered {
    match request.call {
        Call::Constant(constant) => Ok(constant_of::<F>(constant, request.stated)),
        Call::OfOneValue(call) => of_one_value::<F>(call, request),
        Call::HasProperty(property) => has_property::<F>(property, request.operands.first),
        Call::OfTwoValues(call) => of_two_values::<F>(call, request),
        Call::Assigning(operator) => assigned::<F>(operator, request),
        Call::OfValueAndInteger(call) => of_value_and_integer::<F>(call, request),
        Call::OfWord(call) => of_word::<F>(call, request),
        Call::OfText(call) => Ok(of_text::<F>(call, text, request.round, request.stated)),
        Call::OfFormat(_) | Call::OfDecimal(_) | Call::Conversion(_) | Call::Operation(_) => Err(CallFault::Support),
    }
}

/// A constant of the type.
#[inline(never)]
fn constant_of<F: Float + Debug>(constant: Constant, stated: Option<Quanta>) -> RowAnswer {
    let returned = match constant {
        Constant::Bits => Returned::Field(ValueField::Unsigned(F::BITS as u128)),
        Constant::Precision => Returned::Field(ValueField::Unsigned(F::PRECISION as u128)),
        Constant::MaxExp => Returned::Field(ValueField::Signed(i128::from(F::MAX_EXP))),
        Constant::MinExp => Returned::Field(ValueField::Signed(i128::from(F::MIN_EXP))),
        Constant::Multiplies => Returned::Field(ValueField::Truth(library::has_products::<F>())),
        Constant::Zero => Returned::Value(library::zero()),
        Constant::Default => Returned::Value(F::default()),
        Constant::Infinity => Returned::Value(library::infinity()),
        Constant::Nan => Returned::Value(library::nan()),
        Constant::Largest => Returned::Value(F::largest()),
        Constant::Smallest => Returned::Value(library::smallest()),
        Constant::SmallestNormalized => Returned::Value(F::smallest_normalized()),
    };
    RowAnswer::of(returned, stated)
}

/// What a call on one value returns.
#[inline(never)]
fn of_one_value<F: ValueType + Debug>(call: OneValueCall, request: Request) -> Answered {
    let Some(x) = value_of::<F>(request.operands.first) else {
        return Err(CallFault::Operand);
    };
    match returned_of(call, x, request.round) {
        Some(returned) => Ok(RowAnswer::of(returned, request.stated)),
        None => Err(CallFault::Support),
    }
}

/// What a call on one value returns, if the type has the call.
fn returned_of<F: ValueType + Debug>(call: OneValueCall, x: F, round: Round) -> Option<Returned<F>> {
    let mut exponent = 0;
    let returned = match call {
        OneValueCall::RoundToIntegral => Returned::Rounded(x.round_to_integral(round)),
        OneValueCall::Sqrt => Returned::Rounded(x.sqrt()),
        OneValueCall::SqrtR => Returned::Rounded(x.sqrt_r(round)),
        OneValueCall::NextUp => Returned::Rounded(x.next_up()),
        OneValueCall::NextDown => Returned::Rounded(x.next_down()),
        OneValueCall::Neg => Returned::Value(-x),
        OneValueCall::Abs => Returned::Value(x.abs()),
        OneValueCall::ThroughI128 => Returned::Value(F::from_i128(x.to_i128(128).value).value),
        OneValueCall::ExactInverse => Returned::Optional(x.get_exact_inverse()),
        OneValueCall::Frexp => Returned::Fraction(x.frexp(&mut exponent), exponent),
        OneValueCall::FrexpR => Returned::Fraction(x.frexp_r(&mut exponent, round), exponent),
        OneValueCall::Ilogb => Returned::Field(ValueField::Signed(i128::from(x.ilogb()))),
        OneValueCall::ToBits if F::PRECISION >= F::BITS => return None,
        OneValueCall::ToBits => Returned::Field(ValueField::Bits(x.to_bits(), F::BITS)),
        OneValueCall::Category => Returned::Field(ValueField::Text(shown(x.category()))),
        OneValueCall::Debug => Returned::Field(ValueField::Text(shown(x))),
    };
    Some(returned)
}

/// Whether a value has the property.
#[inline(never)]
fn has_property<F: Float>(property: Property, operand: Operand) -> Answered {
    let Some(x) = value_of::<F>(operand) else {
        return Err(CallFault::Operand);
    };
    let holds = match property {
        Property::Normal => x.is_normal(),
        Property::Denormal => x.is_denormal(),
        Property::Integer => x.is_integer(),
        Property::Negative => x.is_negative(),
        Property::Finite => x.is_finite(),
        Property::Infinite => x.is_infinite(),
        Property::Nan => x.is_nan(),
        Property::Signaling => x.is_signaling(),
        Property::Zero => x.is_zero(),
        Property::NonZero => x.is_non_zero(),
        Property::FiniteNonZero => x.is_finite_non_zero(),
        Property::PosZero => x.is_pos_zero(),
        Property::NegZero => x.is_neg_zero(),
        Property::PosInfinity => x.is_pos_infinity(),
        Property::NegInfinity => x.is_neg_infinity(),
        Property::Smallest => x.is_smallest(),
        Property::SmallestNormalized => x.is_smallest_normalized(),
        Property::Largest => x.is_largest(),
    };
    Ok(RowAnswer::told(ValueField::Truth(holds)))
}

/// What a call on two values returns.
#[inline(never)]
fn of_two_values<F: Magnitudes + Debug>(call: TwoValuesCall, request: Request) -> Answered {
    let Some((x, y)) = two_values::<F>(request.operands) else {
        return Err(CallFault::Operand);
    };
    match returned_of_two(call, x, y, request.round) {
        Some(returned) => Ok(RowAnswer::of(returned, request.stated)),
        None => Err(CallFault::Support),
    }
}

/// What a call on two values returns, if the type has the call.
fn returned_of_two<F: Magnitudes>(call: TwoValuesCall, x: F, y: F, round: Round) -> Option<Returned<F>> {
    match call {
        TwoValuesCall::CopySign => Some(Returned::Value(x.copy_sign(y))),
        TwoValuesCall::Min => Some(Returned::Value(x.min(y))),
        TwoValuesCall::Max => Some(Returned::Value(x.max(y))),
        TwoValuesCall::Minimum => Some(Returned::Value(x.minimum(y))),
        TwoValuesCall::Maximum => Some(Returned::Value(x.maximum(y))),
        TwoValuesCall::Eq => Some(Returned::Field(ValueField::Truth(x == y))),
        TwoValuesCall::BitwiseEq => Some(Returned::Field(ValueField::Truth(x.bitwise_eq(y)))),
        TwoValuesCall::PartialCmp => Some(Returned::Field(ValueField::Order(x.partial_cmp(&y)))),
        TwoValuesCall::CmpAbsNormal if !x.is_comparable(y) => None,
        TwoValuesCall::CmpAbsNormal => {
            let order = x.cmp_abs_normal(y);
            Some(Returned::Field(ValueField::Order(Some(order))))
        }
        _ => computed(call, x, y, round).map(Returned::Rounded),
    }
}

/// The result of a rounding call on two values, if the type has the call.
#[inline(never)]
fn computed<F: Float>(call: TwoValuesCall, x: F, y: F, round: Round) -> Option<StatusAnd<F>> {
    match call {
        TwoValuesCall::MulR | TwoValuesCall::Mul if !library::has_products::<F>() => None,
        TwoValuesCall::AddR => Some(x.add_r(y, round)),
        TwoValuesCall::SubR => Some(x.sub_r(y, round)),
        TwoValuesCall::MulR => Some(x.mul_r(y, round)),
        TwoValuesCall::DivR => Some(x.div_r(y, round)),
        TwoValuesCall::IeeeRem => Some(x.ieee_rem(y)),
        TwoValuesCall::CFmod => Some(x.c_fmod(y)),
        TwoValuesCall::Add => Some(x + y),
        TwoValuesCall::Sub => Some(x - y),
        TwoValuesCall::Mul => Some(x * y),
        TwoValuesCall::Div => Some(x / y),
        TwoValuesCall::Rem => Some(x % y),
        _ => None,
    }
}

/// The left operand after an assigning operator.
#[inline(never)]
fn assigned<F: Float + Debug>(operator: AssigningOperator, request: Request) -> Answered {
    let Some((x, y)) = two_values::<F>(request.operands) else {
        return Err(CallFault::Operand);
    };
    let mut value = x;
    match operator {
        AssigningOperator::Add => value += y,
        AssigningOperator::Sub => value -= y,
        AssigningOperator::Mul if !library::has_products::<F>() => return Err(CallFault::Support),
        AssigningOperator::Mul => value *= y,
        AssigningOperator::Div => value /= y,
        AssigningOperator::Rem => value %= y,
    }
    Ok(RowAnswer::of(Returned::Value(value), request.stated))
}

/// What a call on a value and an integer returns.
#[inline(never)]
fn of_value_and_integer<F: Float + Debug>(call: IntegerCall, request: Request) -> Answered {
    let Operand::Integer(integer) = request.operands.second else {
        return Err(CallFault::Operands);
    };
    let Some(x) = value_of::<F>(request.operands.first) else {
        return Err(CallFault::Operand);
    };
    let returned = match call {
        IntegerCall::Scalbn => Some(Returned::Value(x.scalbn(integer))),
        IntegerCall::ScalbnR => Some(Returned::Value(x.scalbn_r(integer, request.round))),
        _ => to_integer(call, x, integer, request.round),
    };
    match returned {
        Some(returned) => Ok(RowAnswer::of(returned, request.stated)),
        None => Err(CallFault::Operands),
    }
}

/// A value as an integer, if the width is a valid one.
fn to_integer<F: Float>(call: IntegerCall, x: F, width: ExpInt, round: Round) -> Option<Returned<F>> {
    let width = usize::try_from(width).ok()?;
    if !(1..=128).contains(&width) {
        return None;
    }
    let mut is_exact = false;
    let answer = match call {
        IntegerCall::ToU128 => x.to_u128(width).map(ValueField::Unsigned),
        IntegerCall::ToU128R => x.to_u128_r(width, round, &mut is_exact).map(ValueField::Unsigned),
        _ if width < 2 => return None,
        IntegerCall::ToI128 => x.to_i128(width).map(ValueField::Signed),
        _ => x.to_i128_r(width, round, &mut is_exact).map(ValueField::Signed),
    };
    let extra = match call {
        IntegerCall::ToU128R | IntegerCall::ToI128R => ExtraField::IsExact(is_exact),
        _ => ExtraField::Nothing,
    };
    Some(Returned::Integer(answer, extra))
}

/// What a call on an integer or a payload returns.
#[inline(never)]
fn of_word<F: Float + Debug>(call: WordCall, request: Request) -> Answered {
    match from_word::<F>(call, request.operands.first, request.round) {
        Some(returned) => Ok(RowAnswer::of(returned, request.stated)),
        None => Err(CallFault::Operands),
    }
}

/// The value of an integer, or a NaN with or without a payload.
fn from_word<F: Float>(call: WordCall, operand: Operand, round: Round) -> Option<Returned<F>> {
    match (call, operand) {
        (WordCall::FromU128, Operand::Unsigned(number)) => Some(Returned::Rounded(F::from_u128(number))),
        (WordCall::FromU128R, Operand::Unsigned(number)) => Some(Returned::Rounded(F::from_u128_r(number, round))),
        (WordCall::FromI128, Operand::Signed(number)) => Some(Returned::Rounded(F::from_i128(number))),
        (WordCall::FromI128R, Operand::Signed(number)) => Some(Returned::Rounded(F::from_i128_r(number, round))),
        (WordCall::Qnan, Operand::Payload(payload)) => Some(Returned::Value(F::qnan(payload))),
        (WordCall::Snan, Operand::Payload(payload)) => Some(Returned::Value(F::snan(payload))),
        _ => None,
    }
}

/// What a call on a text returns.
#[inline(never)]
fn of_text<F: Float + Debug>(call: TextCall, text: &str, round: Round, stated: Option<Quanta>) -> RowAnswer {
    let returned = match call {
        TextCall::FromStr => match text.parse::<F>() {
            Ok(value) => Returned::Value(value),
            Err(error) => Returned::Refused(Text::of(error.0)),
        },
        TextCall::FromStrR => match F::from_str_r(text, round) {
            Ok(answer) => Returned::Rounded(answer),
            Err(error) => Returned::Refused(Text::of(error.0)),
        },
    };
    RowAnswer::of(returned, stated)
}
