//! The calls of rows in their formats, including those that only some types have.

use crate::calls::decimals::in_decimals;
use crate::calls::in_a_format::{rounded_in, two_values_in, value_in};
use crate::calls::of_type::of_type;
use crate::calls::pairs;
use crate::erased::rustc_apfloat::ieee::{Flagged, IeeeFloat};
use crate::erased::rustc_apfloat::ppc::{DoubleDouble, FallbackS};
use crate::erased::rustc_apfloat::{FUSED_LIMIT, Float, Round, StatusAnd};
use crate::library::{AnyFloat, any_value, remainder_in_steps, wide_fused_sum, wide_product};
use crate::lines::{
    Answered, Call, CallFault, CallInFormat, ConversionCall, ExtraField, FormatCall, Formats, Operands, Quanta,
    Request, Returned, RowAnswer, RowFormat, value_of,
};
use std::fmt::Debug;

/// What a call returns in its formats; `text` is its operand if that is a text.
pub(crate) fn answer(formats: Formats, request: Request, text: &str) -> Answered {
    match formats {
        Formats::Pairs => pairs::in_pairs(request, text),
        Formats::PairsTo(target) => pairs::to_format(target, request),
        Formats::PairsFrom(source) => pairs::from_format(source, request),
        Formats::One(format) => in_one_format(format, request, text),
        Formats::FromPairs => from::<DoubleDouble, IeeeFloat<FallbackS>>(request),
        Formats::ToPairs => from::<IeeeFloat<FallbackS>, DoubleDouble>(request),
        Formats::Between(source, target) => between(source, target, request),
        Formats::OnMachine(_)
        | Formats::BetweenOnMachine(_, _)
        | Formats::ToFewerDigits(_)
        | Formats::ToStorage(_, _)
        | Formats::FromStorage(_, _)
        | Formats::BetweenStorage(_, _)
        | Formats::Storage(_)
        | Formats::OfFlags => Err(CallFault::Support),
    }
}

/// What a call returns in one format.
fn in_one_format(format: RowFormat, request: Request, text: &str) -> Answered {
    match request.call {
        Call::OfDecimal(call) => in_decimals(format, call, request, text),
        _ => format.run(InOneFormat { request, text }),
    }
}

/// What a conversion returns. To a format with the flags of IEEE 754, only values of built-in formats are converted.
fn between(source: RowFormat, target: RowFormat, request: Request) -> Answered {
    if matches!(source, RowFormat::Other(_)) && !target.is_plain() {
        return Err(CallFault::Support);
    }
    let round = match request.call {
        Call::Conversion(ConversionCall::Convert) => Round::NearestTiesToEven,
        Call::Conversion(ConversionCall::ConvertR) => request.round,
        _ => return Err(CallFault::Support),
    };
    match any_value(source, request.operands.first) {
        Some(x) => target.run(Conversion { x, round, stated: request.stated }),
        None => Err(CallFault::Operand),
    }
}

/// A call in one format.
struct InOneFormat<'a> {
    request: Request,
    text: &'a str,
}

impl CallInFormat for InOneFormat<'_> {
    type Output = Answered;

    fn made_in<S: Flagged>(self) -> Answered {
        of_format::<S>(self.request, self.text)
    }
}

/// A conversion of a value, whose format is known only at run time: a conversion between two types would be code of
/// its own for each pair of formats.
struct Conversion {
    x: AnyFloat,
    round: Round,
    stated: Option<Quanta>,
}

impl CallInFormat for Conversion {
    type Output = Answered;

    fn made_in<T: Flagged>(self) -> Answered {
        let mut loses_info = false;
        let answer = self.x.convert_to::<T>(self.round, &mut loses_info);
        let columns = rounded_in(answer, self.stated);
        Ok(columns.with(ExtraField::LosesInfo(loses_info)))
    }
}

/// What a call returns in a format.
fn of_format<S: Flagged>(request: Request, text: &str) -> Answered {
    match request.call {
        Call::OfFormat(call) => of_format_alone::<S>(call, request),
        _ => of_type::<IeeeFloat<S>>(request, text),
    }
}

/// What a call that only formats have returns.
fn of_format_alone<S: Flagged>(call: FormatCall, request: Request) -> Answered {
    match call {
        FormatCall::CFmodSteps => remainder_steps::<S>(request),
        _ => rounded_once::<S>(call, request).map(|answer| rounded_in(answer, request.stated)),
    }
}

/// What a product or a fused sum returns.
#[inline(never)]
fn rounded_once<S: Flagged>(call: FormatCall, request: Request) -> Result<StatusAnd<IeeeFloat<S>>, CallFault> {
    let Request { operands, round, .. } = request;
    match call {
        FormatCall::WideMulR => product(operands, round),
        FormatCall::WideMulAddR => sum_of_product(operands, round),
        FormatCall::MulAdd => fused_sum(operands, None),
        FormatCall::MulAddR => fused_sum(operands, Some(round)),
        FormatCall::CFmodSteps => Err(CallFault::Support),
    }
}

/// A result with its status, or a fault of the row.
type RoundedIn<S> = Result<StatusAnd<IeeeFloat<S>>, CallFault>;

/// A product in a format of any precision.
fn product<S: Flagged>(operands: Operands, round: Round) -> RoundedIn<S> {
    match two_values_in::<S>(operands) {
        Some((x, y)) => Ok(wide_product(x, y, round)),
        None => Err(CallFault::Operand),
    }
}

/// A product plus a third value, rounded once, in a format of any precision.
fn sum_of_product<S: Flagged>(operands: Operands, round: Round) -> RoundedIn<S> {
    match (two_values_in::<S>(operands), value_in(operands.third)) {
        (Some((x, y)), Some(z)) => Ok(wide_fused_sum(x, y, z, round)),
        _ => Err(CallFault::Operand),
    }
}

/// A product plus a third value, rounded once, in the mode if there is one.
fn fused_sum<S: Flagged>(operands: Operands, mode: Option<Round>) -> RoundedIn<S> {
    if S::PRECISION > FUSED_LIMIT {
        return Err(CallFault::Support);
    }
    match (two_values_in::<S>(operands), value_in(operands.third), mode) {
        (Some((x, y)), Some(z), None) => Ok(x.mul_add(y, z)),
        (Some((x, y)), Some(z), Some(round)) => Ok(x.mul_add_r(y, z, round)),
        _ => Err(CallFault::Operand),
    }
}

/// A remainder, with the steps that it takes and their bound.
#[inline(never)]
fn remainder_steps<S: Flagged>(request: Request) -> Answered {
    let Some((x, y)) = two_values_in::<S>(request.operands) else {
        return Err(CallFault::Operand);
    };
    let (answer, taken) = remainder_in_steps(x, y);
    let bound = x.ilogb().saturating_sub(y.ilogb()).saturating_add(1).max(0);
    let columns = rounded_in(answer, request.stated);
    Ok(columns.with(ExtraField::Steps(taken, bound)))
}

/// A pair as a wide value, or a wide value as a pair.
fn from<F: Float + Debug, T: Float + Debug + From<F>>(request: Request) -> Answered {
    if !matches!(request.call, Call::Conversion(ConversionCall::From)) {
        return Err(CallFault::Support);
    }
    match value_of::<F>(request.operands.first) {
        Some(x) => Ok(RowAnswer::of(Returned::Value(T::from(x)), request.stated)),
        None => Err(CallFault::Operand),
    }
}
