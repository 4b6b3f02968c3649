//! What pairs of doubles have beyond `Float`: conversions to and from formats, fused sums and decimals.

use crate::calls::decimals::columns;
use crate::calls::in_a_format::{rounded_in, value_in};
use crate::calls::of_type::of_type;
use crate::erased::apfloat_digits::of_double_doubles::{read_decimal_pair, shortest_of_pair};
use crate::erased::rustc_apfloat::double_double_operations::{
    pair_from_format, pair_mul_add, pair_mul_add_r, pair_to_format,
};
use crate::erased::rustc_apfloat::ieee::Flagged;
use crate::erased::rustc_apfloat::ppc::DoubleDouble;
use crate::erased::rustc_apfloat::{Round, StatusAnd};
use crate::lines::{
    Answered, Call, CallFault, CallInFormat, ConversionCall, DecimalCall, FormatCall, Operand, Request, Returned,
    RowAnswer, RowFormat, Text, two_values, value_of,
};

/// What a call on pairs returns.
pub(crate) fn in_pairs(request: Request, text: &str) -> Answered {
    match request.call {
        Call::OfDecimal(DecimalCall::Read) => Ok(match read_decimal_pair(text, request.round) {
            Ok(answer) => columns_of(answer),
            Err(error) => RowAnswer::refused(Text::of(error.0)),
        }),
        Call::OfDecimal(DecimalCall::Shortest) => {
            pair_of(request.operands.first).map(|pair| columns(shortest_of_pair(pair)))
        }
        Call::OfFormat(FormatCall::MulAdd) => fused_sum(request, pair_mul_add),
        Call::OfFormat(FormatCall::MulAddR) => fused_sum(request, |x, y, z| pair_mul_add_r(x, y, z, request.round)),
        _ => of_type::<DoubleDouble>(request, text),
    }
}

/// The columns for a pair and a status.
fn columns_of(answer: StatusAnd<DoubleDouble>) -> RowAnswer {
    RowAnswer::of(Returned::Rounded(answer), None)
}

/// An operand that is a pair.
fn pair_of(operand: Operand) -> Result<DoubleDouble, CallFault> {
    value_of(operand).ok_or(CallFault::Operand)
}

/// What a fused sum returns.
fn fused_sum(
    request: Request,
    call: impl Fn(DoubleDouble, DoubleDouble, DoubleDouble) -> StatusAnd<DoubleDouble>,
) -> Answered {
    let Some((x, y)) = two_values(request.operands) else {
        return Err(CallFault::Operand);
    };
    pair_of(request.operands.third).map(|z| columns_of(call(x, y, z)))
}

/// The mode of a conversion.
fn mode_of(request: Request) -> Result<Round, CallFault> {
    match request.call {
        Call::Conversion(ConversionCall::Convert) => Ok(Round::NearestTiesToEven),
        Call::Conversion(ConversionCall::ConvertR) => Ok(request.round),
        _ => Err(CallFault::Support),
    }
}

/// What the conversion of a pair to a format returns.
pub(crate) fn to_format(target: RowFormat, request: Request) -> Answered {
    let (round, pair) = (mode_of(request)?, pair_of(request.operands.first)?);
    target.run(ToFormat { pair, round })
}

/// The conversion of a pair.
struct ToFormat {
    pair: DoubleDouble,
    round: Round,
}

impl CallInFormat for ToFormat {
    type Output = Answered;

    fn made_in<T: Flagged>(self) -> Answered {
        Ok(rounded_in(pair_to_format::<T>(self.pair, self.round), None))
    }
}

/// What the conversion of a value to a pair returns.
pub(crate) fn from_format(source: RowFormat, request: Request) -> Answered {
    let round = mode_of(request)?;
    source.run_plain(FromFormat { operand: request.operands.first, round })
}

/// The conversion of a value to a pair.
struct FromFormat {
    operand: Operand,
    round: Round,
}

impl CallInFormat for FromFormat {
    type Output = Answered;

    fn made_in<S: Flagged>(self) -> Answered {
        match value_in::<S>(self.operand) {
            Some(x) => Ok(columns_of(pair_from_format(x, self.round))),
            None => Err(CallFault::Operand),
        }
    }
}
