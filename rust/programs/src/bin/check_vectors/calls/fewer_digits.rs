//! Operations on values of `x87` whose result has fewer digits, as the precision control of an x87 asks.

use crate::calls::in_a_format::rounded_in;
use crate::calls::in_another::{Operation, delivered, operation_of};
use crate::erased::formats_at_run_time::BuiltInFormat;
use crate::erased::round_to_odd::to_odd;
use crate::erased::rustc_apfloat::ieee::{Flagged, IeeeFloat, X87DoubleExtendedS};
use crate::erased::rustc_apfloat::{Float, FloatConvert, Round, StatusAnd};
use crate::lines::{Answered, CallFault, CallInFormat, FewerDigits, FormatOfCall, Operands, RowFormat};

/// What an operation on values of `x87` returns, as a value of `x87`; without a mode it is rounded to odd.
pub(crate) fn in_fewer_digits(
    target: FewerDigits,
    call: FormatOfCall,
    mode: Option<Round>,
    operands: Operands,
) -> Answered {
    match operation_of(call, RowFormat::plain(BuiltInFormat::X87), operands) {
        Some(operation) => target.run(InFewerDigits { operation, mode }),
        None => Err(CallFault::Operand),
    }
}

/// An operation that delivers in a format of fewer digits than `x87`.
struct InFewerDigits {
    operation: Operation,
    mode: Option<Round>,
}

impl CallInFormat for InFewerDigits {
    type Output = Answered;

    /// The result, converted to `x87` exactly. A NaN is that of the operation in `x87`, with all its digits.
    fn made_in<T: Flagged>(self) -> Answered {
        let answer = rounded::<T>(self.operation, self.mode);
        let value = if answer.value.is_nan() {
            delivered::<X87DoubleExtendedS>(self.operation, Round::TowardZero).value
        } else {
            let mut loses_info = false;
            let wide: StatusAnd<IeeeFloat<X87DoubleExtendedS>> =
                answer.value.convert_r(Round::TowardZero, &mut loses_info);
            wide.value
        };
        Ok(rounded_in(answer.status.and(value), None))
    }
}

/// The result of an operation in the format `T`, rounded in a mode or to odd.
fn rounded<T: Flagged>(operation: Operation, mode: Option<Round>) -> StatusAnd<IeeeFloat<T>> {
    if let Some(round) = mode {
        delivered::<T>(operation, round)
    } else {
        let truncated = delivered::<T>(operation, Round::TowardZero);
        to_odd(truncated, truncated.value.is_negative())
    }
}
