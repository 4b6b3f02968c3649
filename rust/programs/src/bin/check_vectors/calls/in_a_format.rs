//! Operands of a format, and results in it.
//!
//! `value_of` and `RowAnswer::of` serve every type of values. Each use of these at the type of a format is dear to
//! compile, so there is one here, in functions that are not inlined.

use crate::erased::formats_at_run_time::{FlaggedFormat, InFormat};
use crate::erased::rustc_apfloat::StatusAnd;
use crate::erased::rustc_apfloat::ieee::{Flagged, IeeeFloat, Semantics};
use crate::lines::{Answered, CallFault, Operand, Operands, Quanta, Returned, RowAnswer, RowFormat, value_of};

/// The value of an operand in the format `S`.
#[inline(never)]
pub(crate) fn value_in<S: Flagged>(operand: Operand) -> Option<IeeeFloat<S>> {
    value_of(operand)
}

/// The values of the first two operands in the format `S`.
pub(crate) fn two_values_in<S: Flagged>(operands: Operands) -> Option<(IeeeFloat<S>, IeeeFloat<S>)> {
    match (value_in(operands.first), value_in(operands.second)) {
        (Some(x), Some(y)) => Some((x, y)),
        _ => None,
    }
}

/// The columns for a value and its flags; `stated` is the value in the row, if it is one of a format without bits.
#[inline(never)]
pub(crate) fn rounded_in<S: Flagged>(answer: StatusAnd<IeeeFloat<S>>, stated: Option<Quanta>) -> RowAnswer {
    RowAnswer::of(Returned::Rounded(answer), stated)
}

/// A call on a value of a built-in format, with the flags of the built-in formats.
pub(crate) trait OfValue {
    /// What it returns for `x`.
    fn of<S: Semantics>(self, x: IeeeFloat<S>) -> Answered;
}

/// What a call on the value of an operand returns in a format, if that is a built-in one with the flags of these.
pub(crate) fn of_value(format: RowFormat, operand: Operand, call: impl OfValue) -> Answered {
    match format {
        RowFormat::BuiltIn(format, FlaggedFormat::BuiltIn(_)) => format.run(OnOperand { operand, call }),
        _ => Err(CallFault::Support),
    }
}

/// A call on the value of an operand.
struct OnOperand<C> {
    operand: Operand,
    call: C,
}

impl<C: OfValue> InFormat for OnOperand<C> {
    type Output = Answered;

    fn in_format<S: Semantics>(self) -> Answered {
        match value_in::<S>(self.operand) {
            Some(x) => self.call.of(x),
            None => Err(CallFault::Operand),
        }
    }
}
