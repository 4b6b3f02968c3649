//! Comparisons of values of two formats (5.6.1, 5.11).
//!
//! `compare_between` is code of its own for each pair of formats, so rows can name a few pairs alone: of narrow and
//! wide formats, with more exponents or more digits on either side, and of those without infinities.

use crate::calls::in_a_format::value_in;
use crate::erased::formats_at_run_time::BuiltInFormat;
use crate::erased::ieee_operations::{OnNan, Predicate, compare_between};
use crate::erased::rustc_apfloat::ieee::{
    BFloatS, DoubleS, Flagged, Float8E4M3FNS, Float8E4M3FNUZS, HalfS, QuadS, SingleS, X87DoubleExtendedS,
};
use crate::lines::{Answered, CallFault, Operands, RowAnswer, RowFormat, ValueField};

/// What a comparison of values of two formats returns.
pub(crate) fn compared_between(
    left: RowFormat,
    right: RowFormat,
    predicate: Predicate,
    on_nan: OnNan,
    operands: Operands,
) -> Answered {
    let comparison = Comparison { predicate, on_nan, operands };
    let (RowFormat::BuiltIn(left, _), RowFormat::BuiltIn(right, _)) = (left, right) else {
        return Err(CallFault::Support);
    };
    match (left, right) {
        (BuiltInFormat::Half, BuiltInFormat::Single) => comparison.of::<HalfS, SingleS>(),
        (BuiltInFormat::Single, BuiltInFormat::Half) => comparison.of::<SingleS, HalfS>(),
        (BuiltInFormat::BFloat, BuiltInFormat::Half) => comparison.of::<BFloatS, HalfS>(),
        (BuiltInFormat::Double, BuiltInFormat::X87) => comparison.of::<DoubleS, X87DoubleExtendedS>(),
        (BuiltInFormat::X87, BuiltInFormat::Quad) => comparison.of::<X87DoubleExtendedS, QuadS>(),
        (BuiltInFormat::Quad, BuiltInFormat::Double) => comparison.of::<QuadS, DoubleS>(),
        (BuiltInFormat::E4M3FN, BuiltInFormat::Half) => comparison.of::<Float8E4M3FNS, HalfS>(),
        (BuiltInFormat::Half, BuiltInFormat::E4M3FNUZ) => comparison.of::<HalfS, Float8E4M3FNUZS>(),
        _ => Err(CallFault::Support),
    }
}

/// A comparison, with its operands.
#[derive(Clone, Copy)]
struct Comparison {
    predicate: Predicate,
    on_nan: OnNan,
    operands: Operands,
}

impl Comparison {
    /// What it returns for a value of `S` and a value of `T`.
    #[inline(never)]
    fn of<S: Flagged, T: Flagged>(self) -> Answered {
        match (value_in::<S>(self.operands.first), value_in::<T>(self.operands.second)) {
            (Some(x), Some(y)) => {
                let answer = compare_between(self.predicate, self.on_nan, x, y);
                Ok(RowAnswer::flagged(answer.status.and(ValueField::Truth(answer.value))))
            }
            _ => Err(CallFault::Operand),
        }
    }
}
