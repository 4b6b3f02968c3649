//! What the library calls otherwise than the Rust crate over its text. `tests/rows.rs` of the repository runs rows
//! through that crate by the other modules here, over a module of this name of its own.

use crate::erased::rustc_apfloat::ieee::{Flagged, IeeeFloat};
use crate::erased::rustc_apfloat::{ExpInt, Float, Round, StatusAnd};
use crate::lines::{CallInFormat, Operand, RowFormat, value_of};

pub use crate::erased::apfloat_ieee::AnyFloat;

/// +0.
pub fn zero<F: Float>() -> F {
    F::zero()
}

/// Positive infinity, or the NaN in its place.
pub fn infinity<F: Float>() -> F {
    F::infinity()
}

/// The positive quiet NaN without a payload.
pub fn nan<F: Float>() -> F {
    F::nan()
}

/// The smallest positive value.
pub fn smallest<F: Float>() -> F {
    F::smallest()
}

/// Whether the type has `mul_r`.
pub fn has_products<F: Float>() -> bool {
    F::MULTIPLIES
}

/// A product in a format of any precision.
pub fn wide_product<S: Flagged>(x: IeeeFloat<S>, y: IeeeFloat<S>, round: Round) -> StatusAnd<IeeeFloat<S>> {
    x.wide_mul_r(y, round)
}

/// A product plus a third value, rounded once, in a format of any precision.
pub fn wide_fused_sum<S: Flagged>(
    x: IeeeFloat<S>,
    y: IeeeFloat<S>,
    z: IeeeFloat<S>,
    round: Round,
) -> StatusAnd<IeeeFloat<S>> {
    x.wide_mul_add_r(y, z, round)
}

/// A value times a power of two, with its status.
pub fn times_power<S: Flagged>(x: IeeeFloat<S>, power: ExpInt, round: Round) -> StatusAnd<IeeeFloat<S>> {
    x.scale_b(power, round)
}

/// A remainder, and how many steps long division takes to it.
pub fn remainder_in_steps<S: Flagged>(x: IeeeFloat<S>, y: IeeeFloat<S>) -> (StatusAnd<IeeeFloat<S>>, u32) {
    x.c_fmod_steps(y)
}

/// The value of an operand in a format, with that format.
pub fn any_value(format: RowFormat, operand: Operand) -> Option<AnyFloat> {
    format.run_plain(WithFormat { operand })
}

/// The call that reads an operand.
struct WithFormat {
    operand: Operand,
}

impl CallInFormat for WithFormat {
    type Output = Option<AnyFloat>;

    fn made_in<S: Flagged>(self) -> Option<AnyFloat> {
        value_of::<IeeeFloat<S>>(self.operand).map(|x| x.with_format())
    }
}
