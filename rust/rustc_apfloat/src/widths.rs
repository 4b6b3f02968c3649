//! Conversions to integers at widths that no integer has: 0, more than 128, and 1 where there is a sign.
//!
//! The answers are those of the crate `rustc_apfloat`: in a build without checks for overflow its arithmetic wraps, and
//! has an answer for each value. Where it would overflow, a build with debug assertions panics.

use crate::erased::apfloat_base::Float as _;
use crate::ieee::{IeeeFloat, Semantics};
use crate::status::answered;
use crate::{Float, Round, Status, StatusAnd};

/// `to_i128_r` at any width, by `to_u128_r` of the magnitude.
pub(crate) fn signed<F: Float>(x: F, width: usize, round: Round, is_exact: &mut bool) -> StatusAnd<i128> {
    debug_assert!(width != 0, "no signed integer has a width of 0");
    let below_sign = width.wrapping_sub(1);
    if !x.is_negative() {
        return x.to_u128_r(below_sign, round, is_exact).map(|magnitude| magnitude as i128);
    }
    debug_assert!(width <= 128, "no signed integer has a width of {width}");
    let magnitude = (-x).to_u128_r(width, -round, is_exact);
    if magnitude.value > 1u128.wrapping_shl(below_sign as u32) {
        *is_exact = false;
        return Status::INVALID_OP.and((-1i128).wrapping_shl(below_sign as u32));
    }
    *is_exact &= !x.is_zero();
    magnitude.map(|magnitude| magnitude.wrapping_neg() as i128)
}

/// `to_u128_r` at a width of 0 or of more than 128.
#[cold]
pub(crate) fn unsigned<S: Semantics>(
    x: IeeeFloat<S>,
    width: usize,
    round: Round,
    is_exact: &mut bool,
) -> StatusAnd<u128> {
    // How many digits are before the point.
    let count = if x.is_finite_non_zero() { (x.ilogb() + 1).max(0) as usize } else { 0 };
    let overflows = !x.is_negative() || count <= width && count >= S::PRECISION + 128;
    debug_assert!(!overflows, "no integer has a width of {width}");
    let most = if x.is_negative() { 0 } else { u128::MAX.wrapping_shr(128u32.wrapping_sub(width as u32)) };
    if count <= width {
        *is_exact = true;
        let answer = if count <= 128 {
            answered(x.inner().to_u128_r(128, round, is_exact))
        } else {
            Status::OK.and(x.significand().wrapping_shl((count - S::PRECISION) as u32))
        };
        if answer.value <= most {
            return answer;
        }
    }
    *is_exact = false;
    Status::INVALID_OP.and(most)
}
