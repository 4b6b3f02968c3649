//! Whether two magnitudes can be compared.

use crate::erased::rustc_apfloat::Float;
use crate::erased::rustc_apfloat::ieee::{Double, Flagged, IeeeFloat};
use crate::erased::rustc_apfloat::ppc::DoubleDouble;
use std::cmp::Ordering;

/// A type with a test for the precondition of `cmp_abs_normal`.
pub trait Magnitudes: Float {
    /// Whether the magnitudes can be compared.
    fn is_comparable(self, rhs: Self) -> bool;
}

impl<S: Flagged> Magnitudes for IeeeFloat<S> {
    /// Whether both are nonzero numbers.
    fn is_comparable(self, rhs: Self) -> bool {
        self.is_finite_non_zero() && rhs.is_finite_non_zero()
    }
}

impl Magnitudes for DoubleDouble {
    /// Whether the high parts are nonzero numbers, and the low parts too if the magnitudes of the high ones are equal.
    fn is_comparable(self, rhs: Self) -> bool {
        let (a, aa) = parts_of(self);
        let (c, cc) = parts_of(rhs);
        if !a.is_finite_non_zero() || !c.is_finite_non_zero() {
            return false;
        }
        a.cmp_abs_normal(c) != Ordering::Equal || (aa.is_finite_non_zero() && cc.is_finite_non_zero())
    }
}

/// The high and the low part.
fn parts_of(x: DoubleDouble) -> (Double, Double) {
    let bits = x.to_bits();
    (Double::from_bits(bits), Double::from_bits(bits >> 64))
}
