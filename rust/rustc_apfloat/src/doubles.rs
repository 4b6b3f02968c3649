//! Types whose values are doubles, by whatever name: pairs of them are the library's.

use crate::erased::apfloat_base::{self, Float as _};
use crate::ieee::Double;
use crate::ppc::DoubleFloat;
use crate::status::answered;
use crate::{Float, StatusAnd};

/// The library's pair.
pub(crate) type Inner = crate::erased::rustc_apfloat::double_doubles::DoubleDouble;

/// How the values of `F` are doubles.
pub struct AsDouble<F> {
    pub(crate) to: fn(F) -> Double,
    pub(crate) of: fn(Double) -> F,
}

impl AsDouble<Double> {
    pub(crate) const ITSELF: Self = AsDouble { to: |x| x, of: |x| x };
}

impl<F: Float> AsDouble<F> {
    #[inline]
    pub(crate) fn inner(&self, pair: DoubleFloat<F>) -> Inner {
        let (high, low) = pair.parts();
        Inner::from_bits((self.to)(high).to_bits() | (self.to)(low).to_bits() << 64)
    }

    /// The pair that is the library's.
    #[inline]
    pub(crate) fn pair(&self, inner: Inner) -> DoubleFloat<F> {
        let bits = inner.to_bits();
        DoubleFloat::of((self.of)(Double::from_bits(bits)), (self.of)(Double::from_bits(bits >> 64)))
    }

    /// The library's answer with that pair.
    #[inline]
    pub(crate) fn answer(&self, answer: apfloat_base::StatusAnd<Inner>) -> StatusAnd<DoubleFloat<F>> {
        answered(answer).map(|inner| self.pair(inner))
    }

    /// That pair, if there is one.
    #[inline]
    pub(crate) fn option(&self, inner: Option<Inner>) -> Option<DoubleFloat<F>> {
        inner.map(|inner| self.pair(inner))
    }

    /// What is not a pair.
    #[inline]
    pub(crate) fn plain<T>(&self, value: T) -> T {
        value
    }
}
