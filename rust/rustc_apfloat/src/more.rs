//! Calls that the crate `rustc_apfloat` lacks, as traits. None is in scope until it is imported by its name, so a trait
//! of yours with a method of the same name is called as with that crate.
//!
//! ```
//! use rustc_apfloat::ieee::{Double, HalfS};
//! use rustc_apfloat::more::{FloatMore, IeeeMore};
//! use rustc_apfloat::{Float, Round, Status};
//!
//! let two = Double::from_u128(2).value;
//! assert_eq!(two.sqrt().value.shortest().unwrap().to_string(), "1.4142135623730951");
//! assert_eq!(two.sqrt_to::<HalfS>(Round::TowardPositive).map(Float::to_bits), Status::INEXACT.and(0x3da9));
//! ```

use crate::ieee::{IeeeFloat, Semantics};
use crate::{Decimal, ExpInt, Float, Round, StatusAnd};

/// Calls of values of formats and of pairs of doubles.
pub trait FloatMore: Float {
    /// The square root, rounded once. Of a pair, it is the root in the wide format of 106 digits, split. The sum of the
    /// parts is first rounded to nearest there, as in every call that is made in the wide format: the root of
    /// 1 + 2^-200 is 1 in every mode, with OK.
    fn sqrt_r(self, round: Round) -> StatusAnd<Self>;

    /// `sqrt_r`, to nearest, ties to even.
    #[inline]
    fn sqrt(self) -> StatusAnd<Self> {
        self.sqrt_r(Round::NearestTiesToEven)
    }

    /// The shortest decimal that gives the value when it is rounded to nearest, ties to even, and of those the nearest;
    /// infinities and NaNs have none. It does not compile in a format of more digits or farther exponents than `Quad`.
    ///
    /// Of a pair, it is the shortest that `from_str` reads as the pair. A pair has none that no decimal is read as,
    /// since it is not the split of a value of 106 digits.
    fn shortest(self) -> Option<Decimal>;
}

/// Calls of values of formats.
pub trait IeeeMore: FloatMore {
    /// The decimal that equals the value, if its digits are below 2^128; infinities and NaNs have none.
    fn exact_decimal(self) -> Option<Decimal>;

    /// The value rounded to `count` decimal digits, and whether that is the value itself; infinities and NaNs have
    /// none. It does not compile in a format of farther exponents than `Quad`.
    ///
    /// # Panics
    ///
    /// Unless the count is from 1 to 36.
    fn rounded_decimal(self, count: u32, round: Round) -> Option<(Decimal, bool)>;

    /// The value times 2 to the power of `places`, rounded once, with exactly the flags of that rounding (IEEE 754-2019
    /// 5.3.3, scaleB); a NaN is quieted, with `INVALID_OP` if it was signaling. The value is that of `scalbn_r`, which
    /// returns no status.
    fn scale_b(self, places: ExpInt, round: Round) -> StatusAnd<Self>;

    /// The remainder that `c_fmod` returns, and how many ones there are among the binary digits of the quotient
    /// truncated toward zero: the subtractions that long division takes to find it. The time grows with that number, as
    /// that of `c_fmod` does not.
    fn c_fmod_steps(self, rhs: Self) -> (StatusAnd<Self>, u32);

    /// `self + rhs` in the format `T`, rounded once (IEEE 754-2019 5.4.1, formatOf-addition).
    fn add_to<T: Semantics>(self, rhs: Self, round: Round) -> StatusAnd<IeeeFloat<T>>;

    /// `self - rhs` in the format `T`, rounded once (formatOf-subtraction), as `add_to`.
    fn sub_to<T: Semantics>(self, rhs: Self, round: Round) -> StatusAnd<IeeeFloat<T>>;

    /// `self * rhs` in the format `T`, rounded once (formatOf-multiplication), as `add_to`.
    fn mul_to<T: Semantics>(self, rhs: Self, round: Round) -> StatusAnd<IeeeFloat<T>>;

    /// `self / rhs` in the format `T`, rounded once (formatOf-division), as `add_to`.
    fn div_to<T: Semantics>(self, rhs: Self, round: Round) -> StatusAnd<IeeeFloat<T>>;

    /// The square root in the format `T`, rounded once (formatOf-squareRoot), as `add_to`.
    fn sqrt_to<T: Semantics>(self, round: Round) -> StatusAnd<IeeeFloat<T>>;

    /// `self * multiplicand + addend` in the format `T`, rounded once (formatOf-fusedMultiplyAdd), as `add_to`.
    fn mul_add_to<T: Semantics>(self, multiplicand: Self, addend: Self, round: Round) -> StatusAnd<IeeeFloat<T>>;
}

/// Calls of pairs of doubles.
pub trait PairMore: FloatMore {
    /// The exact sum of the parts in the format `S`, rounded once. A high part that is zero, infinite or a NaN is
    /// converted alone.
    fn to_format<S: Semantics>(self, round: Round) -> StatusAnd<IeeeFloat<S>>;

    /// A value of the format `S`, rounded once to 106 digits, and split.
    fn from_format<S: Semantics>(x: IeeeFloat<S>, round: Round) -> StatusAnd<Self>;
}
