//! Values of the formats of IEEE P3109, 3 to 15 bits wide, which are stored and converted. `docs/FORMATS.md` of the
//! repository says what becomes of each value; the crate `rustc_apfloat` has none of these.
//!
//! ```
//! use rustc_apfloat::Round;
//! use rustc_apfloat::ieee::Single;
//! use rustc_apfloat::p3109::{Binary8P4, Projected};
//!
//! let mut loses_info = false;
//! let x: Single = "-300".parse().unwrap();
//! let code = Projected::<Binary8P4>::from_value(x, Round::TowardZero, &mut loses_info);
//! assert_eq!((code.value.to_bits(), loses_info), (0xfe, true));
//! assert_eq!(code.value.convert_r(Round::TowardZero, &mut loses_info).value, "-224".parse::<Single>().unwrap());
//! ```

use crate::conversion_modes::{ConversionRound, RandomDigits};
use crate::erased::p3109_formats as library;
use crate::ieee::{FlaggedS, IeeeFloat, Semantics};
use crate::status::answered;
use crate::{Category, Round, StatusAnd};
use core::cmp::Ordering;
use core::fmt;
use core::marker::PhantomData;

pub use library::{Binary8P1UF, Binary8P3, Binary8P4, Binary8P5, Saturation};

/// How a number is rounded into a format of P3109.
///
/// A random number takes it to the neighbour away from zero, if that number and the parts by which the value is past
/// the other neighbour are together at least 2^digits. The distance of the neighbours has 2^digits parts. The three
/// ways differ in what a broken part counts.
#[derive(Clone, Copy, Debug)]
pub enum ProjectionRound {
    /// A mode of conversions. With random digits it is StochasticA: a broken part counts nothing.
    By(ConversionRound),
    /// Parts are rounded to nearest, ties up: the random number has a half added to it.
    StochasticB(RandomDigits),
    /// Parts are rounded to nearest, ties to even.
    StochasticC(RandomDigits),
}

/// How a conversion into a format of P3109 rounds and saturates.
#[derive(Clone, Copy, Debug)]
pub struct ProjectionRule {
    /// How a number is rounded.
    pub round: ProjectionRound,
    /// What becomes of what is past the largest number.
    pub saturation: Saturation,
}

impl ProjectionRule {
    fn given(self) -> library::ProjectionRule {
        let round = match self.round {
            ProjectionRound::By(mode) => library::ProjectionRound::By(mode.given()),
            ProjectionRound::StochasticB(bits) => library::ProjectionRound::StochasticB(bits.given()),
            ProjectionRound::StochasticC(bits) => library::ProjectionRound::StochasticC(bits.given()),
        };
        library::ProjectionRule { round, saturation: self.saturation }
    }
}

/// A format of IEEE P3109. It has one zero and one NaN. The bits of a code are, from the top, the sign if there is one,
/// the biased exponent, and `PRECISION - 1` bits of the significand; 1 is in the middle of the codes without a sign.
///
/// A format whose constants break the rules does not compile.
///
/// ```compile_fail
/// use rustc_apfloat::p3109::{Projected, Projection};
///
/// struct WithoutExponent;
/// impl Projection for WithoutExponent {
///     const BITS: usize = 4;
///     const PRECISION: usize = 4;
///     const SIGNED: bool = true;
///     const EXTENDED: bool = false;
/// }
/// assert_eq!(Projected::<WithoutExponent>::from_bits(1).to_bits(), 1);
/// ```
pub trait Projection: Sized {
    /// The width of a code in bits, 3 to 15.
    const BITS: usize;

    /// The number of binary digits in a significand, at least 1, including the implied integer bit. At least one bit is
    /// left for the exponent.
    const PRECISION: usize;

    /// Whether there is a sign. Then the NaN is the code that would be -0; otherwise it is the last code.
    const SIGNED: bool;

    /// Whether there are infinities: the last code, of each sign, that is no NaN.
    const EXTENDED: bool;
}

library_formats! {
    Projection { BITS: usize, PRECISION: usize, SIGNED: bool, EXTENDED: bool }:
    Binary8P3 Binary8P4 Binary8P5 Binary8P1UF
}

/// The format `F` as the library knows these formats.
struct LawfulP<F>(PhantomData<F>);

copied! { LawfulP<F> }

impl<F: Projection> library::Projection for LawfulP<F> {
    const BITS: usize = {
        assert!(F::BITS >= 3 && F::BITS <= 15, "BITS is from 3 to 15");
        assert!(F::PRECISION >= 1, "PRECISION is at least 1");
        assert!(F::PRECISION + F::SIGNED as usize <= F::BITS, "a bit is left for the exponent");
        F::BITS
    };
    const PRECISION: usize = F::PRECISION;
    const SIGNED: bool = F::SIGNED;
    const EXTENDED: bool = F::EXTENDED;
}

/// A value of the format `F`.
#[must_use]
pub struct Projected<F: Projection>(library::Projected<LawfulP<F>>);

copied! { Projected<F: Projection> }

impl<F: Projection> Projected<F> {
    /// The value with the code that the lowest `BITS` bits of `bits` are.
    #[inline]
    pub fn from_bits(bits: u16) -> Self {
        Self(library::Projected::from_bits(bits))
    }

    /// The code, in the lowest `BITS` bits.
    #[inline]
    pub fn to_bits(self) -> u16 {
        self.0.to_bits()
    }

    /// A value of any format, rounded once (IEEE 754-2019 5.4.2), with the flags of that rounding.
    ///
    /// Past the largest number the result is the infinity, or the NaN in its place, with `OVERFLOW` and `INEXACT`,
    /// where the mode leads past it; otherwise the largest number, with `INEXACT`. In a format without infinities, an
    /// infinity is the NaN, with `INEXACT`. In a format without a sign, what is below zero once it is rounded is the
    /// NaN, with `INVALID_OP`. -0 becomes the only zero, with `INEXACT`. A NaN is the NaN, with `INVALID_OP` if it is
    /// signaling.
    pub fn from_value<S: Semantics>(x: IeeeFloat<S>, round: Round, loses_info: &mut bool) -> StatusAnd<Self> {
        answered(library::Projected::from_value(x.plain(), round, loses_info)).map(Self)
    }

    /// The same in a mode of conversions. To odd the result is the neighbour whose code is odd, and the largest number
    /// past it; with random digits it is the infinity there, or the NaN in its place.
    pub fn from_value_by<S: Semantics>(
        x: IeeeFloat<S>,
        mode: ConversionRound,
        loses_info: &mut bool,
    ) -> StatusAnd<Self> {
        answered(library::Projected::from_value_by(x.plain(), mode.given(), loses_info)).map(Self)
    }

    /// The same, rounded and saturated by a rule. Saturation gives numbers the flags that they have without it.
    pub fn project<S: Semantics>(x: IeeeFloat<S>, rule: ProjectionRule, loses_info: &mut bool) -> StatusAnd<Self> {
        answered(library::Projected::project(x.plain(), rule.given(), loses_info)).map(Self)
    }

    /// The largest number.
    pub fn largest() -> Self {
        Self(library::Projected::largest())
    }

    /// The value in another format, rounded once (IEEE 754-2019 5.4.2), with the flags of that rounding; the NaN as
    /// that of `Float8E4M3FNUZ`.
    pub fn convert_r<T: Semantics>(self, round: Round, loses_info: &mut bool) -> StatusAnd<IeeeFloat<T>> {
        answered(self.0.convert_r::<FlaggedS<T>>(round, loses_info)).map(IeeeFloat::of)
    }

    /// The category (IEEE 754-2019 5.7.2).
    #[inline]
    pub fn category(self) -> Category {
        self.0.category()
    }

    /// Whether it is the NaN.
    #[inline]
    pub fn is_nan(self) -> bool {
        self.0.is_nan()
    }

    /// Whether the code has a sign, that of the NaN too.
    #[inline]
    pub fn is_negative(self) -> bool {
        self.0.is_negative()
    }

    /// The least value that is greater (IEEE 754-2019 5.3.1, nextUp): past the largest number the infinity, or the NaN
    /// in its place.
    #[inline]
    pub fn next_up(self) -> Self {
        Self(self.0.next_up())
    }

    /// The greatest value that is less (IEEE 754-2019 5.3.1, nextDown). Without a sign there is nothing below zero but
    /// the NaN.
    #[inline]
    pub fn next_down(self) -> Self {
        Self(self.0.next_down())
    }
}

impl<F: Projection> PartialEq for Projected<F> {
    #[inline]
    fn eq(&self, other: &Self) -> bool {
        self.partial_cmp(other) == Some(Ordering::Equal)
    }
}

impl<F: Projection> PartialOrd for Projected<F> {
    /// The order (IEEE 754-2019 5.11): the infinities are at the ends, and the NaN is unordered.
    #[inline]
    fn partial_cmp(&self, other: &Self) -> Option<Ordering> {
        self.0.compare(other.0)
    }
}

impl<F: Projection> fmt::Debug for Projected<F> {
    /// The code, as in `Projected(0x7f)`.
    fn fmt(&self, f: &mut fmt::Formatter<'_>) -> fmt::Result {
        write!(f, "Projected({:#x})", self.to_bits())
    }
}
