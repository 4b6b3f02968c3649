//! Values that are only stored and converted: elements of at most 8 bits without infinities and NaNs, as those of the
//! Open Compute Project's microscaling formats, the scales of their blocks, and a format of 8 bits with infinities and
//! NaNs. `docs/FORMATS.md` of the repository says what becomes of each value; the crate `rustc_apfloat` has
//! none of these.
//!
//! ```
//! use rustc_apfloat::Round;
//! use rustc_apfloat::ieee::Single;
//! use rustc_apfloat::storage_formats::{E2M1FN, StoredFloat};
//!
//! fn nearest(x: Single, loses_info: &mut bool) -> u8 {
//!     let stored = StoredFloat::<E2M1FN>::from_value(x, Round::NearestTiesToEven, loses_info);
//!     stored.value.to_bits()
//! }
//!
//! let mut loses_info = false;
//! let code = nearest("5.5".parse().unwrap(), &mut loses_info);
//! assert_eq!((code, loses_info), (0b0111, true));
//! let six: Single = StoredFloat::<E2M1FN>::from_bits(code).convert_r(Round::TowardZero, &mut loses_info).value;
//! assert_eq!((six.to_string().as_str(), loses_info), ("6", false));
//! ```

use crate::conversion_modes::{ConversionRound, NanResult};
use crate::erased::small_formats as library;
use crate::ieee::{FlaggedS, IeeeFloat, Semantics};
use crate::status::answered;
use crate::{Category, ExpInt, Round, StatusAnd};
use core::cmp::Ordering;
use core::fmt;
use core::marker::PhantomData;

pub use library::{E2M1FN, E2M3FN, E3M2FN};

/// A storage format all of whose codes are numbers.
///
/// The bits of a code are, from the top, the sign, the biased exponent, and `PRECISION - 1` bits of the significand.
/// The exponent 0 is that of the numbers without all digits, and there are no infinities and NaNs. The constants have
/// to obey the law of storage formats: a format that breaks it does not compile, and the error names the clause.
///
/// ```
/// use rustc_apfloat::ieee::Half;
/// use rustc_apfloat::storage_formats::{StorageFormat, StoredFloat};
/// use rustc_apfloat::{Float, Round};
///
/// struct E3M1;
/// impl StorageFormat for E3M1 {
///     const BITS: usize = 5;
///     const PRECISION: usize = 2;
///     const MIN_EXP: i32 = -2;
/// }
/// let stored = StoredFloat::<E3M1>::from_value(Half::from_u128(20).value, Round::TowardPositive, &mut false);
/// assert_eq!(stored.value.to_bits(), 0b01111);
/// ```
///
/// ```compile_fail
/// use rustc_apfloat::ieee::Half;
/// use rustc_apfloat::storage_formats::{StorageFormat, StoredFloat};
/// use rustc_apfloat::{Float, Round};
///
/// struct WrongE3M1;
/// impl StorageFormat for WrongE3M1 {
///     const BITS: usize = 5;
///     const PRECISION: usize = 2;
///     const MIN_EXP: i32 = 1;
/// }
/// let stored = StoredFloat::<WrongE3M1>::from_value(Half::from_u128(20).value, Round::TowardPositive, &mut false);
/// assert_eq!(stored.value.to_bits(), 0b01111);
/// ```
pub trait StorageFormat: Sized {
    /// The width of a code in bits, at most 8.
    const BITS: usize;

    /// The number of binary digits in a significand, at least 2, including the implied integer bit. At least one bit is
    /// left for the exponent.
    const PRECISION: usize;

    /// The exponent of the least number whose significand has all its digits, counted from its integer bit: -2^20 to 0.
    const MIN_EXP: ExpInt;
}

library_formats! { StorageFormat { BITS: usize, PRECISION: usize, MIN_EXP: ExpInt }: E2M1FN E2M3FN E3M2FN }

/// The law of storage formats: the first clause that the constants break.
const fn fault(bits: usize, precision: usize, min_exp: ExpInt) -> Option<&'static str> {
    if precision < 2 {
        return Some("PRECISION is at least 2");
    }
    if bits <= precision {
        return Some("BITS is more than PRECISION");
    }
    if bits > 8 {
        return Some("BITS is at most 8");
    }
    if min_exp < -(1 << 20) {
        return Some("MIN_EXP is at least -2^20");
    }
    if min_exp > 0 {
        return Some("MIN_EXP is at most 0");
    }
    None
}

/// The format `F` as the library knows storage formats.
pub(crate) struct LawfulS<F>(PhantomData<F>);

copied! { LawfulS<F> }

impl<F: StorageFormat> LawfulS<F> {
    pub(crate) const HOLDS: () = match fault(F::BITS, F::PRECISION, F::MIN_EXP) {
        None => {}
        Some(clause) => panic!("{}", clause),
    };
}

impl<F: StorageFormat> library::StorageFormat for LawfulS<F> {
    const BITS: usize = {
        let () = Self::HOLDS;
        F::BITS
    };
    const PRECISION: usize = F::PRECISION;
    const MIN_EXP: ExpInt = F::MIN_EXP;
}

/// A value of the storage format `F`.
#[must_use]
pub struct StoredFloat<F: StorageFormat>(library::StoredFloat<LawfulS<F>>);

copied! { StoredFloat<F: StorageFormat> }

impl<F: StorageFormat> StoredFloat<F> {
    /// Whether the sign is minus.
    #[inline]
    pub fn is_negative(self) -> bool {
        self.0.is_negative()
    }

    /// The order of two numbers (IEEE 754-2019 5.11): both zeros are equal.
    #[inline]
    pub fn compare(self, other: Self) -> Ordering {
        self.0.compare(other.0)
    }

    /// Whether the number is +0 or -0 (IEEE 754-2019 5.7.2).
    #[inline]
    pub fn is_zero(self) -> bool {
        self.0.is_zero()
    }

    /// The total order (IEEE 754-2019 5.10): that of the numbers, with -0 below +0.
    #[inline]
    pub fn total_cmp(self, other: Self) -> Ordering {
        self.0.total_cmp(other.0)
    }

    /// The lesser number, and of two zeros -0 if one has that sign (IEEE 754-2019 9.6, minimum and minimumNumber).
    #[inline]
    pub fn minimum(self, other: Self) -> Self {
        Self(self.0.minimum(other.0))
    }

    /// The greater number, and of two zeros +0 if one has that sign (IEEE 754-2019 9.6, maximum and maximumNumber).
    #[inline]
    pub fn maximum(self, other: Self) -> Self {
        Self(self.0.maximum(other.0))
    }

    /// A number of another storage format, rounded once (IEEE 754-2019 5.4.2), with the flags of that rounding. Past
    /// the largest number the result is that number, and `loses_info` is set, as in `from_value`.
    pub fn from_stored<G: StorageFormat>(x: StoredFloat<G>, round: Round, loses_info: &mut bool) -> StatusAnd<Self> {
        answered(library::StoredFloat::from_stored(x.0, round, loses_info)).map(StoredFloat)
    }

    /// The square root, rounded once, with the flags of that rounding. A zero is its own root, and the root of a number
    /// below zero is +0, with `INVALID_OP`.
    pub fn sqrt_r(self, round: Round) -> StatusAnd<Self> {
        answered(self.0.sqrt_r(round)).map(StoredFloat)
    }

    /// `self * multiplicand + addend`, rounded once (fusedMultiplyAdd), with the flags of that rounding. The sign of an
    /// exact zero is that of a sum.
    pub fn mul_add_r(self, multiplicand: Self, addend: Self, round: Round) -> StatusAnd<Self> {
        answered(self.0.mul_add_r(multiplicand.0, addend.0, round)).map(StoredFloat)
    }
}

/// The operations on two numbers.
macro_rules! operations {
    ($($(#[$attribute:meta])* $name:ident;)*) => {
        impl<F: StorageFormat> StoredFloat<F> {$(
            $(#[$attribute])*
            pub fn $name(self, rhs: Self, round: Round) -> StatusAnd<Self> {
                answered(self.0.$name(rhs.0, round)).map(StoredFloat)
            }
        )*}
    };
}

operations! {
    /// `self + rhs`, rounded once, with the flags of that rounding. Past the largest number the result is that number,
    /// as in `from_value`. The sum of opposite numbers is -0 only where the mode is toward negative (6.3).
    add_r;
    /// `self - rhs`, rounded once, as the sum of `self` and the number opposite to `rhs`.
    sub_r;
    /// `self * rhs`, rounded once, with the flags of that rounding.
    mul_r;
    /// `self / rhs`, rounded once, with the flags of that rounding. A number divided by zero is the largest number with
    /// the sign of the quotient, with `DIV_BY_ZERO`, and zero divided by zero is +0, with `INVALID_OP`.
    div_r;
}

/// A scale: 2^(code - 127), or the NaN with the code 255. There is no sign, no zero and no infinity.
#[must_use]
#[derive(Clone, Copy)]
pub struct E8M0FNU(library::E8M0FNU);

impl E8M0FNU {
    /// Whether the scale is the NaN.
    #[inline]
    pub fn is_nan(self) -> bool {
        self.0.is_nan()
    }
}

/// A number of `Float8E4M3FN` that is not below zero, or the NaN with the code 127. Codes have 7 bits.
#[must_use]
#[derive(Clone, Copy)]
pub struct UE4M3(library::UE4M3);

impl UE4M3 {
    /// Whether it is the NaN.
    #[inline]
    pub fn is_nan(self) -> bool {
        self.0.is_nan()
    }
}

/// Eight bits, three of them the exponent and four the significand, with the infinities and NaNs of IEEE 754. Up to
/// 15.5, in steps of at least 2^-6.
#[must_use]
#[derive(Clone, Copy)]
pub struct Float8E3M4(library::Float8E3M4);

impl Float8E3M4 {
    /// The category (IEEE 754-2019 5.7.2).
    #[inline]
    pub fn category(self) -> Category {
        self.0.category()
    }

    /// Whether the sign is minus, that of a zero or a NaN too.
    #[inline]
    pub fn is_negative(self) -> bool {
        self.0.is_negative()
    }

    /// The order of two values (IEEE 754-2019 5.11): both zeros are equal, the infinities are at the ends, and a NaN is
    /// unordered.
    #[inline]
    pub fn compare(self, other: Self) -> Option<Ordering> {
        self.0.compare(other.0)
    }
}

/// A format that has the numbers of every storage format, and digits enough to write them. It has no bits.
pub struct NumberS;

impl Semantics for NumberS {
    const BITS: usize = 0;
    const EXP_BITS: usize = 0;
    const PRECISION: usize = 53;
    const MIN_EXP: ExpInt = -(1 << 20);
    const MAX_EXP: ExpInt = 1 << 20;
}

impl<F: StorageFormat> StoredFloat<F> {
    /// A value of any format, rounded once in a mode of conversions, with the flags of that rounding; `nans` says what
    /// a NaN becomes. Past the largest number the result is that number in each mode, to odd with `INEXACT` alone. The
    /// rest is as in `from_value`.
    pub fn from_value_by<S: Semantics>(
        x: IeeeFloat<S>,
        mode: ConversionRound,
        nans: NanResult,
        loses_info: &mut bool,
    ) -> StatusAnd<Self> {
        answered(library::StoredFloat::from_value_by(x.plain(), mode.given(), nans, loses_info)).map(StoredFloat)
    }
}

/// The conversions by more modes of those that have a NaN: the type, and the library's function.
macro_rules! stored_by {
    ($($(#[$attribute:meta])* $name:ident: $function:path;)*) => {$(
        impl $name {
            /// A value of any format, rounded once in a mode of conversions, with the flags of that rounding. The rest
            /// is as in `from_value`.
            $(#[$attribute])*
            pub fn from_value_by<S: Semantics>(
                x: IeeeFloat<S>,
                mode: ConversionRound,
                loses_info: &mut bool,
            ) -> StatusAnd<Self> {
                answered($function(x.plain(), mode.given(), loses_info)).map($name)
            }
        }
    )*};
}

stored_by! {
    /// Past the largest scale the result is the NaN for random digits, and that scale to odd.
    E8M0FNU: library::E8M0FNU::from_value_by;
    /// Past the largest number the result is the NaN for random digits, and that number to odd.
    UE4M3: library::stochastic::unsigned_by;
    /// Past 15.5 the result is the infinity for random digits, and 15.5 to odd.
    Float8E3M4: library::stochastic::e3m4_by;
}

/// The calls that all of them have: their types, with the words on codes and on conversions.
macro_rules! stored {
    ($(
        $name:ident $(<$format:ident>)? {
            $(#[$from_bits:meta])* from_bits;
            $(#[$to_bits:meta])* to_bits;
            $(#[$from_value:meta])* from_value;
            $(#[$convert:meta])* convert_r;
        }
    )*) => {$(
        impl $(<$format: StorageFormat>)? $name $(<$format>)? {
            $(#[$from_bits])*
            #[inline]
            pub fn from_bits(bits: u8) -> Self {
                $name(library::$name::from_bits(bits))
            }

            $(#[$to_bits])*
            #[inline]
            pub fn to_bits(self) -> u8 {
                self.0.to_bits()
            }

            $(#[$from_value])*
            #[inline]
            pub fn from_value<S: Semantics>(x: IeeeFloat<S>, round: Round, loses_info: &mut bool) -> StatusAnd<Self> {
                answered(library::$name::from_value(x.plain(), round, loses_info)).map($name)
            }

            $(#[$convert])*
            #[inline]
            pub fn convert_r<T: Semantics>(self, round: Round, loses_info: &mut bool) -> StatusAnd<IeeeFloat<T>> {
                answered(self.0.convert_r::<FlaggedS<T>>(round, loses_info)).map(IeeeFloat::of)
            }
        }

        impl $(<$format: StorageFormat>)? $name $(<$format>)? {
            /// The value in a format that has it, with all calls of [`Float`](crate::Float) but those of bits.
            #[inline]
            pub fn number(self) -> IeeeFloat<NumberS> {
                self.convert_r(Round::NearestTiesToEven, &mut false).value
            }
        }

        impl $(<$format: StorageFormat>)? PartialEq for $name $(<$format>)? {
            #[inline]
            fn eq(&self, other: &Self) -> bool {
                self.number() == other.number()
            }
        }

        impl $(<$format: StorageFormat>)? PartialOrd for $name $(<$format>)? {
            #[inline]
            fn partial_cmp(&self, other: &Self) -> Option<Ordering> {
                self.number().partial_cmp(&other.number())
            }
        }

        impl $(<$format: StorageFormat>)? fmt::Display for $name $(<$format>)? {
            /// The decimal of the value, as one of `NumberS` is written.
            fn fmt(&self, f: &mut fmt::Formatter<'_>) -> fmt::Result {
                fmt::Display::fmt(&self.number(), f)
            }
        }

        impl $(<$format: StorageFormat>)? fmt::Debug for $name $(<$format>)? {
            /// The code, as in `E8M0FNU(0x7f)`.
            fn fmt(&self, f: &mut fmt::Formatter<'_>) -> fmt::Result {
                write!(f, concat!(stringify!($name), "({:#x})"), self.to_bits())
            }
        }
    )*};
}

stored! {
    StoredFloat<F> {
        /// The value with the code that the lowest `BITS` bits of `bits` are.
        from_bits;
        /// The code, in the lowest `BITS` bits.
        to_bits;
        /// A value of any format, rounded once (IEEE 754-2019 5.4.2), with the flags of that rounding.
        ///
        /// Past the largest number the result is that number, in each mode: with `OVERFLOW` and `INEXACT` where the
        /// mode leads past it, and with `INEXACT` alone where it does not. An inexact result below the least number
        /// with all digits has `UNDERFLOW` and `INEXACT`. An infinity becomes the largest number of its sign, and a NaN
        /// +0, both with `INVALID_OP`. `loses_info` is set to whether the result differs from `x`.
        from_value;
        /// The value in another format, rounded once (IEEE 754-2019 5.4.2), with the flags of that rounding, as a value
        /// of any format is converted. A format that has the number has it with status `OK`.
        convert_r;
    }
    E8M0FNU {
        /// The scale with that code.
        from_bits;
        /// The code.
        to_bits;
        /// A value of any format, rounded once, with the flags of that rounding. Ties to even go to the even code.
        ///
        /// Past the largest scale the result is the NaN, with `OVERFLOW` and `INEXACT`, where the mode leads past it,
        /// and otherwise the largest scale, with `INEXACT`. What is below the least scale becomes that scale, and so
        /// does a zero, with `UNDERFLOW` and `INEXACT`. Infinity becomes the NaN, with `INEXACT`, and what is below
        /// zero becomes the NaN, with `INVALID_OP`. A NaN is the NaN, and has `INVALID_OP` if it is signaling;
        /// information is lost if the format has payloads.
        from_value;
        /// The scale in another format, rounded once, as the value of any format is converted. A format that has the
        /// number has it with status `OK`; the NaN becomes a quiet NaN without a payload.
        convert_r;
    }
    UE4M3 {
        /// The value with the code that the lowest 7 bits are.
        from_bits;
        /// The code.
        to_bits;
        /// A value of any format, rounded once, with the flags of that rounding, as into `Float8E4M3FN`.
        ///
        /// What is below zero becomes the NaN, with `INVALID_OP`, and -0 becomes 0, with `INEXACT`. A NaN is the NaN,
        /// and has `INVALID_OP` if it is signaling; information is lost if the format has payloads.
        from_value;
        /// The value in another format, rounded once, as that of `Float8E4M3FN` is converted; so is the NaN.
        convert_r;
    }
    Float8E3M4 {
        /// The value with that code.
        from_bits;
        /// The code.
        to_bits;
        /// A value of any format, rounded once (IEEE 754-2019 5.4.2), with the flags of that rounding, as into other
        /// formats. A NaN keeps the first digits of its payload.
        from_value;
        /// The value in another format, rounded once (IEEE 754-2019 5.4.2), as a value of any format is converted.
        convert_r;
    }
}

#[cfg(test)]
mod tests {
    use super::*;

    #[test]
    fn each_clause_is_named() {
        let words = |bits, precision, min_exp| fault(bits, precision, min_exp).unwrap_or("lawful");
        assert_eq!(words(4, 2, 0), "lawful");
        assert_eq!(words(8, 7, -(1 << 20)), "lawful");
        assert_eq!(words(4, 1, 0), "PRECISION is at least 2");
        assert_eq!(words(4, 4, 0), "BITS is more than PRECISION");
        assert_eq!(words(9, 4, 0), "BITS is at most 8");
        assert_eq!(words(4, 2, -(1 << 20) - 1), "MIN_EXP is at least -2^20");
        assert_eq!(words(4, 2, 1), "MIN_EXP is at most 0");
    }
}
