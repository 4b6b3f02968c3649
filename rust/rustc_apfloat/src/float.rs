//! The traits of floating-point types, and their implementation by the library's.

use crate::doubles::AsDouble;
use crate::{Category, ExpInt, ParseError, Round, StatusAnd, widths};
use core::cmp::Ordering;
use core::fmt;
use core::ops::{Add, AddAssign, Div, DivAssign, Mul, MulAssign, Neg, Rem, RemAssign, Sub, SubAssign};
use core::str::FromStr;

/// A floating-point type. The operators round to nearest, ties to even; those that assign drop the status.
///
/// The methods with bodies are composed of the others; the types of this crate have their own where that is faster.
pub trait Float:
    Copy
    + Default
    + FromStr<Err = ParseError>
    + PartialOrd
    + fmt::Display
    + Neg<Output = Self>
    + AddAssign
    + SubAssign
    + MulAssign
    + DivAssign
    + RemAssign
    + Add<Output = StatusAnd<Self>>
    + Sub<Output = StatusAnd<Self>>
    + Mul<Output = StatusAnd<Self>>
    + Div<Output = StatusAnd<Self>>
    + Rem<Output = StatusAnd<Self>>
{
    /// How many bits an encoding has.
    const BITS: usize;
    /// How many digits a significand has, the integer bit included.
    const PRECISION: usize;
    /// The greatest exponent of a finite value.
    const MAX_EXP: ExpInt;
    /// The least exponent of a value that is not denormal.
    const MIN_EXP: ExpInt;
    /// +0.
    const ZERO: Self;
    /// Positive infinity; in a format without infinities, its positive NaN.
    const INFINITY: Self;
    /// The positive quiet NaN without a payload.
    const NAN: Self;
    /// The smallest positive value.
    const SMALLEST: Self;

    /// How the values are doubles, if they are. No other crate can set it.
    #[doc(hidden)]
    const AS_DOUBLE: Option<AsDouble<Self>> = None;

    /// The positive quiet NaN with a payload, cut to what the format has room for.
    fn qnan(payload: Option<u128>) -> Self;
    /// The positive signaling NaN with a payload, cut to what the format has room for.
    fn snan(payload: Option<u128>) -> Self;
    /// The greatest finite value.
    fn largest() -> Self;
    /// The smallest positive value that is not denormal.
    fn smallest_normalized() -> Self;

    /// The sum.
    fn add_r(self, rhs: Self, round: Round) -> StatusAnd<Self>;
    /// The difference. The body here adds the negation, so it negates a NaN `rhs`.
    fn sub_r(self, rhs: Self, round: Round) -> StatusAnd<Self> {
        self.add_r(-rhs, round)
    }
    /// The product.
    fn mul_r(self, rhs: Self, round: Round) -> StatusAnd<Self>;
    /// The product with `multiplicand` plus `addend`, rounded once.
    fn mul_add_r(self, multiplicand: Self, addend: Self, round: Round) -> StatusAnd<Self>;
    /// `mul_add_r`, to nearest, ties to even.
    fn mul_add(self, multiplicand: Self, addend: Self) -> StatusAnd<Self> {
        self.mul_add_r(multiplicand, addend, Round::NearestTiesToEven)
    }
    /// The quotient.
    fn div_r(self, rhs: Self, round: Round) -> StatusAnd<Self>;
    /// The remainder by the whole number nearest to the quotient.
    fn ieee_rem(self, rhs: Self) -> StatusAnd<Self>;
    /// The remainder by the quotient cut toward zero, as C's `fmod`.
    fn c_fmod(self, rhs: Self) -> StatusAnd<Self>;
    /// The value rounded to a whole number.
    fn round_to_integral(self, round: Round) -> StatusAnd<Self>;
    /// The least value that compares greater.
    fn next_up(self) -> StatusAnd<Self>;
    /// The greatest value that compares less.
    fn next_down(self) -> StatusAnd<Self> {
        (-self).next_up().map(|above| -above)
    }
    /// The value without its sign.
    #[inline]
    fn abs(self) -> Self {
        if self.is_negative() { -self } else { self }
    }
    /// The value with the sign of `rhs`.
    #[inline]
    fn copy_sign(self, rhs: Self) -> Self {
        if self.is_negative() == rhs.is_negative() { self } else { -self }
    }

    /// The value whose encoding is `input`.
    ///
    /// # Panics
    ///
    /// In a format without bits.
    fn from_bits(input: u128) -> Self;
    /// A signed whole number.
    fn from_i128_r(input: i128, round: Round) -> StatusAnd<Self> {
        let magnitude = input.unsigned_abs();
        if input < 0 {
            Self::from_u128_r(magnitude, -round).map(|value| -value)
        } else {
            Self::from_u128_r(magnitude, round)
        }
    }
    /// `from_i128_r`, to nearest, ties to even.
    fn from_i128(input: i128) -> StatusAnd<Self> {
        Self::from_i128_r(input, Round::NearestTiesToEven)
    }
    /// A whole number.
    fn from_u128_r(input: u128, round: Round) -> StatusAnd<Self>;
    /// `from_u128_r`, to nearest, ties to even.
    fn from_u128(input: u128) -> StatusAnd<Self> {
        Self::from_u128_r(input, Round::NearestTiesToEven)
    }
    /// The value of a text: a decimal or a hexadecimal number, an infinity or a NaN.
    fn from_str_r(s: &str, round: Round) -> Result<StatusAnd<Self>, ParseError>;
    /// The bits of the value's encoding.
    ///
    /// # Panics
    ///
    /// In a format without bits.
    fn to_bits(self) -> u128;
    /// The value rounded to a whole number of `width` digits in two's complement. A value out of range gives the nearer
    /// end of the range, and a NaN gives 0, both with `INVALID_OP`. `is_exact` says whether the whole number equals the
    /// value; for -0 it is false.
    ///
    /// At a width that is not from 2 to 128, the answer is that of the crate `rustc_apfloat`, whose arithmetic wraps
    /// there. That of a negative value at width 1 is right: -1 or 0.
    ///
    /// # Panics
    ///
    /// With debug assertions, at other widths: a negative value unless the width is from 1 to 128, and another value
    /// unless it is from 2 to 129.
    fn to_i128_r(self, width: usize, round: Round, is_exact: &mut bool) -> StatusAnd<i128> {
        widths::signed(self, width, round, is_exact)
    }
    /// `to_i128_r`, toward zero.
    ///
    /// # Panics
    ///
    /// As `to_i128_r`.
    fn to_i128(self, width: usize) -> StatusAnd<i128> {
        self.to_i128_r(width, Round::TowardZero, &mut true)
    }
    /// The value rounded to an unsigned whole number of `width` digits, as `to_i128_r`. At a width that is not from 1
    /// to 128, the answer is that of the crate `rustc_apfloat`.
    ///
    /// # Panics
    ///
    /// With debug assertions, at other widths, unless the value is negative and above -2^128.
    fn to_u128_r(self, width: usize, round: Round, is_exact: &mut bool) -> StatusAnd<u128>;
    /// `to_u128_r`, toward zero.
    ///
    /// # Panics
    ///
    /// As `to_u128_r`.
    fn to_u128(self, width: usize) -> StatusAnd<u128> {
        self.to_u128_r(width, Round::TowardZero, &mut true)
    }

    /// The order of the magnitudes of two nonzero finite values.
    ///
    /// # Panics
    ///
    /// For other values; for pairs also where the high parts tie and a low part is zero or not finite.
    fn cmp_abs_normal(self, rhs: Self) -> Ordering;
    /// Whether both are the same value: a NaN is the same as itself, and -0 is not the same as +0.
    fn bitwise_eq(self, rhs: Self) -> bool;
    /// The lesser value (IEEE 754-2008, minNum): of a number and a NaN the number.
    #[inline]
    fn min(self, other: Self) -> Self {
        if self.is_nan() || other < self { other } else { self }
    }
    /// The greater value (IEEE 754-2008, maxNum): of a number and a NaN the number.
    #[inline]
    fn max(self, other: Self) -> Self {
        if self.is_nan() || self < other { other } else { self }
    }
    /// The lesser value (IEEE 754-2019, minimum): a NaN if one operand is, and -0 is below +0.
    #[inline]
    fn minimum(self, other: Self) -> Self {
        let are_zeros_apart = self.is_zero() && other.is_zero() && self.is_negative() != other.is_negative();
        let is_other = if are_zeros_apart { other.is_negative() } else { other.is_nan() || other < self };
        if is_other && !self.is_nan() { other } else { self }
    }
    /// The greater value (IEEE 754-2019, maximum): a NaN if one operand is, and -0 is below +0.
    #[inline]
    fn maximum(self, other: Self) -> Self {
        let are_zeros_apart = self.is_zero() && other.is_zero() && self.is_negative() != other.is_negative();
        let is_other = if are_zeros_apart { self.is_negative() } else { other.is_nan() || self < other };
        if is_other && !self.is_nan() { other } else { self }
    }

    /// Whether the sign is minus, for zeros and NaNs too.
    fn is_negative(self) -> bool;
    /// Whether the value is a nonzero number that is not denormal.
    #[inline]
    fn is_normal(self) -> bool {
        self.is_finite_non_zero() && !self.is_denormal()
    }
    /// Whether the value is a number.
    #[inline]
    fn is_finite(self) -> bool {
        !self.is_nan() && !self.is_infinite()
    }
    /// Whether the value is +0 or -0.
    #[inline]
    fn is_zero(self) -> bool {
        self.category() == Category::Zero
    }
    /// Whether the value is denormal.
    fn is_denormal(self) -> bool;
    /// Whether the value is an infinity.
    #[inline]
    fn is_infinite(self) -> bool {
        self.category() == Category::Infinity
    }
    /// Whether the value is a NaN.
    #[inline]
    fn is_nan(self) -> bool {
        self.category() == Category::NaN
    }
    /// Whether the value is a signaling NaN.
    fn is_signaling(self) -> bool;
    /// The category of the value.
    fn category(self) -> Category;
    /// Whether the value is neither +0 nor -0.
    #[inline]
    fn is_non_zero(self) -> bool {
        !self.is_zero()
    }
    /// Whether the value is a nonzero number.
    #[inline]
    fn is_finite_non_zero(self) -> bool {
        self.is_finite() && !self.is_zero()
    }
    /// Whether the value is +0.
    #[inline]
    fn is_pos_zero(self) -> bool {
        self.is_zero() && !self.is_negative()
    }
    /// Whether the value is -0.
    #[inline]
    fn is_neg_zero(self) -> bool {
        self.is_zero() && self.is_negative()
    }
    /// Whether the value is positive infinity.
    #[inline]
    fn is_pos_infinity(self) -> bool {
        self.is_infinite() && !self.is_negative()
    }
    /// Whether the value is negative infinity.
    #[inline]
    fn is_neg_infinity(self) -> bool {
        self.is_infinite() && self.is_negative()
    }
    /// Whether the value has the smallest nonzero magnitude.
    #[inline]
    fn is_smallest(self) -> bool {
        Self::SMALLEST.copy_sign(self).bitwise_eq(self)
    }
    /// Whether the value has the smallest magnitude that is not denormal.
    #[inline]
    fn is_smallest_normalized(self) -> bool {
        Self::smallest_normalized().copy_sign(self).bitwise_eq(self)
    }
    /// Whether the value has the greatest finite magnitude.
    #[inline]
    fn is_largest(self) -> bool {
        Self::largest().copy_sign(self).bitwise_eq(self)
    }
    /// Whether the value is a whole number.
    fn is_integer(self) -> bool {
        self.is_finite() && self.round_to_integral(Round::TowardZero).value.bitwise_eq(self)
    }
    /// The inverse of a power of two, if the type has it and neither is denormal.
    fn get_exact_inverse(self) -> Option<Self>;
    /// The exponent of the highest digit; `IEK_ZERO`, `IEK_INF` or `IEK_NAN` for other values.
    fn ilogb(self) -> ExpInt;
    /// The value times 2 to the power of `exp`.
    fn scalbn_r(self, exp: ExpInt, round: Round) -> Self;
    /// `scalbn_r`, to nearest, ties to even.
    #[inline]
    fn scalbn(self, exp: ExpInt) -> Self {
        self.scalbn_r(exp, Round::NearestTiesToEven)
    }
    /// The fraction of the value, from 0.5 to below 1 in magnitude, and its exponent in `exp`.
    fn frexp_r(self, exp: &mut ExpInt, round: Round) -> Self;
    /// `frexp_r`, to nearest, ties to even.
    #[inline]
    fn frexp(self, exp: &mut ExpInt) -> Self {
        self.frexp_r(exp, Round::NearestTiesToEven)
    }
}

/// A type whose values convert to `T`.
pub trait FloatConvert<T: Float>: Float {
    /// The value in `T`; `loses_info` says whether a digit, the sign of a zero, an infinity or a payload was lost.
    fn convert_r(self, round: Round, loses_info: &mut bool) -> StatusAnd<T>;

    /// `convert_r`, to nearest, ties to even.
    fn convert(self, loses_info: &mut bool) -> StatusAnd<T> {
        self.convert_r(Round::NearestTiesToEven, loses_info)
    }
}

/// Methods of `Float` that are the library's: `inner` is the library's value, `of` the value of one, and `answered`
/// that with its status.
macro_rules! by_the_library {
    () => {
        by_the_library! {
            constants: largest smallest_normalized;
            nans: qnan snan;
            sums: add_r sub_r div_r;
            remainders: ieee_rem c_fmod;
            roundings: round_to_integral;
            steps: next_up next_down;
            questions: is_negative is_normal is_finite is_zero is_denormal is_infinite is_nan is_signaling is_non_zero
                is_finite_non_zero is_pos_zero is_neg_zero is_pos_infinity is_neg_infinity is_integer;
            others: ;
        }
    };
    ($($shape:ident: $($name:ident)*;)*) => { $(by_the_library! { @$shape $($name)* })* };
    (@constants $($name:ident)*) => {$(
        #[inline]
        fn $name() -> Self {
            Self::of(Inner::$name())
        }
    )*};
    (@nans $($name:ident)*) => {$(
        #[inline]
        fn $name(payload: Option<u128>) -> Self {
            Self::of(Inner::$name(payload))
        }
    )*};
    (@sums $($name:ident)*) => {$(
        #[inline]
        fn $name(self, rhs: Self, round: Round) -> StatusAnd<Self> {
            Self::answered(self.inner().$name(rhs.inner(), round))
        }
    )*};
    (@remainders $($name:ident)*) => {$(
        #[inline]
        fn $name(self, rhs: Self) -> StatusAnd<Self> {
            Self::answered(self.inner().$name(rhs.inner()))
        }
    )*};
    (@roundings $($name:ident)*) => {$(
        #[inline]
        fn $name(self, round: Round) -> StatusAnd<Self> {
            Self::answered(self.inner().$name(round))
        }
    )*};
    (@steps $($name:ident)*) => {$(
        #[inline]
        fn $name(self) -> StatusAnd<Self> {
            Self::answered(self.inner().$name())
        }
    )*};
    (@questions $($name:ident)*) => {$(
        #[inline]
        fn $name(self) -> bool {
            self.inner().$name()
        }
    )*};
    (@others) => {
        #[inline]
        fn from_i128_r(input: i128, round: Round) -> StatusAnd<Self> {
            Self::answered(Inner::from_i128_r(input, round))
        }

        #[inline]
        fn from_i128(input: i128) -> StatusAnd<Self> {
            Self::answered(Inner::from_i128(input))
        }

        #[inline]
        fn from_u128_r(input: u128, round: Round) -> StatusAnd<Self> {
            Self::answered(Inner::from_u128_r(input, round))
        }

        #[inline]
        fn from_u128(input: u128) -> StatusAnd<Self> {
            Self::answered(Inner::from_u128(input))
        }

        #[inline]
        fn to_i128_r(self, width: usize, round: Round, is_exact: &mut bool) -> StatusAnd<i128> {
            match width {
                2..=128 => answered(self.inner().to_i128_r(width, round, is_exact)),
                _ => widths::signed(self, width, round, is_exact),
            }
        }

        #[inline]
        fn to_u128_r(self, width: usize, round: Round, is_exact: &mut bool) -> StatusAnd<u128> {
            match width {
                1..=128 => answered(self.inner().to_u128_r(width, round, is_exact)),
                _ => widths::unsigned(self, width, round, is_exact),
            }
        }

        #[inline]
        fn bitwise_eq(self, rhs: Self) -> bool {
            self.inner().bitwise_eq(rhs.inner())
        }

        #[inline]
        fn category(self) -> Category {
            self.inner().category()
        }

        #[inline]
        fn get_exact_inverse(self) -> Option<Self> {
            self.inner().get_exact_inverse().map(Self::of)
        }

        #[inline]
        fn ilogb(self) -> ExpInt {
            self.inner().ilogb()
        }

        #[inline]
        fn scalbn_r(self, exp: ExpInt, round: Round) -> Self {
            Self::of(self.inner().scalbn_r(exp, round))
        }

        #[inline]
        fn scalbn(self, exp: ExpInt) -> Self {
            Self::of(self.inner().scalbn(exp))
        }

        #[inline]
        fn frexp_r(self, exp: &mut ExpInt, round: Round) -> Self {
            Self::of(self.inner().frexp_r(exp, round))
        }

        #[inline]
        fn frexp(self, exp: &mut ExpInt) -> Self {
            Self::of(self.inner().frexp(exp))
        }
    };
}

/// The constants of pairs of values.
macro_rules! pair_constants {
    ($pair:ident) => {
        const BITS: usize = F::BITS * 2;
        const PRECISION: usize = Fallback::<F>::PRECISION;
        const MAX_EXP: ExpInt = Fallback::<F>::MAX_EXP;
        const MIN_EXP: ExpInt = Fallback::<F>::MIN_EXP;
        const ZERO: Self = $pair(F::ZERO, F::ZERO);
        const INFINITY: Self = $pair(F::INFINITY, F::ZERO);
        const NAN: Self = $pair(F::NAN, F::ZERO);
        const SMALLEST: Self = $pair(F::SMALLEST, F::ZERO);
    };
}

/// The operators of a generic type, by the methods of `Float`, and `Default` and `FromStr`.
macro_rules! operators {
    ($type:ident: $($trait:ident::$operator:ident, $assigning:ident::$assign:ident: $by:ident($($mode:expr)?);)*) => {
        $(
            impl<S> ::core::ops::$trait for $type<S>
            where
                Self: Float,
            {
                type Output = StatusAnd<Self>;

                #[inline]
                fn $operator(self, rhs: Self) -> StatusAnd<Self> {
                    self.$by(rhs $(, $mode)?)
                }
            }

            impl<S> ::core::ops::$assigning for $type<S>
            where
                Self: Float,
            {
                #[inline]
                fn $assign(&mut self, rhs: Self) {
                    *self = self.$by(rhs $(, $mode)?).value;
                }
            }
        )*

        impl<S> Default for $type<S>
        where
            Self: Float,
        {
            /// +0.
            #[inline]
            fn default() -> Self {
                Self::ZERO
            }
        }

        impl<S> ::core::str::FromStr for $type<S>
        where
            Self: Float,
        {
            type Err = ParseError;

            /// `from_str_r`, to nearest, ties to even; the status is dropped.
            #[inline]
            fn from_str(s: &str) -> Result<Self, ParseError> {
                Self::from_str_r(s, Round::NearestTiesToEven).map(|answer| answer.value)
            }
        }
    };
    ($type:ident) => {
        operators! { $type:
            Add::add, AddAssign::add_assign: add_r(Round::NearestTiesToEven);
            Sub::sub, SubAssign::sub_assign: sub_r(Round::NearestTiesToEven);
            Mul::mul, MulAssign::mul_assign: mul_r(Round::NearestTiesToEven);
            Div::div, DivAssign::div_assign: div_r(Round::NearestTiesToEven);
            Rem::rem, RemAssign::rem_assign: c_fmod();
        }
    };
}
