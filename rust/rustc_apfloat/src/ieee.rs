//! Formats of one significand.

use crate::digits::{self, Number};
use crate::doubles::{self, AsDouble};
use crate::erased::apfloat_base::{self, Float as _, FloatConvert as _};
use crate::erased::apfloat_rounding::unpacked::Unpacked;
use crate::erased::{apfloat_decimals, apfloat_ieee, rustc_apfloat::double_double_operations};
use crate::law::Constants;
use crate::more::{FloatMore, IeeeMore};
use crate::status::answered;
use crate::{Category, Decimal, ExpInt, Float, FloatConvert, ParseError, Round, StatusAnd};
use crate::{far, format_of, widths};
use core::cmp::Ordering;
use core::fmt;
use core::marker::PhantomData;
use core::ops::Neg;

pub use crate::erased::apfloat_base::NonfiniteBehavior;

/// A value of the format `S`.
#[must_use]
pub struct IeeeFloat<S> {
    value: Unpacked,
    marker: PhantomData<S>,
}

copied! { IeeeFloat<S> }

/// A binary format.
///
/// Its constants have to obey the law of formats: a format that breaks it does not compile, and the error names the
/// clause.
///
/// ```
/// use rustc_apfloat::Float;
/// use rustc_apfloat::ieee::{IeeeFloat, Semantics};
///
/// struct TwelveS;
/// impl Semantics for TwelveS {
///     const BITS: usize = 12;
///     const EXP_BITS: usize = 5;
/// }
/// assert_eq!(IeeeFloat::<TwelveS>::from_u128(3).value.to_bits(), 0x420);
/// ```
///
/// ```compile_fail
/// use rustc_apfloat::Float;
/// use rustc_apfloat::ieee::{IeeeFloat, Semantics};
///
/// struct WrongS;
/// impl Semantics for WrongS {
///     const BITS: usize = 12;
///     const EXP_BITS: usize = 5;
///     const MAX_EXP: i32 = 14;
/// }
/// assert_eq!(IeeeFloat::<WrongS>::from_u128(3).value.to_bits(), 0x420);
/// ```
pub trait Semantics: Sized {
    /// How many bits an encoding has, at most 128; 0 in a format for computing only, which has no bits.
    const BITS: usize;

    /// How many of them are the biased exponent; 0 in a format without bits.
    const EXP_BITS: usize;

    /// How many digits a significand has, from 3 to 125, the integer bit included.
    const PRECISION: usize = Self::BITS - Self::EXP_BITS;

    /// Which non-finite values the format has.
    const NONFINITE_BEHAVIOR: NonfiniteBehavior = NonfiniteBehavior::IEEE754;

    /// The greatest exponent of a finite value, from `PRECISION` to 2^20.
    const MAX_EXP: ExpInt = Self::IEEE_MAX_EXP
        + (Self::MIN_EXP - Self::IEEE_MIN_EXP)
        + match Self::NONFINITE_BEHAVIOR {
            NonfiniteBehavior::IEEE754 => 0,
            NonfiniteBehavior::NanOnly | NonfiniteBehavior::NanNegativeZero => 1,
        };

    /// The greatest exponent in IEEE 754 for this count of exponent bits; 0 in a format without bits.
    const IEEE_MAX_EXP: ExpInt = if Self::EXP_BITS == 0 { 0 } else { 1 - Self::IEEE_MIN_EXP };

    /// The least exponent of a value that is not denormal, from -2^20 to -1.
    const MIN_EXP: ExpInt = Self::IEEE_MIN_EXP;

    /// The least exponent in IEEE 754 for this count of exponent bits; 0 in a format without bits.
    const IEEE_MIN_EXP: ExpInt = if Self::EXP_BITS == 0 { 0 } else { 2 - (1 << (Self::EXP_BITS - 1)) };

    /// The bits that every NaN's significand has.
    const NAN_SIGNIFICAND_BASE: u128 = match Self::NONFINITE_BEHAVIOR {
        NonfiniteBehavior::IEEE754 | NonfiniteBehavior::NanNegativeZero => 0,
        NonfiniteBehavior::NanOnly => (1 << (Self::PRECISION - 1)) - 1,
    };

    /// The bits that a NaN's payload may set.
    const NAN_PAYLOAD_MASK: u128 = match Self::NONFINITE_BEHAVIOR {
        NonfiniteBehavior::IEEE754 => (1 << (Self::PRECISION - 1)) - 1,
        NonfiniteBehavior::NanOnly | NonfiniteBehavior::NanNegativeZero => 0,
    };

    /// The bits that make a NaN quiet; with the integer bit, if that is explicit.
    const QNAN_SIGNIFICAND: u128 = match Self::NONFINITE_BEHAVIOR {
        NonfiniteBehavior::IEEE754 => 1 << (Self::PRECISION - 2),
        NonfiniteBehavior::NanOnly | NonfiniteBehavior::NanNegativeZero => 0,
    };

    /// Whether the integer bit is explicit, as in the x87's format.
    const EXPLICIT_INTEGER_BIT: bool = Self::QNAN_SIGNIFICAND >> (Self::PRECISION - 1) & 1 == 1;

    /// Whether an inexact result is tiny by its exact magnitude, and not by the rounded one (IEEE 754-2019 7.5).
    const TINY_BEFORE_ROUNDING: bool = false;

    /// Whether `OVERFLOW` and `UNDERFLOW` are raised as IEEE 754-2019 asks (7.4, 7.5), also in modes that deliver the
    /// largest value. `IeeeFlags` sets it.
    const IEEE_FLAGS: bool = false;

    /// The value whose encoding is `bits`; bits at and above `BITS` are ignored.
    ///
    /// # Panics
    ///
    /// In a format without bits.
    fn from_bits(bits: u128) -> IeeeFloat<Self> {
        assert!(Self::BITS > Self::PRECISION, "a format without bits");
        IeeeFloat::of(Inner::<Self>::from_bits(bits))
    }

    /// The bits of the value's encoding.
    ///
    /// # Panics
    ///
    /// In a format without bits.
    fn to_bits(x: IeeeFloat<Self>) -> u128 {
        assert!(Self::BITS > Self::PRECISION, "a format without bits");
        x.inner().to_bits()
    }
}

/// The law of the format `S`.
struct LawOfFormat<S>(PhantomData<S>);

impl<S: Semantics> LawOfFormat<S> {
    const HOLDS: () = match Constants::of::<S>().fault() {
        None => {}
        Some(clause) => panic!("{}", clause),
    };

    /// Whether the format's exponents are within those of `Quad`: in such a format the library reads and writes
    /// decimals.
    const HAS_QUAD_EXPONENTS: bool = S::MIN_EXP >= -16382 && S::MAX_EXP <= 16383;

    /// That values of the format can be written by the library.
    const IS_WRITTEN: () = assert!(Self::HAS_QUAD_EXPONENTS, "the format's exponents are past those of Quad");

    /// That the library finds shortest decimals in the format.
    const HAS_SHORTEST: () = assert!(S::PRECISION <= 113, "PRECISION is more than 113");
}

/// Does not compile for an unlawful format. Whatever makes a value of the format calls it; the compiler reports the
/// error for each function that has the constant, so only this one has it.
const fn obey_the_law<S: Semantics>() {
    let () = LawOfFormat::<S>::HOLDS;
}

/// The format `S` as the library knows formats, with the flags of the built-in ones.
pub(crate) struct PlainS<S>(PhantomData<S>);

/// The format `S` as the library knows formats, with its rule of flags.
pub(crate) struct FlaggedS<S>(PhantomData<S>);

// The constants of a format but for its rules of flags, for a format that has the same.
macro_rules! same_constants {
    ($format:ident) => {
        const BITS: usize = $format::BITS;
        const EXP_BITS: usize = $format::EXP_BITS;
        const PRECISION: usize = $format::PRECISION;
        const NONFINITE_BEHAVIOR: NonfiniteBehavior = $format::NONFINITE_BEHAVIOR;
        const MAX_EXP: ExpInt = $format::MAX_EXP;
        const IEEE_MAX_EXP: ExpInt = $format::IEEE_MAX_EXP;
        const MIN_EXP: ExpInt = $format::MIN_EXP;
        const IEEE_MIN_EXP: ExpInt = $format::IEEE_MIN_EXP;
        const NAN_SIGNIFICAND_BASE: u128 = $format::NAN_SIGNIFICAND_BASE;
        const NAN_PAYLOAD_MASK: u128 = $format::NAN_PAYLOAD_MASK;
        const QNAN_SIGNIFICAND: u128 = $format::QNAN_SIGNIFICAND;
        const EXPLICIT_INTEGER_BIT: bool = $format::EXPLICIT_INTEGER_BIT;
    };
}

macro_rules! library_formats {
    ($($name:ident: $trait:path { $($more:tt)* })*) => {$(
        copied! { $name<S> }

        impl<S: Semantics> $trait for $name<S> {
            same_constants!(S);
            const TINY_BEFORE_ROUNDING: bool = S::TINY_BEFORE_ROUNDING;
            $($more)*
        }
    )*};
}

library_formats! {
    PlainS: apfloat_ieee::Semantics {}
    FlaggedS: apfloat_ieee::Flagged {
        const IEEE_FLAGS: bool = S::IEEE_FLAGS;
    }
}

/// The library's value.
pub(crate) type Inner<S> = apfloat_ieee::IeeeFloat<FlaggedS<S>>;

macro_rules! formats {
    ($($(#[$attribute:meta])* $name:ident = $format:ident($bits:literal: $exp_bits:literal) { $($more:tt)* })*) => {$(
        #[doc = concat!("The format of [`", stringify!($name), "`].")]
        pub struct $format;

        $(#[$attribute])*
        pub type $name = IeeeFloat<$format>;

        impl Semantics for $format {
            const BITS: usize = $bits;
            const EXP_BITS: usize = $exp_bits;
            $($more)*
        }
    )*};
}

formats! {
    /// Binary16.
    Half = HalfS(16: 5) {}
    /// Binary32.
    Single = SingleS(32: 8) {}
    /// Binary64.
    Double = DoubleS(64: 11) {}
    /// Binary128.
    Quad = QuadS(128: 15) {}
    /// The upper half of a binary32.
    BFloat = BFloatS(16: 8) {}
    /// Eight bits with the exponents of binary16.
    Float8E5M2 = Float8E5M2S(8: 5) {}
    /// Eight bits without infinities.
    Float8E4M3FN = Float8E4M3FNS(8: 4) {
        const NONFINITE_BEHAVIOR: NonfiniteBehavior = NonfiniteBehavior::NanOnly;
    }
    /// Eight bits without infinities and without a negative zero.
    Float8E4M3FNUZ = Float8E4M3FNUZS(8: 4) {
        const NONFINITE_BEHAVIOR: NonfiniteBehavior = NonfiniteBehavior::NanNegativeZero;
        const MIN_EXP: ExpInt = -7;
    }
    /// Eight bits, four of them the exponent, with infinities.
    Float8E4M3 = Float8E4M3S(8: 4) {}
    /// Eight bits, five of them the exponent, without infinities and without a negative zero.
    Float8E5M2FNUZ = Float8E5M2FNUZS(8: 5) {
        const NONFINITE_BEHAVIOR: NonfiniteBehavior = NonfiniteBehavior::NanNegativeZero;
        const MIN_EXP: ExpInt = -15;
    }
    /// Eight bits, four of them the exponent, of bias 11, without infinities and without a negative zero.
    Float8E4M3B11FNUZ = Float8E4M3B11FNUZS(8: 4) {
        const NONFINITE_BEHAVIOR: NonfiniteBehavior = NonfiniteBehavior::NanNegativeZero;
        const MIN_EXP: ExpInt = -10;
    }
    /// Nineteen bits: the exponents of binary32 and the digits of binary16.
    FloatTF32 = FloatTF32S(19: 8) {}
    /// The 80 bits of the x87.
    X87DoubleExtended = X87DoubleExtendedS(80: 15) {
        const PRECISION: usize = 64;
        const QNAN_SIGNIFICAND: u128 = 0b11 << 62;
    }
}

macro_rules! formats_of {
    ($($(#[$attribute:meta])* $name:ident { $constant:ident, other $($other:ident: $type:ty),* })*) => {$(
        $(#[$attribute])*
        pub struct $name<S>(PhantomData<S>);

        impl<S: Semantics> Semantics for $name<S> {
            same_constants!(S);
            $(const $other: $type = S::$other;)*
            const $constant: bool = true;
        }
    )*};
}

formats_of! {
    /// The format `S` with the flags of IEEE 754-2019, tininess detected after rounding: those of x86 and RISC-V.
    /// `IeeeFlags<TinyBefore<S>>` has those of Arm and POWER. The crate `rustc_apfloat` has no such formats.
    IeeeFlags { IEEE_FLAGS, other TINY_BEFORE_ROUNDING: bool }
    /// The format `S` with tininess detected before rounding.
    TinyBefore { TINY_BEFORE_ROUNDING, other IEEE_FLAGS: bool }
}

impl<S> IeeeFloat<S> {
    pub(crate) const fn from_unpacked(value: Unpacked) -> Self {
        IeeeFloat { value, marker: PhantomData }
    }

    #[inline]
    pub(crate) fn unpacked(self) -> Unpacked {
        self.value
    }
}

impl<S: Semantics> IeeeFloat<S> {
    pub(crate) const fn made(significand: u128, exponent: ExpInt, category: Category) -> Self {
        obey_the_law::<S>();
        Self::from_unpacked(Unpacked { significand, exponent, category, negative: false })
    }

    #[inline]
    pub(crate) fn inner(self) -> Inner<S> {
        Inner::<S>::packed(self.value)
    }

    #[inline]
    pub(crate) fn of(inner: Inner<S>) -> Self {
        obey_the_law::<S>();
        Self::from_unpacked(inner.unpacked())
    }

    /// The value with that sign; where there is no -0, a zero and the NaN have none. The library makes the value anew,
    /// by its category, which takes longer.
    #[inline]
    fn with_sign(self, negative: bool) -> Self {
        let Unpacked { significand, exponent, category, .. } = self.value;
        let has_sign = match S::NONFINITE_BEHAVIOR {
            NonfiniteBehavior::IEEE754 | NonfiniteBehavior::NanOnly => true,
            NonfiniteBehavior::NanNegativeZero => category == Category::Normal,
        };
        Self::from_unpacked(Unpacked { significand, exponent, category, negative: negative && has_sign })
    }

    /// Whether both are numbers other than zero.
    #[inline]
    fn are_normal(self, other: Self) -> bool {
        self.value.category == Category::Normal && other.value.category == Category::Normal
    }

    #[inline]
    fn answered(answer: apfloat_base::StatusAnd<Inner<S>>) -> StatusAnd<Self> {
        answered(answer).map(Self::of)
    }

    /// The sum of the parts of the library's pair, rounded once.
    #[inline]
    pub(crate) fn of_pair(pair: doubles::Inner, round: Round) -> StatusAnd<Self> {
        Self::answered(double_double_operations::pair_to_format(pair, round))
    }

    /// The library's pair of the value.
    #[inline]
    pub(crate) fn to_pair(self, round: Round) -> apfloat_base::StatusAnd<doubles::Inner> {
        double_double_operations::pair_from_format(self.inner(), round)
    }

    /// The significand and the exponent of its integer bit, as the crate `rustc_apfloat` holds them.
    fn parts(self) -> (u128, ExpInt) {
        let Unpacked { significand, exponent, category, .. } = self.value;
        match category {
            Category::Zero => (0, S::MIN_EXP - 1),
            Category::Infinity => ((S::EXPLICIT_INTEGER_BIT as u128) << (S::PRECISION - 1), S::MAX_EXP + 1),
            Category::NaN => {
                let exponent = match S::NONFINITE_BEHAVIOR {
                    NonfiniteBehavior::IEEE754 => S::MAX_EXP + 1,
                    NonfiniteBehavior::NanOnly => S::MAX_EXP,
                    NonfiniteBehavior::NanNegativeZero => S::MIN_EXP - 1,
                };
                (significand, exponent)
            }
            Category::Normal => {
                let below = (S::MIN_EXP - exponent).max(0);
                (significand >> below, exponent + below)
            }
        }
    }

    /// The significand of a value that is not denormal, its integer bit included.
    pub(crate) fn significand(self) -> u128 {
        self.value.significand
    }

    #[inline]
    pub(crate) fn of_plain(plain: apfloat_ieee::IeeeFloat<PlainS<S>>) -> Self {
        obey_the_law::<S>();
        Self::from_unpacked(plain.unpacked())
    }

    #[inline]
    pub(crate) fn plain(self) -> apfloat_ieee::IeeeFloat<PlainS<S>> {
        apfloat_ieee::IeeeFloat::packed(self.value)
    }

    /// The value in a format whose values the library writes in decimal digits; it does not compile in another.
    #[inline]
    pub(crate) fn written(self) -> apfloat_ieee::IeeeFloat<PlainS<S>> {
        let () = LawOfFormat::<S>::IS_WRITTEN;
        self.plain()
    }
}

impl<S: Semantics> FloatMore for IeeeFloat<S> {
    #[inline]
    fn sqrt_r(self, round: Round) -> StatusAnd<Self> {
        Self::answered(self.inner().sqrt_r(round))
    }

    #[inline]
    fn sqrt(self) -> StatusAnd<Self> {
        Self::answered(self.inner().sqrt())
    }

    fn shortest(self) -> Option<Decimal> {
        let () = LawOfFormat::<S>::HAS_SHORTEST;
        apfloat_decimals::shortest(self.written())
    }
}

impl<S: Semantics> IeeeMore for IeeeFloat<S> {
    fn exact_decimal(self) -> Option<Decimal> {
        apfloat_decimals::exact(self.plain())
    }

    fn rounded_decimal(self, count: u32, round: Round) -> Option<(Decimal, bool)> {
        assert!((1..=36).contains(&count), "a value is rounded to 1 to 36 digits, and not to {count}");
        apfloat_decimals::rounded(self.written(), count, round)
    }

    #[inline]
    fn scale_b(self, places: ExpInt, round: Round) -> StatusAnd<Self> {
        Self::answered(self.inner().scale_b(places, round))
    }

    #[inline]
    fn c_fmod_steps(self, rhs: Self) -> (StatusAnd<Self>, u32) {
        let (remainder, steps) = self.inner().c_fmod_steps(rhs.inner());
        (Self::answered(remainder), steps)
    }

    #[inline]
    fn add_to<T: Semantics>(self, rhs: Self, round: Round) -> StatusAnd<IeeeFloat<T>> {
        format_of::add(self, rhs, round)
    }

    #[inline]
    fn sub_to<T: Semantics>(self, rhs: Self, round: Round) -> StatusAnd<IeeeFloat<T>> {
        format_of::subtract(self, rhs, round)
    }

    #[inline]
    fn mul_to<T: Semantics>(self, rhs: Self, round: Round) -> StatusAnd<IeeeFloat<T>> {
        format_of::multiply(self, rhs, round)
    }

    #[inline]
    fn div_to<T: Semantics>(self, rhs: Self, round: Round) -> StatusAnd<IeeeFloat<T>> {
        format_of::divide(self, rhs, round)
    }

    #[inline]
    fn sqrt_to<T: Semantics>(self, round: Round) -> StatusAnd<IeeeFloat<T>> {
        format_of::square_root(self, round)
    }

    #[inline]
    fn mul_add_to<T: Semantics>(self, multiplicand: Self, addend: Self, round: Round) -> StatusAnd<IeeeFloat<T>> {
        format_of::multiply_add(self, multiplicand, addend, round)
    }
}

operators!(IeeeFloat);

impl<S: Semantics> PartialEq for IeeeFloat<S> {
    #[inline]
    fn eq(&self, other: &Self) -> bool {
        if self.are_normal(*other) {
            return self.bitwise_eq(*other);
        }
        self.inner() == other.inner()
    }
}

impl<S: Semantics> PartialOrd for IeeeFloat<S> {
    #[inline]
    fn partial_cmp(&self, other: &Self) -> Option<Ordering> {
        if !self.are_normal(*other) {
            return self.inner().partial_cmp(&other.inner());
        }
        // Two numbers: the library's order of magnitudes, where the signs do not decide. This is faster than its order
        // of all values, which has cases for each. The signs choose between results that are there already, since a
        // processor cannot predict a branch on them.
        let magnitudes = self.inner().cmp_abs_normal(other.inner());
        let on_one_side = if self.value.negative { magnitudes.reverse() } else { magnitudes };
        let by_sign = other.value.negative.cmp(&self.value.negative);
        Some(if by_sign.is_eq() { on_one_side } else { by_sign })
    }
}

impl<S: Semantics> Neg for IeeeFloat<S> {
    type Output = Self;

    #[inline]
    fn neg(self) -> Self {
        self.with_sign(!self.value.negative)
    }
}

impl<S: Semantics> fmt::Display for IeeeFloat<S> {
    /// Writes the value in decimal: to as many digits as the precision says, or as many as tell it from the others. The
    /// width is how many zeros may stand before the digits or after them, 3 if there is none; a value with more is
    /// written with an exponent, as `1.0E-5`, and with `#` as `1.0000000e-05`.
    fn fmt(&self, f: &mut fmt::Formatter<'_>) -> fmt::Result {
        let (significand, exponent) = self.parts();
        digits::write(f, self.category(), self.is_negative(), S::PRECISION, |wanted| {
            let number = Number::new(significand, exponent - (S::PRECISION as ExpInt - 1));
            if LawOfFormat::<S>::HAS_QUAD_EXPONENTS {
                digits::rounded(self.plain(), number, wanted)
            } else {
                far::rounded(number, wanted)
            }
        })
    }
}

impl<S: Semantics> fmt::Debug for IeeeFloat<S> {
    /// The value in decimal, its category, its sign and significand, and the exponent of its integer bit, as in
    /// `1(Normal | +[1024] * 2^0)`.
    fn fmt(&self, f: &mut fmt::Formatter<'_>) -> fmt::Result {
        let sign = if self.is_negative() { '-' } else { '+' };
        let (significand, exponent) = self.parts();
        write!(f, "{self}({:?} | {sign}[{significand}] * 2^{exponent})", self.category())
    }
}

impl<S: Semantics> Float for IeeeFloat<S> {
    const BITS: usize = S::BITS;
    const PRECISION: usize = S::PRECISION;
    const MAX_EXP: ExpInt = S::MAX_EXP;
    const MIN_EXP: ExpInt = S::MIN_EXP;
    const ZERO: Self = Self::made(0, 0, Category::Zero);
    const INFINITY: Self = match S::NONFINITE_BEHAVIOR {
        NonfiniteBehavior::IEEE754 => Self::made(0, 0, Category::Infinity),
        NonfiniteBehavior::NanOnly | NonfiniteBehavior::NanNegativeZero => Self::NAN,
    };
    const NAN: Self = Self::made(S::NAN_SIGNIFICAND_BASE | S::QNAN_SIGNIFICAND, 0, Category::NaN);
    const SMALLEST: Self =
        Self::made(1 << (S::PRECISION - 1), S::MIN_EXP - (S::PRECISION as ExpInt - 1), Category::Normal);
    const AS_DOUBLE: Option<AsDouble<Self>> = if Constants::of::<S>().are_those_of_double() {
        obey_the_law::<S>();
        Some(AsDouble { to: |x| Double::from_unpacked(x.value), of: |x| Self::from_unpacked(x.value) })
    } else {
        None
    };

    by_the_library! {}

    #[inline]
    fn abs(self) -> Self {
        self.with_sign(false)
    }

    #[inline]
    fn copy_sign(self, rhs: Self) -> Self {
        self.with_sign(rhs.value.negative)
    }

    // The exponent tells most values from these.

    #[inline]
    fn is_smallest(self) -> bool {
        self.value.exponent == Self::SMALLEST.value.exponent && self.inner().is_smallest()
    }

    #[inline]
    fn is_smallest_normalized(self) -> bool {
        self.value.exponent == S::MIN_EXP && self.inner().is_smallest_normalized()
    }

    #[inline]
    fn is_largest(self) -> bool {
        self.value.exponent == S::MAX_EXP && self.inner().is_largest()
    }

    #[inline]
    fn mul_r(self, rhs: Self, round: Round) -> StatusAnd<Self> {
        Self::answered(self.inner().wide_mul_r(rhs.inner(), round))
    }

    #[inline]
    fn mul_add_r(self, multiplicand: Self, addend: Self, round: Round) -> StatusAnd<Self> {
        Self::answered(self.inner().wide_mul_add_r(multiplicand.inner(), addend.inner(), round))
    }

    #[inline]
    fn from_bits(input: u128) -> Self {
        S::from_bits(input)
    }

    #[inline]
    fn to_bits(self) -> u128 {
        S::to_bits(self)
    }

    fn from_str_r(s: &str, round: Round) -> Result<StatusAnd<Self>, ParseError> {
        if LawOfFormat::<S>::HAS_QUAD_EXPONENTS {
            return Ok(Self::answered(apfloat_decimals::read_decimal(s, round)?));
        }
        if let Ok(answer) = Inner::<S>::from_str_r(s, round) {
            return Ok(Self::answered(answer));
        }
        // A decimal, or a text with a fault, whatever the format.
        let _ = apfloat_decimals::read_decimal::<PlainS<QuadS>>(s, round)?;
        Ok(Self::answered(far::read(s, round)))
    }

    #[inline]
    fn cmp_abs_normal(self, rhs: Self) -> Ordering {
        assert!(self.is_finite_non_zero());
        assert!(rhs.is_finite_non_zero());
        self.inner().cmp_abs_normal(rhs.inner())
    }
}

impl<S: Semantics, T: Semantics> FloatConvert<IeeeFloat<T>> for IeeeFloat<S> {
    #[inline]
    fn convert_r(self, round: Round, loses_info: &mut bool) -> StatusAnd<IeeeFloat<T>> {
        IeeeFloat::answered(self.inner().convert_r(round, loses_info))
    }
}

#[cfg(test)]
mod tests {
    use super::*;

    fn each_code_of<S: Semantics>() {
        let value = |bits| (IeeeFloat::<S>::from_bits(bits), Inner::<S>::from_bits(bits));
        for i in 0..1 << S::BITS {
            let (x, inner) = value(i);
            let values = [(-x, -inner), (x.abs(), inner.abs())];
            assert!(values.iter().all(|(given, wanted)| given.to_bits() == wanted.to_bits()), "{x:?}");
            let truths = [x.is_smallest(), x.is_smallest_normalized(), x.is_largest()];
            assert_eq!(truths, [inner.is_smallest(), inner.is_smallest_normalized(), inner.is_largest()], "{x:?}");
            for j in 0..1 << S::BITS {
                let (y, other) = value(j);
                let values = [
                    (x.copy_sign(y), inner.copy_sign(other)),
                    (x.min(y), inner.min(other)),
                    (x.max(y), inner.max(other)),
                    (x.minimum(y), inner.minimum(other)),
                    (x.maximum(y), inner.maximum(other)),
                ];
                assert!(values.iter().all(|(given, wanted)| given.to_bits() == wanted.to_bits()), "{x:?} {y:?}");
                assert_eq!((x == y, x.partial_cmp(&y)), (inner == other, inner.partial_cmp(&other)), "{x:?} {y:?}");
            }
        }
    }

    #[test]
    fn what_is_done_without_the_library_is_what_it_does() {
        each_code_of::<Float8E5M2S>();
        each_code_of::<Float8E4M3FNS>();
        each_code_of::<Float8E4M3FNUZS>();
    }
}
