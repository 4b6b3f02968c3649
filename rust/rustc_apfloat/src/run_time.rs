//! Formats that are chosen at run time: a format as a value, calls made at its type, and values that know their format.
//! The crate `rustc_apfloat` has none of this.
//!
//! ```
//! use rustc_apfloat::Round;
//! use rustc_apfloat::run_time::{AnyFloat, Format};
//!
//! let format: Format = "bfloat".parse().unwrap();
//! let third = AnyFloat::from_str_r(format, "0x1p0", Round::TowardZero).unwrap().value;
//! let third = third.div_r(AnyFloat::from_u128_r(format, 3, Round::TowardZero).value, Round::TowardZero).value;
//! assert_eq!((third.to_bits(), third.to_string().as_str()), (0x3eaa, "0.332"));
//! assert_eq!(third.convert_r(Format::Half, Round::TowardZero, &mut false).value.to_bits(), 0x3550);
//! ```
//!
//! What [`AnyFloat`] lacks is a call of your own, made at the type of the format:
//!
//! ```
//! use rustc_apfloat::Float;
//! use rustc_apfloat::ieee::{IeeeFloat, IeeeFlags, Semantics};
//! use rustc_apfloat::run_time::{Format, InFormat};
//!
//! struct LargestBits;
//! impl InFormat for LargestBits {
//!     type Output = u128;
//!     fn in_format<S: Semantics>(self) -> u128 {
//!         IeeeFloat::<IeeeFlags<S>>::largest().to_bits()
//!     }
//! }
//! assert_eq!(Format::ALL.map(|format| format.run(LargestBits))[..2], [0x7bff, 0x7f7f_ffff]);
//! ```

use crate::ieee::*;
use crate::more::FloatMore;
use crate::{Category, ExpInt, Float, FloatConvert, ParseError, Round, StatusAnd};
use core::cmp::Ordering;
use core::fmt;
use core::ops::Neg;
use core::str::FromStr;

macro_rules! formats {
    ($($name:ident $semantics:ident $word:literal,)*) => {
        /// A built-in format that has bits. Its text is the word that the programs have for it: `half`, `e4m3fn`.
        #[derive(Clone, Copy, Debug, PartialEq, Eq, Hash)]
        pub enum Format {
            $(
                #[doc = concat!("That of [`", stringify!($semantics), "`].")]
                $name,
            )*
        }

        impl Format {
            /// All of them.
            pub const ALL: [Format; [$($word),*].len()] = [$(Format::$name),*];

            /// The word for the format.
            pub const fn word(self) -> &'static str {
                match self {
                    $(Format::$name => $word,)*
                }
            }

            /// Makes a call at the type of the format. Only what is called is compiled, once for each format.
            #[inline]
            pub fn run<C: InFormat>(self, call: C) -> C::Output {
                match self {
                    $(Format::$name => call.in_format::<$semantics>(),)*
                }
            }
        }
    };
}

formats! {
    Half HalfS "half",
    Single SingleS "single",
    Double DoubleS "double",
    Quad QuadS "quad",
    BFloat BFloatS "bfloat",
    E5M2 Float8E5M2S "e5m2",
    E4M3FN Float8E4M3FNS "e4m3fn",
    E4M3FNUZ Float8E4M3FNUZS "e4m3fnuz",
    X87 X87DoubleExtendedS "x87",
    E4M3 Float8E4M3S "e4m3",
    E5M2FNUZ Float8E5M2FNUZS "e5m2fnuz",
    E4M3B11FNUZ Float8E4M3B11FNUZS "e4m3b11fnuz",
    TF32 FloatTF32S "tf32",
}

/// A call that can be made in every format.
pub trait InFormat {
    /// What it returns.
    type Output;

    /// Makes the call in the format `S`.
    fn in_format<S: Semantics>(self) -> Self::Output;
}

/// No format has this word.
#[derive(Clone, Copy, Debug, PartialEq, Eq)]
pub struct UnknownFormat;

impl fmt::Display for UnknownFormat {
    fn fmt(&self, f: &mut fmt::Formatter<'_>) -> fmt::Result {
        f.write_str("no format has this word")
    }
}

impl core::error::Error for UnknownFormat {}

impl fmt::Display for Format {
    fn fmt(&self, f: &mut fmt::Formatter<'_>) -> fmt::Result {
        f.pad(self.word())
    }
}

impl FromStr for Format {
    type Err = UnknownFormat;

    fn from_str(word: &str) -> Result<Self, UnknownFormat> {
        Self::ALL.into_iter().find(|format| format.word() == word).ok_or(UnknownFormat)
    }
}

/// The constants of a format, as in [`Semantics`].
#[derive(Clone, Copy, Debug, PartialEq, Eq)]
pub struct Constants {
    /// The number of bits of an encoding.
    pub bits: usize,
    /// How many digits a significand has, the integer bit included.
    pub precision: usize,
    /// The least exponent of a value that is not denormal.
    pub min_exp: ExpInt,
    /// The greatest exponent of a finite value.
    pub max_exp: ExpInt,
    /// Which non-finite values the format has.
    pub nonfinite: NonfiniteBehavior,
}

struct ItsConstants;

impl InFormat for ItsConstants {
    type Output = Constants;

    fn in_format<S: Semantics>(self) -> Constants {
        Constants {
            bits: S::BITS,
            precision: S::PRECISION,
            min_exp: S::MIN_EXP,
            max_exp: S::MAX_EXP,
            nonfinite: S::NONFINITE_BEHAVIOR,
        }
    }
}

impl Format {
    /// The constants of the format.
    #[inline]
    pub fn constants(self) -> Constants {
        self.run(ItsConstants)
    }
}

/// A value of a format that is known only at run time. Its calls have the names, the results and the flags of those of
/// [`Float`]. Two operands have the same format.
///
/// # Panics
///
/// The calls with two or three operands, if the formats differ; comparisons give none then.
#[must_use]
#[derive(Clone, Copy)]
pub struct AnyFloat {
    format: Format,
    bits: u128,
}

impl AnyFloat {
    /// The value whose encoding is `bits`; bits above those of the format are ignored.
    #[inline]
    pub fn from_bits(format: Format, bits: u128) -> Self {
        struct Call(Format, u128);
        impl InFormat for Call {
            type Output = AnyFloat;

            fn in_format<S: Semantics>(self) -> AnyFloat {
                IeeeFloat::<S>::from_bits(self.1).without_type(self.0)
            }
        }
        format.run(Call(format, bits))
    }

    /// The bits of the value's encoding.
    #[inline]
    pub fn to_bits(self) -> u128 {
        self.bits
    }

    /// The format.
    #[inline]
    pub fn format(self) -> Format {
        self.format
    }

    /// A text, rounded once.
    ///
    /// # Errors
    ///
    /// Those of [`Float::from_str_r`].
    #[inline]
    pub fn from_str_r(format: Format, text: &str, round: Round) -> Result<StatusAnd<Self>, ParseError> {
        struct Call<'a>(Format, &'a str, Round);
        impl InFormat for Call<'_> {
            type Output = Result<StatusAnd<AnyFloat>, ParseError>;

            fn in_format<S: Semantics>(self) -> Self::Output {
                IeeeFloat::<S>::from_str_r(self.1, self.2).map(|answer| answer.without_type(self.0))
            }
        }
        format.run(Call(format, text, round))
    }

    /// The value in another format, rounded once. `loses_info` is set to whether the result differs from the value.
    #[inline]
    pub fn convert_r(self, to: Format, round: Round, loses_info: &mut bool) -> StatusAnd<Self> {
        struct Call(AnyFloat, Format, Round);
        struct CallFrom<S>(IeeeFloat<S>, Format, Round);
        impl InFormat for Call {
            type Output = (StatusAnd<AnyFloat>, bool);

            fn in_format<S: Semantics>(self) -> Self::Output {
                self.1.run(CallFrom(IeeeFloat::<S>::from_bits(self.0.bits), self.1, self.2))
            }
        }
        impl<S: Semantics> InFormat for CallFrom<S> {
            type Output = (StatusAnd<AnyFloat>, bool);

            fn in_format<T: Semantics>(self) -> Self::Output {
                let mut loses_info = false;
                let answer: StatusAnd<IeeeFloat<T>> = self.0.convert_r(self.2, &mut loses_info);
                (answer.without_type(self.1), loses_info)
            }
        }
        let (answer, loses) = self.format.run(Call(self, to, round));
        *loses_info = loses;
        answer
    }

    /// The operand's bits, if it has this format.
    #[inline]
    #[track_caller]
    fn bits_in(self, format: Format) -> u128 {
        assert!(self.format == format, "operands of {format} and of {}", self.format);
        self.bits
    }
}

/// What a call at the type of a format returns, without that type.
trait WithoutType {
    type Any;

    fn without_type(self, format: Format) -> Self::Any;
}

impl<S: Semantics> WithoutType for IeeeFloat<S> {
    type Any = AnyFloat;

    #[inline]
    fn without_type(self, format: Format) -> AnyFloat {
        AnyFloat { format, bits: self.to_bits() }
    }
}

impl<T: WithoutType> WithoutType for StatusAnd<T> {
    type Any = StatusAnd<T::Any>;

    #[inline]
    fn without_type(self, format: Format) -> Self::Any {
        self.map(|value| value.without_type(format))
    }
}

macro_rules! have_no_type {
    ($($type:ty),*) => {$(
        impl WithoutType for $type {
            type Any = Self;

            #[inline]
            fn without_type(self, _: Format) -> Self {
                self
            }
        }
    )*};
}

have_no_type! { bool, i32, i128, u128, Category }

/// Calls that make a value.
macro_rules! made {
    ($($(#[$attribute:meta])* fn $name:ident($($argument:ident: $of:ty),*) -> $returned:ty;)*) => {$(
        $(#[$attribute])*
        #[inline]
        pub fn $name(format: Format $(, $argument: $of)*) -> $returned {
            struct Call { format: Format, $($argument: $of,)* }
            impl InFormat for Call {
                type Output = $returned;

                fn in_format<S: Semantics>(self) -> $returned {
                    IeeeFloat::<S>::$name($(self.$argument),*).without_type(self.format)
                }
            }
            format.run(Call { format, $($argument,)* })
        }
    )*};
}

/// Calls of a value: after it the other values, then what else is given.
macro_rules! calls {
    ($($(#[$attribute:meta])*
        fn $name:ident($($operand:ident),*; $($argument:ident: $of:ty),*) -> $returned:ty;)*) => {$(
        $(#[$attribute])*
        #[inline]
        #[track_caller]
        pub fn $name(self $(, $operand: Self)* $(, $argument: $of)*) -> $returned {
            struct Call { x: AnyFloat, $($operand: u128,)* $($argument: $of,)* }
            impl InFormat for Call {
                type Output = $returned;

                fn in_format<S: Semantics>(self) -> $returned {
                    let x = IeeeFloat::<S>::from_bits(self.x.bits);
                    x.$name($(IeeeFloat::from_bits(self.$operand),)* $(self.$argument),*).without_type(self.x.format)
                }
            }
            $(let $operand = $operand.bits_in(self.format);)*
            self.format.run(Call { x: self, $($operand,)* $($argument,)* })
        }
    )*};
}

/// Calls that make an integer of a value.
macro_rules! integers {
    ($($(#[$attribute:meta])* fn $name:ident -> $returned:ty;)*) => {$(
        $(#[$attribute])*
        #[inline]
        pub fn $name(self, width: usize, round: Round, is_exact: &mut bool) -> $returned {
            struct Call(AnyFloat, usize, Round);
            impl InFormat for Call {
                type Output = ($returned, bool);

                fn in_format<S: Semantics>(self) -> Self::Output {
                    let mut is_exact = false;
                    let answer = IeeeFloat::<S>::from_bits(self.0.bits).$name(self.1, self.2, &mut is_exact);
                    (answer, is_exact)
                }
            }
            let (answer, exact) = self.format.run(Call(self, width, round));
            *is_exact = exact;
            answer
        }
    )*};
}

impl AnyFloat {
    made! {
        /// A quiet NaN with this payload.
        fn qnan(payload: Option<u128>) -> AnyFloat;
        /// A signaling NaN with this payload.
        fn snan(payload: Option<u128>) -> AnyFloat;
        /// The largest finite value.
        fn largest() -> AnyFloat;
        /// The smallest positive value that is not denormal.
        fn smallest_normalized() -> AnyFloat;
        /// An integer, rounded once.
        fn from_u128_r(input: u128, round: Round) -> StatusAnd<AnyFloat>;
        /// An integer, rounded once.
        fn from_i128_r(input: i128, round: Round) -> StatusAnd<AnyFloat>;
    }

    calls! {
        /// The sum, rounded once.
        fn add_r(rhs; round: Round) -> StatusAnd<AnyFloat>;
        /// The difference, rounded once.
        fn sub_r(rhs; round: Round) -> StatusAnd<AnyFloat>;
        /// The product, rounded once.
        fn mul_r(rhs; round: Round) -> StatusAnd<AnyFloat>;
        /// The quotient, rounded once.
        fn div_r(rhs; round: Round) -> StatusAnd<AnyFloat>;
        /// `self * multiplicand + addend`, rounded once.
        fn mul_add_r(multiplicand, addend; round: Round) -> StatusAnd<AnyFloat>;
        /// The square root, rounded once.
        fn sqrt_r(; round: Round) -> StatusAnd<AnyFloat>;
        /// The remainder by the nearest quotient.
        fn ieee_rem(rhs;) -> StatusAnd<AnyFloat>;
        /// The remainder by the truncated quotient.
        fn c_fmod(rhs;) -> StatusAnd<AnyFloat>;
        /// The value rounded to an integral value.
        fn round_to_integral(; round: Round) -> StatusAnd<AnyFloat>;
        /// The least value that is greater.
        fn next_up(;) -> StatusAnd<AnyFloat>;
        /// The greatest value that is less.
        fn next_down(;) -> StatusAnd<AnyFloat>;
        /// The value times 2 to the power of `places`, rounded once.
        fn scalbn_r(; places: ExpInt, round: Round) -> AnyFloat;
        /// The value with sign plus.
        fn abs(;) -> AnyFloat;
        /// The value with the sign of the operand.
        fn copy_sign(rhs;) -> AnyFloat;
        /// The lesser one, or a number rather than a NaN.
        fn min(other;) -> AnyFloat;
        /// The greater one, or a number rather than a NaN.
        fn max(other;) -> AnyFloat;
        /// The lesser one, or a NaN.
        fn minimum(other;) -> AnyFloat;
        /// The greater one, or a NaN.
        fn maximum(other;) -> AnyFloat;
        /// The exponent of a value, counted from its integer bit.
        fn ilogb(;) -> ExpInt;
        /// The category.
        fn category(;) -> Category;
        /// Whether the sign is minus, that of a NaN too.
        fn is_negative(;) -> bool;
        /// Whether it is a zero.
        fn is_zero(;) -> bool;
        /// Whether it is neither an infinity nor a NaN.
        fn is_finite(;) -> bool;
        /// Whether it is an infinity.
        fn is_infinite(;) -> bool;
        /// Whether it is a NaN.
        fn is_nan(;) -> bool;
        /// Whether it is a signaling NaN.
        fn is_signaling(;) -> bool;
        /// Whether it is denormal.
        fn is_denormal(;) -> bool;
        /// Whether it is an integer.
        fn is_integer(;) -> bool;
    }

    integers! {
        /// The value as a signed integer of `width` bits; `is_exact` is set to whether that is the value.
        fn to_i128_r -> StatusAnd<i128>;
        /// The value as an unsigned integer of `width` bits; `is_exact` is set to whether that is the value.
        fn to_u128_r -> StatusAnd<u128>;
    }
}

impl Neg for AnyFloat {
    type Output = Self;

    #[inline]
    fn neg(self) -> Self {
        struct Call(AnyFloat);
        impl InFormat for Call {
            type Output = AnyFloat;

            fn in_format<S: Semantics>(self) -> AnyFloat {
                (-IeeeFloat::<S>::from_bits(self.0.bits)).without_type(self.0.format)
            }
        }
        self.format.run(Call(self))
    }
}

impl PartialOrd for AnyFloat {
    #[inline]
    fn partial_cmp(&self, other: &Self) -> Option<Ordering> {
        struct Call(u128, u128);
        impl InFormat for Call {
            type Output = Option<Ordering>;

            fn in_format<S: Semantics>(self) -> Option<Ordering> {
                IeeeFloat::<S>::from_bits(self.0).partial_cmp(&IeeeFloat::from_bits(self.1))
            }
        }
        if self.format != other.format {
            return None;
        }
        self.format.run(Call(self.bits, other.bits))
    }
}

impl PartialEq for AnyFloat {
    #[inline]
    fn eq(&self, other: &Self) -> bool {
        self.partial_cmp(other) == Some(Ordering::Equal)
    }
}

impl fmt::Display for AnyFloat {
    #[inline]
    fn fmt(&self, f: &mut fmt::Formatter<'_>) -> fmt::Result {
        struct Call<'a, 'b>(u128, &'a mut fmt::Formatter<'b>);
        impl InFormat for Call<'_, '_> {
            type Output = fmt::Result;

            fn in_format<S: Semantics>(self) -> fmt::Result {
                fmt::Display::fmt(&IeeeFloat::<S>::from_bits(self.0), self.1)
            }
        }
        self.format.run(Call(self.bits, f))
    }
}

impl fmt::Debug for AnyFloat {
    /// The word of the format and the bits, as in `half(0x3c00)`.
    fn fmt(&self, f: &mut fmt::Formatter<'_>) -> fmt::Result {
        write!(f, "{}({:#x})", self.format, self.bits)
    }
}
