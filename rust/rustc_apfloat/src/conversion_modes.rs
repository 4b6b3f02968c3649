//! Conversions to every format by two more modes than those of IEEE 754: to odd, and with random digits
//! (stochastic rounding); and conversions that saturate. `docs/FORMATS.md` of the repository says what they do; the
//! crate `rustc_apfloat` has none of this.
//!
//! ```
//! use rustc_apfloat::Float;
//! use rustc_apfloat::conversion_modes::{ConversionRound, RandomDigits, convert_by};
//! use rustc_apfloat::ieee::{Float8E4M3FNS, Single};
//!
//! // 1.05 is 102 of 256 parts above 1, of the distance to the next value, 1.125.
//! let x: Single = "1.05".parse().unwrap();
//! let code = |random| {
//!     let mode = ConversionRound::Stochastic(RandomDigits::new(8, random).unwrap());
//!     convert_by::<_, Float8E4M3FNS>(x, mode, &mut false).value.to_bits()
//! };
//! assert_eq!((code(153), code(154)), (0x38, 0x39));
//! ```

use crate::erased::{small_formats, small_formats::stochastic as library};
use crate::ieee::{FlaggedS, IeeeFloat, PlainS, Semantics};
use crate::status::answered;
use crate::{Round, StatusAnd};

pub use small_formats::saturation::{FiniteNan, Overflow};
pub use small_formats::{NanResult, RandomError};

/// Random binary digits for one conversion, handed in by the caller.
#[derive(Clone, Copy, Debug)]
pub struct RandomDigits(small_formats::RandomDigits);

impl RandomDigits {
    /// `random` as a number of `digits` binary digits.
    ///
    /// # Errors
    ///
    /// `DigitCount` unless there are 1 to 32 digits, `TooWide` if `random` has more.
    pub fn new(digits: u32, random: u32) -> Result<Self, RandomError> {
        small_formats::RandomDigits::new(digits, random).map(Self)
    }

    pub(crate) fn given(self) -> small_formats::RandomDigits {
        self.0
    }
}

/// How a conversion rounds.
#[derive(Clone, Copy, Debug)]
pub enum ConversionRound {
    /// One of the five modes of IEEE 754.
    Ieee(Round),
    /// The neighbour whose significand is odd. What is past the largest value becomes the largest value.
    ToOdd,
    /// The upper neighbour, in magnitude, if the random number reaches 2^digits together with the distance of the value
    /// from the lower one, in units of 2^-digits of the distance of the two, cut to whole ones. Past the largest value
    /// as to nearest.
    Stochastic(RandomDigits),
}

impl ConversionRound {
    pub(crate) fn given(self) -> small_formats::ConversionRound {
        match self {
            Self::Ieee(round) => small_formats::ConversionRound::Ieee(round),
            Self::ToOdd => small_formats::ConversionRound::ToOdd,
            Self::Stochastic(bits) => small_formats::ConversionRound::Stochastic(bits.0),
        }
    }
}

/// A value in another format, rounded once in a mode of conversions, with the flags of that rounding. In a mode of IEEE
/// 754 it is `convert_r`, and so it is for a NaN, an infinity and a zero. A number that the format has is unchanged. It
/// does not compile for a target with the flags of IEEE 754-2019.
pub fn convert_by<S: Semantics, T: Semantics>(
    x: IeeeFloat<S>,
    mode: ConversionRound,
    loses_info: &mut bool,
) -> StatusAnd<IeeeFloat<T>> {
    const { assert!(!T::IEEE_FLAGS, "no conversion in these modes has the flags of IEEE 754-2019") };
    answered(library::convert_by::<PlainS<S>, PlainS<T>>(x.plain(), mode.given(), loses_info)).map(IeeeFloat::of_plain)
}

/// A value in another format, rounded once, where `overflow` says what becomes of a number past the largest one, and of
/// an infinity and a NaN where only finite values are wanted. The flags are those of the rounding, except that an
/// infinity made finite has `INEXACT`, and a NaN made finite `INVALID_OP`.
pub fn convert_saturating<S: Semantics, T: Semantics>(
    x: IeeeFloat<S>,
    overflow: Overflow,
    round: Round,
    loses_info: &mut bool,
) -> StatusAnd<IeeeFloat<T>> {
    let answer =
        small_formats::saturation::convert_by::<FlaggedS<S>, FlaggedS<T>>(overflow, round, x.inner(), loses_info);
    answered(answer).map(IeeeFloat::of)
}
