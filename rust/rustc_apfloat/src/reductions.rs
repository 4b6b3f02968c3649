//! Exact reductions (IEEE 754-2019 9.4): sums of values, of products, of squares and of magnitudes, each the exact
//! result rounded once. It does not depend on the order of the terms, but for which NaN it is. The crate
//! `rustc_apfloat` has none of this.
//!
//! ```
//! use rustc_apfloat::ieee::Double;
//! use rustc_apfloat::reductions::{self, ExactSum, LengthsDiffer};
//! use rustc_apfloat::{Float, Round, Status};
//!
//! let round = Round::NearestTiesToEven;
//! let [large, small, three] = ["1e308", "1e-308", "3"].map(|text| text.parse::<Double>().unwrap());
//! assert_eq!(reductions::sum(&[large, small, -large], round), Status::OK.and(small));
//!
//! let products = reductions::dot(&[large, small, -large], &[large, three, large], round).unwrap();
//! assert_eq!(products, small.mul_r(three, round));
//! assert_eq!(reductions::dot(&[large], &[], round), Err(LengthsDiffer));
//!
//! let mut first = ExactSum::new();
//! first.add(large);
//! let mut second = ExactSum::new();
//! second.add_product(-large, three);
//! second.add_values(&[large, large]);
//! first.join(second);
//! assert_eq!(first.rounded(round), Status::OK.and("0".parse().unwrap()));
//! ```
//!
//! [`dot_blocks`] takes vectors in blocks of small elements with common scales.

use crate::erased::exact_reductions as library;
use crate::ieee::{FlaggedS, IeeeFloat, Semantics};
use crate::status::answered;
use crate::{Round, StatusAnd};
use core::fmt;

pub use library::{BlockScaling, BlockVector, DotError, LengthsDiffer};

const NARROW: usize = library::NARROW_WORDS;
const WIDE: usize = library::WIDE_WORDS;

impl fmt::Display for LengthsDiffer {
    fn fmt(&self, f: &mut fmt::Formatter<'_>) -> fmt::Result {
        f.write_str("the slices of a dot product have different lengths")
    }
}

impl core::error::Error for LengthsDiffer {}

/// The sum of the values (IEEE 754-2019 9.4, sum), as [`ExactSum::rounded`]. Without values it is +0.
pub fn sum<S: Semantics>(values: &[IeeeFloat<S>], round: Round) -> StatusAnd<IeeeFloat<S>> {
    fn within<S: Semantics, const WORDS: usize>(values: &[IeeeFloat<S>], round: Round) -> StatusAnd<IeeeFloat<S>> {
        let mut sum = ExactSum::<S, WORDS>::empty();
        sum.add_values(values);
        sum.rounded(round)
    }
    if is_narrow::<S>() { within::<S, NARROW>(values, round) } else { within::<S, WIDE>(values, round) }
}

/// The sum of the magnitudes of the values (IEEE 754-2019 9.4, sumAbs), as [`ExactSum::rounded`].
pub fn sum_abs<S: Semantics>(values: &[IeeeFloat<S>], round: Round) -> StatusAnd<IeeeFloat<S>> {
    fn within<S: Semantics, const WORDS: usize>(values: &[IeeeFloat<S>], round: Round) -> StatusAnd<IeeeFloat<S>> {
        let mut sum = ExactSum::<S, WORDS>::empty();
        sum.add_magnitudes(values);
        sum.rounded(round)
    }
    if is_narrow::<S>() { within::<S, NARROW>(values, round) } else { within::<S, WIDE>(values, round) }
}

/// The sum of the squares of the values (IEEE 754-2019 9.4, sumSquare), as [`ExactSum::rounded`].
pub fn sum_square<S: Semantics>(values: &[IeeeFloat<S>], round: Round) -> StatusAnd<IeeeFloat<S>> {
    fn within<S: Semantics, const WORDS: usize>(values: &[IeeeFloat<S>], round: Round) -> StatusAnd<IeeeFloat<S>> {
        let mut sum = ExactSum::<S, WORDS>::empty();
        sum.add_each_product(values, values);
        sum.rounded(round)
    }
    if is_narrow::<S>() { within::<S, NARROW>(values, round) } else { within::<S, WIDE>(values, round) }
}

/// The sum of the products of the values at the same places (IEEE 754-2019 9.4, dot), as [`ExactSum::rounded`].
///
/// # Errors
///
/// `LengthsDiffer` unless both slices have as many values.
pub fn dot<S: Semantics>(
    x: &[IeeeFloat<S>],
    y: &[IeeeFloat<S>],
    round: Round,
) -> Result<StatusAnd<IeeeFloat<S>>, LengthsDiffer> {
    fn within<S: Semantics, const WORDS: usize>(
        x: &[IeeeFloat<S>],
        y: &[IeeeFloat<S>],
        round: Round,
    ) -> Result<StatusAnd<IeeeFloat<S>>, LengthsDiffer> {
        let mut sum = ExactSum::<S, WORDS>::empty();
        sum.add_products(x, y)?;
        Ok(sum.rounded(round))
    }
    if is_narrow::<S>() { within::<S, NARROW>(x, y, round) } else { within::<S, WIDE>(x, y, round) }
}

impl fmt::Display for DotError {
    fn fmt(&self, f: &mut fmt::Formatter<'_>) -> fmt::Result {
        f.write_str(match self {
            DotError::NotBlocks => "the codes are not those of blocks with such scales",
            DotError::LengthsDiffer => "the vectors of a dot product have different lengths",
        })
    }
}

impl core::error::Error for DotError {}

/// The dot product of two vectors in blocks of MX or NVFP4: the exact sum of the products of the elements at the same
/// places, each times its scales, rounded once to the format of the result. Their blocks may differ in format and
/// length. A NaN is the quiet one without a payload; elements and scales that are NaNs raise no flag.
///
/// ```
/// use rustc_apfloat::Round;
/// use rustc_apfloat::blocks::ElementFormat;
/// use rustc_apfloat::ieee::{Half, HalfS};
/// use rustc_apfloat::reductions::{BlockScaling, BlockVector, dot_blocks};
///
/// // 3 * 2, -1 * 2, 3 / 2 and 4 / 2 times 1 * 8, 6 * 8, 0.5 * 8 and 2 * 8.
/// let mx = BlockScaling::Mx(ElementFormat::E2M1FN);
/// let x = BlockVector { scaling: mx, length: 2, scales: &[128, 126], codes: &[5, 10, 5, 6] };
/// let y = BlockVector { scaling: mx, length: 4, scales: &[130], codes: &[2, 7, 1, 4] };
/// let dot = dot_blocks::<HalfS>(x, y, Round::NearestTiesToEven).unwrap();
/// assert_eq!(dot.value, "-10".parse::<Half>().unwrap());
/// ```
///
/// # Errors
///
/// `NotBlocks` if blocks have no elements, not each element a code or not each block a scale, a code has more bits than
/// its format, or the scale of the tensor is not a positive number; `LengthsDiffer` if the vectors have different
/// numbers of elements.
pub fn dot_blocks<T: Semantics>(
    x: BlockVector<'_>,
    y: BlockVector<'_>,
    round: Round,
) -> Result<StatusAnd<IeeeFloat<T>>, DotError> {
    library::dot_blocks_r::<FlaggedS<T>>(x, y, round).map(|answer| answered(answer).map(IeeeFloat::of))
}

/// Whether the sums of 2^64 products in the format fit in so many words.
const fn are_enough<S: Semantics>(words: usize) -> bool {
    let digits = 64 * S::PRECISION.div_ceil(64) + (S::MAX_EXP - S::MIN_EXP) as usize;
    2 * digits + 64 <= 64 * words
}

/// Whether few words do. In a format whose products `WIDE_WORDS` do not hold, sums do not compile.
#[inline(always)]
fn is_narrow<S: Semantics>() -> bool {
    let () = WideSum::<S>::FITS;
    are_enough::<S>(NARROW)
}

/// The exact sum of the terms so far: values, products of two values, or both. It has a fixed size, about a kilobyte
/// in the built-in formats of at most 64 bits.
///
/// `X87DoubleExtended` and `Quad` take [`WideSum`], of 16 KB. A sum in a format whose products it does not hold, as
/// `WORDS` says, does not compile.
///
/// ```compile_fail
/// use rustc_apfloat::ieee::Quad;
/// use rustc_apfloat::reductions::ExactSum;
///
/// let _ = ExactSum::<Quad>::new();
/// ```
// It is not `Clone`: sums joined with their copies would soon have more than 2^64 terms.
#[must_use]
pub struct ExactSum<S: Semantics, const WORDS: usize = NARROW>(library::ExactSum<FlaggedS<S>, WORDS>);

/// An exact sum in any built-in format, made by [`ExactSum::wide`].
///
/// ```
/// use rustc_apfloat::reductions::WideSum;
/// use rustc_apfloat::ieee::{Quad, QuadS};
/// use rustc_apfloat::{Float, Round};
///
/// let mut sum = WideSum::<QuadS>::wide();
/// let [large, small] = ["1e4900", "1e-4900"].map(|text| text.parse::<Quad>().unwrap());
/// for x in [large, small, -large] {
///     sum.add_product(x, x.abs());
/// }
/// assert!(sum.rounded(Round::NearestTiesToEven).value.is_pos_zero());
/// ```
pub type WideSum<S> = ExactSum<S, WIDE>;

impl<S: Semantics> ExactSum<S> {
    /// The sum of no terms.
    pub fn new() -> Self {
        let () = Self::FITS;
        Self::empty()
    }
}

impl<S: Semantics> WideSum<S> {
    /// The sum of no terms, in a format of any width.
    pub fn wide() -> Self {
        let () = Self::FITS;
        Self::empty()
    }
}

impl<S: Semantics, const WORDS: usize> ExactSum<S, WORDS> {
    /// That the sums of 2^64 products fit into the words of a sum.
    const FITS: () = {
        assert!(WORDS < 1 << 16, "a sum has fewer than 65,536 words");
        assert!(are_enough::<S>(WORDS), "the format has too many digits and exponents for so many words");
    };

    fn empty() -> Self {
        Self(library::ExactSum::new())
    }

    /// Adds a value.
    #[inline]
    pub fn add(&mut self, x: IeeeFloat<S>) {
        self.0.add(x.inner());
    }

    /// Adds a product.
    #[inline]
    pub fn add_product(&mut self, x: IeeeFloat<S>, y: IeeeFloat<S>) {
        self.0.add_product(x.inner(), y.inner());
    }

    /// Adds values.
    pub fn add_values(&mut self, values: &[IeeeFloat<S>]) {
        for x in values {
            self.0.add_values(&[x.inner()]);
        }
    }

    /// Adds the magnitudes of values: what `abs` makes of them.
    pub fn add_magnitudes(&mut self, values: &[IeeeFloat<S>]) {
        for x in values {
            self.0.add_magnitudes(&[x.inner()]);
        }
    }

    /// Adds the products of the values at the same places.
    ///
    /// # Errors
    ///
    /// `LengthsDiffer` unless both slices have as many values. Nothing is added then.
    pub fn add_products(&mut self, x: &[IeeeFloat<S>], y: &[IeeeFloat<S>]) -> Result<(), LengthsDiffer> {
        if x.len() != y.len() {
            return Err(LengthsDiffer);
        }
        self.add_each_product(x, y);
        Ok(())
    }

    fn add_each_product(&mut self, x: &[IeeeFloat<S>], y: &[IeeeFloat<S>]) {
        for (x, y) in x.iter().zip(y) {
            self.0.add_products(&[x.inner()], &[y.inner()]);
        }
    }

    /// Adds the terms of another sum, as if they came after its own.
    pub fn join(&mut self, later: Self) {
        self.0.join(later.0);
    }

    /// The sum, rounded once, with the flags of that rounding.
    ///
    /// The first term that is a NaN is the result, quieted, also where there is an infinity; the product of an
    /// infinity and a zero is such a term, without a payload. `INVALID_OP` is raised if a NaN was signaling or a
    /// product invalid. Otherwise infinities of both signs give the quiet NaN without a payload, with `INVALID_OP`,
    /// and those of one sign are the result. An exact zero is +0, or -0 toward negative, but a sum of zeros of one
    /// sign keeps it; without terms it is +0.
    pub fn rounded(self, round: Round) -> StatusAnd<IeeeFloat<S>> {
        answered(self.0.rounded(round)).map(IeeeFloat::of)
    }
}

impl<S: Semantics, const WORDS: usize> Default for ExactSum<S, WORDS> {
    fn default() -> Self {
        let () = Self::FITS;
        Self::empty()
    }
}

impl<S: Semantics, const WORDS: usize> fmt::Debug for ExactSum<S, WORDS> {
    fn fmt(&self, f: &mut fmt::Formatter<'_>) -> fmt::Result {
        f.debug_struct("ExactSum").finish_non_exhaustive()
    }
}
