//! Blocks of small elements with a common scale: the microscaling formats of the Open Compute Project (MX) and NVFP4,
//! and codes of 4 and 6 bits packed into bytes. `docs/FORMATS.md` of the repository says how scales are chosen; the
//! crate `rustc_apfloat` has none of this.
//!
//! ```
//! use rustc_apfloat::Round;
//! use rustc_apfloat::blocks::{Block, ElementFormat, ScaleRule, pack_fours};
//! use rustc_apfloat::ieee::Single;
//!
//! let values = ["1", "-2.5", "0.3", "6"].map(|text| text.parse::<Single>().unwrap());
//! let (block, counts) = Block::from_values(ElementFormat::E2M1FN, &values, Round::NearestTiesToEven);
//! assert_eq!((block.scale, block.codes, counts.inexact), (127, [2, 12, 1, 7], 2));
//! let back: [Single; 4] = block.to_values(Round::NearestTiesToEven).unwrap().0;
//! assert_eq!(back.map(|x| x.to_string()), ["1", "-2", "0.5", "6"]);
//!
//! let mut bytes = [0; 2];
//! pack_fours(&block.codes, &mut bytes).unwrap();
//! assert_eq!(bytes, [0xc2, 0x71]);
//!
//! // By the rule `Ceil` nothing is past the largest element, which is 6.
//! let seven = ["7".parse::<Single>().unwrap()];
//! let (block, _) = Block::from_values_by(ScaleRule::Ceil, ElementFormat::E2M1FN, &seven, Round::TowardZero);
//! assert_eq!((block.scale, block.codes), (128, [5]));
//! ```

use crate::arrays::Counts;
use crate::erased::apfloat_base::Float as _;
use crate::erased::apfloat_ieee;
use crate::erased::small_formats::{blocks as library, packing};
use crate::ieee::{IeeeFloat, Inner, Semantics, Single};
use crate::{Float, Round};

pub use library::{ElementFormat, Nvfp4Error, ScaleRule};
pub use packing::{PackingError, pack_fours, pack_sixes, unpack_fours, unpack_sixes};

/// How many elements a block of MX has.
pub const BLOCK: usize = library::BLOCK;

/// How many elements a block of NVFP4 has.
pub const NVFP4_BLOCK: usize = library::NVFP4_BLOCK;

/// A code has more bits than the elements of its block.
#[derive(Clone, Copy, Debug, PartialEq, Eq)]
pub struct CodeTooWide;

impl core::fmt::Display for CodeTooWide {
    fn fmt(&self, f: &mut core::fmt::Formatter<'_>) -> core::fmt::Result {
        f.write_str("a code has more bits than the elements of its block")
    }
}

impl core::error::Error for CodeTooWide {}

/// A block of MX with `N` elements, 32 in each format of the specification.
#[must_use]
#[derive(Clone, Copy, Debug, PartialEq, Eq)]
pub struct Block<const N: usize = BLOCK> {
    /// The format of the elements.
    pub element: ElementFormat,
    /// The code of the scale, of [`E8M0FNU`](crate::storage_formats::E8M0FNU).
    pub scale: u8,
    /// The codes of the elements, each in the lowest bits of a byte.
    pub codes: [u8; N],
}

/// A block of NVFP4 with `N` elements `E2M1FN`, 16 in that format.
#[must_use]
#[derive(Clone, Copy, Debug, PartialEq, Eq)]
pub struct Nvfp4Block<const N: usize = NVFP4_BLOCK> {
    /// The code of the scale, of [`Float8E4M3FN`](crate::ieee::Float8E4M3FN).
    pub scale: u8,
    /// The codes of the elements, each in the lowest bits of a byte.
    pub codes: [u8; N],
}

fn counted(counts: library::Counts, values: usize, nans: usize) -> Counts {
    Counts {
        values: values as u64,
        inexact: counts.inexact as u64,
        underflow: counts.underflow as u64,
        overflow: counts.overflow as u64,
        div_by_zero: 0,
        invalid: counts.invalid as u64,
        nans: nans as u64,
    }
}

/// A single as the library has it.
fn library_single(x: Single) -> apfloat_ieee::built_in_formats::Single {
    apfloat_ieee::IeeeFloat::packed(x.unpacked())
}

/// The values that were taken out of a block, and the counts of their flags.
fn taken_out<T: Semantics, const N: usize>(
    counts: library::Counts,
    values: [Inner<T>; N],
) -> ([IeeeFloat<T>; N], Counts) {
    let values = values.map(IeeeFloat::of);
    let nans = values.iter().filter(|x| x.is_nan()).count();
    (values, counted(counts, N, nans))
}

impl<const N: usize> Block<N> {
    /// The block of these values: its scale, and each exact quotient by it, rounded once (saturating, in each mode).
    /// If a value is an infinity or a NaN, the scale is the NaN, each code is 0, and all values count as NaNs.
    pub fn from_values<S: Semantics>(
        element: ElementFormat,
        values: &[IeeeFloat<S>; N],
        round: Round,
    ) -> (Self, Counts) {
        Block::from_values_by(ScaleRule::Floor, element, values, round)
    }

    /// `from_values` with a scale by that rule.
    pub fn from_values_by<S: Semantics>(
        rule: ScaleRule,
        element: ElementFormat,
        values: &[IeeeFloat<S>; N],
        round: Round,
    ) -> (Self, Counts) {
        const { assert!(N > 0, "a block has elements") };
        let mut codes = [0; N];
        let made = library::quantize_block_by(rule, element, &values.map(IeeeFloat::plain), round, &mut codes);
        let Ok(made) = made else { unreachable!("there are as many codes as values, and some") };
        let nans = if made.is_finite { 0 } else { N };
        (Block { element, scale: made.scale, codes }, counted(made.counts, N, nans))
    }

    /// The product of each element and the scale, rounded once. If the scale is the NaN, each is the quiet NaN.
    ///
    /// # Errors
    ///
    /// `CodeTooWide` if a code has more bits than an element.
    pub fn to_values<T: Semantics>(&self, round: Round) -> Result<([IeeeFloat<T>; N], Counts), CodeTooWide> {
        const { assert!(N > 0, "a block has elements") };
        let mut values = [Inner::<T>::zero(); N];
        library::dequantize_block(self.element, self.scale, &self.codes, round, &mut values)
            .map(|counts| taken_out(counts, values))
            .map_err(|_| CodeTooWide)
    }
}

/// The scale of a tensor of NVFP4: its greatest magnitude over 448 * 6, rounded once to nearest, at most the largest
/// single, and 1 where that would be 0.
///
/// # Errors
///
/// `NotFinite` if a value is an infinity or a NaN.
pub fn tensor_scale<'a, S: Semantics + 'a>(
    values: impl IntoIterator<Item = &'a IeeeFloat<S>>,
) -> Result<Single, Nvfp4Error> {
    let mut greatest = IeeeFloat::<S>::ZERO.plain();
    for x in values {
        if !x.is_finite() {
            return Err(Nvfp4Error::NotFinite);
        }
        greatest = library::greater(greatest, x.plain());
    }
    library::tensor_scale(&[greatest]).map(|scale| Single::from_unpacked(scale.unpacked()))
}

impl<const N: usize> Nvfp4Block<N> {
    /// The block of these values, in a tensor with that scale: the scale of the block, rounded once in the mode, and
    /// each exact quotient by both scales, rounded once, saturating. If a value is an infinity or a NaN, the scale is
    /// the NaN, each code is 0, and all values count as NaNs.
    ///
    /// # Errors
    ///
    /// `TensorScale` unless the scale of the tensor is a positive number.
    pub fn from_values<S: Semantics>(
        values: &[IeeeFloat<S>; N],
        tensor: Single,
        round: Round,
    ) -> Result<(Self, Counts), Nvfp4Error> {
        const { assert!(N > 0, "a block has elements") };
        let mut codes = [0; N];
        let values = values.map(IeeeFloat::plain);
        let made = library::quantize_nvfp4_block(&values, library_single(tensor), round, &mut codes)?;
        let nans = if made.is_finite { 0 } else { N };
        Ok((Nvfp4Block { scale: made.scale, codes }, counted(made.counts, N, nans)))
    }

    /// The product of each element and both scales, rounded once. If the scale of the block is the NaN, each is the
    /// quiet NaN.
    ///
    /// # Errors
    ///
    /// `TensorScale` unless the scale of the tensor is a positive number, `BlockScale` if that of the block has a sign,
    /// `CodeTooWide` if a code has more than 4 bits.
    pub fn to_values<T: Semantics>(
        &self,
        tensor: Single,
        round: Round,
    ) -> Result<([IeeeFloat<T>; N], Counts), Nvfp4Error> {
        const { assert!(N > 0, "a block has elements") };
        let mut values = [Inner::<T>::zero(); N];
        library::dequantize_nvfp4_block(self.scale, &self.codes, library_single(tensor), round, &mut values)
            .map(|counts| taken_out(counts, values))
    }
}
