//! Arrays: values in consecutive bytes, the lowest byte of each first, as C's arrays of a little-endian machine are. A
//! value takes the fewest bytes that have its bits, and four in place of three; one of the x87 takes ten. The crate
//! `rustc_apfloat` has none of this.
//!
//! ```
//! use rustc_apfloat::arrays::{self, Overflow};
//! use rustc_apfloat::ieee::{Float8E4M3FNS, Half, SingleS};
//! use rustc_apfloat::{Float, Round};
//!
//! let singles: Vec<u8> = [1.0f32, 1.0625, 1000.0].iter().flat_map(|x| x.to_le_bytes()).collect();
//! let mut codes = [0; 3];
//! let round = Round::NearestTiesToEven;
//! let counts = arrays::convert::<SingleS, Float8E4M3FNS>(Overflow::Saturated, round, &singles, &mut codes).unwrap();
//! assert_eq!((codes, counts.inexact, counts.overflow), ([0x38, 0x38, 0x7e], 2, 1));
//!
//! // Sums of halves, each rounded once.
//! let (xs, ys, mut sums) = ([0x00, 0x3c, 0x00, 0x40], [0x00, 0x3c, 0x01, 0x00], [0; 4]);
//! let counts = arrays::map([&xs, &ys], &mut sums, |[x, y]: [Half; 2]| x.add_r(y, Round::TowardPositive)).unwrap();
//! assert_eq!((sums, counts.inexact), ([0x00, 0x40, 0x01, 0x40], 1));
//! ```

use crate::erased::apfloat_arrays as library;
use crate::ieee::{FlaggedS, IeeeFloat, Semantics};
use crate::storage_formats::{E8M0FNU, Float8E3M4, StorageFormat, StoredFloat, UE4M3};
use crate::{Category, Float, Round, Status, StatusAnd};
use core::fmt;

pub use crate::conversion_modes::{FiniteNan, Overflow};

/// How many values there are, and how many of them raised each flag or became a NaN.
#[must_use]
#[derive(Clone, Copy, Debug, Default, PartialEq, Eq)]
pub struct Counts {
    /// All values.
    pub values: u64,
    /// Those that raised `INEXACT`.
    pub inexact: u64,
    /// Those that raised `UNDERFLOW`.
    pub underflow: u64,
    /// Those that raised `OVERFLOW`.
    pub overflow: u64,
    /// Those that raised `DIV_BY_ZERO`.
    pub div_by_zero: u64,
    /// Those that raised `INVALID_OP`.
    pub invalid: u64,
    /// Those whose result is a NaN.
    pub nans: u64,
}

impl Counts {
    /// The flags that were raised.
    pub fn status(&self) -> Status {
        let raised = |count: u64, flag| if count == 0 { Status::OK } else { flag };
        raised(self.inexact, Status::INEXACT)
            | raised(self.underflow, Status::UNDERFLOW)
            | raised(self.overflow, Status::OVERFLOW)
            | raised(self.div_by_zero, Status::DIV_BY_ZERO)
            | raised(self.invalid, Status::INVALID_OP)
    }

    pub(crate) fn count(&mut self, status: Status, is_nan: bool) {
        self.values += 1;
        self.inexact += u64::from(status.contains(Status::INEXACT));
        self.underflow += u64::from(status.contains(Status::UNDERFLOW));
        self.overflow += u64::from(status.contains(Status::OVERFLOW));
        self.div_by_zero += u64::from(status.contains(Status::DIV_BY_ZERO));
        self.invalid += u64::from(status.contains(Status::INVALID_OP));
        self.nans += u64::from(is_nan);
    }
}

/// Arrays that do not fit together: one ends inside a value, or they do not have as many values as the others.
#[derive(Clone, Copy, Debug, PartialEq, Eq)]
pub struct WrongLength;

impl fmt::Display for WrongLength {
    fn fmt(&self, f: &mut fmt::Formatter<'_>) -> fmt::Result {
        f.write_str("the lengths of the arrays do not fit together")
    }
}

impl core::error::Error for WrongLength {}

/// A value of an array.
pub trait Element: Sized {
    /// How many bytes a value takes.
    const WIDTH: usize;

    /// The value in these bytes, `WIDTH` of them. Bits above those of the format are ignored.
    fn from_bytes(bytes: &[u8]) -> Self;

    /// Writes the value to these bytes, `WIDTH` of them, with zeros above the bits of the format.
    fn write_bytes(self, bytes: &mut [u8]);

    /// Whether the value is a NaN.
    fn is_nan_element(&self) -> bool;
}

/// How many bytes a value of the format takes.
const fn width<S: Semantics>() -> usize {
    assert!(S::BITS > S::PRECISION, "a format without bits");
    match S::BITS.div_ceil(8) {
        3 => 4,
        bytes => bytes,
    }
}

impl<S: Semantics> Element for IeeeFloat<S> {
    const WIDTH: usize = width::<S>();

    #[inline]
    fn from_bytes(bytes: &[u8]) -> Self {
        let mut all = [0; 16];
        all[..Self::WIDTH].copy_from_slice(bytes);
        Self::from_bits(u128::from_le_bytes(all))
    }

    #[inline]
    fn write_bytes(self, bytes: &mut [u8]) {
        bytes.copy_from_slice(&self.to_bits().to_le_bytes()[..Self::WIDTH]);
    }

    #[inline]
    fn is_nan_element(&self) -> bool {
        self.is_nan()
    }
}

macro_rules! stored_elements {
    ($($name:ident $(<$format:ident>)?: |$value:ident| $is_nan:expr;)*) => {$(
        impl $(<$format: StorageFormat>)? Element for $name $(<$format>)? {
            const WIDTH: usize = 1;

            #[inline]
            fn from_bytes(bytes: &[u8]) -> Self {
                Self::from_bits(bytes[0])
            }

            #[inline]
            fn write_bytes(self, bytes: &mut [u8]) {
                bytes[0] = self.to_bits();
            }

            #[inline]
            fn is_nan_element(&self) -> bool {
                let $value = self;
                $is_nan
            }
        }
    )*};
}

stored_elements! {
    StoredFloat<F>: |_x| false;
    E8M0FNU: |x| x.is_nan();
    UE4M3: |x| x.is_nan();
    Float8E3M4: |x| x.category() == Category::NaN;
}

/// Converts each value of an array to the format `T`, rounded once; `overflow` says what a number past the largest one
/// becomes. Singles are converted several at a time.
///
/// # Errors
///
/// `WrongLength` unless there is room for just as many results as there are values. Nothing is written then.
pub fn convert<S: Semantics, T: Semantics>(
    overflow: Overflow,
    round: Round,
    values: &[u8],
    results: &mut [u8],
) -> Result<Counts, WrongLength> {
    let widths = library::Widths { source: width::<S>(), target: width::<T>() };
    let count = values.len() / widths.source;
    if values.len() % widths.source != 0 || count.checked_mul(widths.target) != Some(results.len()) {
        return Err(WrongLength);
    }
    let counts = library::convert_block_by::<FlaggedS<S>, FlaggedS<T>>(overflow, round, widths, count, values, results);
    Ok(Counts {
        values: counts.values,
        inexact: counts.inexact,
        underflow: counts.underflow,
        overflow: counts.overflow,
        div_by_zero: 0,
        invalid: counts.invalid,
        nans: counts.nans,
    })
}

/// Writes what an operation makes of the values at each place of `N` arrays.
///
/// # Errors
///
/// `WrongLength` unless each array has as many values as there is room for results. Nothing is written then, and the
/// operation is not called.
pub fn map<X: Element, Y: Element, const N: usize>(
    operands: [&[u8]; N],
    results: &mut [u8],
    mut operation: impl FnMut([X; N]) -> StatusAnd<Y>,
) -> Result<Counts, WrongLength> {
    let count = results.len() / Y::WIDTH;
    let fits = |bytes: &[u8]| count.checked_mul(X::WIDTH) == Some(bytes.len());
    if results.len() % Y::WIDTH != 0 || !operands.iter().all(|bytes| fits(bytes)) {
        return Err(WrongLength);
    }
    let mut counts = Counts::default();
    for (index, place) in results.chunks_exact_mut(Y::WIDTH).enumerate() {
        let from = index * X::WIDTH;
        let answer = operation(operands.map(|bytes| X::from_bytes(&bytes[from..from + X::WIDTH])));
        counts.count(answer.status, answer.value.is_nan_element());
        answer.value.write_bytes(place);
    }
    Ok(counts)
}
