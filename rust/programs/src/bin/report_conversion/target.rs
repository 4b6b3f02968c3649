//! What values are converted to, and which numbers that has.

use crate::blocks::Blocks;
use crate::erased::apfloat_arrays::scaled_blocks::{BlockFormat, Dequantization, Quantization};
use crate::erased::apfloat_arrays::stored::{Ends, StorageArray, StoredFormat};
use crate::erased::apfloat_arrays::{ArrayConversion, Counts, Extended, width};
use crate::erased::formats_at_run_time::{BuiltInFormat, BuiltInKind, FlaggedFormat, InFormat};
use crate::erased::rustc_apfloat::Round;
use crate::erased::rustc_apfloat::ieee::Semantics;
use crate::erased::small_formats::blocks::{ElementFormat, ScaleRule};
use crate::erased::small_formats::saturation::Overflow;

/// The bytes of a double.
const DOUBLE: usize = 8;

/// What values are converted to.
#[derive(Clone, Copy)]
pub enum Target {
    BuiltIn(BuiltInFormat),
    Stored(StoredFormat),
    /// Blocks with a common scale.
    Blocks(Blocks),
}

/// How values are converted.
#[derive(Clone, Copy)]
pub struct Way {
    pub source: BuiltInFormat,
    pub round: Round,
    pub overflow: Overflow,
}

/// The digits of a format, and the exponent of its smallest normal number.
#[derive(Clone, Copy)]
pub struct Digits {
    pub precision: i32,
    pub least_exponent: i32,
}

/// What became of some values.
pub struct Converted {
    /// The results, as doubles.
    pub results: Vec<u8>,
    /// The exponents of the scales of their blocks; none without blocks.
    pub scales: Vec<u8>,
    pub counts: Counts,
}

/// The built-in format of this word.
pub fn built_in_named(word: &str) -> Option<BuiltInFormat> {
    BuiltInKind::named(word)?.format()
}

/// A format whose values are all doubles.
pub fn is_within_double(format: BuiltInFormat) -> bool {
    !matches!(format, BuiltInFormat::Quad | BuiltInFormat::X87)
}

impl Target {
    /// The format of this word, or the blocks of so many elements with a scale by that rule.
    pub fn named(word: &str, length: usize, rule: ScaleRule) -> Option<Target> {
        if let Some(element) = element_named(word) {
            return Some(Target::Blocks(Blocks { element, length, rule }));
        }
        match StoredFormat::named(word) {
            Some(stored) => Some(Target::Stored(stored)),
            None => built_in_named(word).map(Target::BuiltIn),
        }
    }

    /// How many values are converted together.
    pub fn values_together(self) -> usize {
        match self {
            Target::Blocks(blocks) => blocks.length,
            Target::BuiltIn(_) | Target::Stored(_) => 1,
        }
    }

    /// The digits of an element.
    pub fn digits(self) -> Digits {
        match self {
            Target::BuiltIn(format) => format.run(DigitsOf),
            Target::Stored(stored) => stored_digits(stored),
            Target::Blocks(blocks) => element_digits(blocks.element),
        }
    }

    /// Converts values, and takes the results out again.
    pub fn convert(self, way: Way, values: &[u8]) -> Converted {
        let count = values.len() / width(way.source, Extended::Packed);
        let mut results = vec![0; count * DOUBLE];
        let Way { source, round, overflow } = way;
        match self {
            Target::BuiltIn(format) => {
                let mut codes = vec![0; count * width(format, Extended::Packed)];
                let to = ArrayConversion { source, target: FlaggedFormat::BuiltIn(format), round, overflow };
                let counts = to.convert(count, values, &mut codes);
                doubles_of(format, &codes, &mut results);
                Converted { results, scales: Vec::new(), counts }
            }
            Target::Stored(stored) => {
                let mut codes = vec![0; count];
                let ends = Ends::Into(source, stored);
                let to = StorageArray { ends, extended: Extended::Packed, round, overflow };
                let counts = to.convert(count, values, &mut codes);
                let ends = Ends::OutOf(stored, FlaggedFormat::BuiltIn(BuiltInFormat::Double));
                let from = StorageArray { ends, extended: Extended::Packed, round: EXACT, overflow: Overflow::Rounded };
                from.convert(count, &codes, &mut results);
                Converted { results, scales: Vec::new(), counts }
            }
            Target::Blocks(blocks) => {
                let Blocks { element, length, rule } = blocks;
                let (mut scales, mut codes) = (vec![0; count / length], vec![0; count]);
                let format = BlockFormat::Mx(element);
                let to = Quantization { source, format, rule, length, round };
                let counts = to.quantize(values, &mut scales, &mut codes).unwrap_or(Counts::NONE);
                let target = FlaggedFormat::BuiltIn(BuiltInFormat::Double);
                let from = Dequantization { format, length, target, round: EXACT };
                // The lengths fit together, and the codes are of the format.
                let _ = from.dequantize(&scales, &codes, &mut results);
                Converted { results, scales, counts }
            }
        }
    }
}

/// The mode of conversions that are exact.
const EXACT: Round = Round::NearestTiesToEven;

/// The values of a built-in format as doubles, which they are, except that an infinity or a NaN may have become the
/// largest number of a wider format; that is made the largest double.
pub fn doubles_of(format: BuiltInFormat, values: &[u8], doubles: &mut [u8]) {
    let target = FlaggedFormat::BuiltIn(BuiltInFormat::Double);
    let to = ArrayConversion { source: format, target, round: EXACT, overflow: Overflow::Saturated };
    to.convert(doubles.len() / DOUBLE, values, doubles);
}

/// The call that finds the digits of a format.
struct DigitsOf;

impl InFormat for DigitsOf {
    type Output = Digits;

    fn in_format<S: Semantics>(self) -> Digits {
        Digits { precision: S::PRECISION as i32, least_exponent: S::MIN_EXP }
    }
}

fn stored_digits(stored: StoredFormat) -> Digits {
    let (precision, least_exponent) = match stored {
        StoredFormat::E2M1FN => (2, 0),
        StoredFormat::E2M3FN => (4, 0),
        StoredFormat::E3M2FN => (3, -2),
        StoredFormat::E3M4 => (5, -2),
        StoredFormat::E8M0FNU => (1, -127),
        StoredFormat::UE4M3 => (4, -6),
    };
    Digits { precision, least_exponent }
}

fn element_digits(element: ElementFormat) -> Digits {
    match element {
        ElementFormat::E5M2 => BuiltInFormat::E5M2.run(DigitsOf),
        ElementFormat::E4M3FN => BuiltInFormat::E4M3FN.run(DigitsOf),
        ElementFormat::E3M2FN => stored_digits(StoredFormat::E3M2FN),
        ElementFormat::E2M3FN => stored_digits(StoredFormat::E2M3FN),
        ElementFormat::E2M1FN => stored_digits(StoredFormat::E2M1FN),
    }
}

/// The elements of the blocks with this name.
fn element_named(word: &str) -> Option<ElementFormat> {
    Some(match word {
        "mxfp4" => ElementFormat::E2M1FN,
        "mxfp6e2m3" => ElementFormat::E2M3FN,
        "mxfp6e3m2" => ElementFormat::E3M2FN,
        "mxfp8e4m3" => ElementFormat::E4M3FN,
        "mxfp8e5m2" => ElementFormat::E5M2,
        _ => return None,
    })
}
