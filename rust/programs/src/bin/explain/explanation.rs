//! The data of an explanation, independent of the format.

use crate::erased::apfloat_decimals::Decimal;
use crate::erased::rustc_apfloat::{ExpInt, Status};
use crate::grid::Grid;

/// The widths of the fields of an encoding.
#[derive(Clone, Copy)]
pub struct Widths {
    /// All bits.
    pub bits: u32,
    /// The bits of the biased exponent.
    pub exponent: u32,
}

/// What a value is.
#[derive(Clone, Copy)]
pub enum Meaning {
    /// A zero.
    Zero,
    /// A nonzero number, `significand * 2^exponent`, whose significand is odd.
    Number(u128, ExpInt),
    /// An infinity.
    Infinity,
    /// A quiet NaN.
    QuietNan,
    /// A signaling NaN.
    SignalingNan,
}

/// A value as it is shown.
#[derive(Clone, Copy)]
pub struct Shown {
    /// Its bits.
    pub bits: u128,
    /// Whether its sign is negative.
    pub negative: bool,
    /// What it is.
    pub meaning: Meaning,
    /// Its shortest decimal, if it is a number.
    pub decimal: Option<Decimal>,
    /// Whether it is denormal.
    pub is_denormal: bool,
}

/// How a word was read.
#[derive(Clone, Copy)]
pub enum Reading {
    /// The only way in which it can be read.
    Only,
    /// As bits, though the word is also a number.
    Bits,
    /// As a number, though the word consists of hexadecimal digits.
    Number,
}

/// An operand.
#[derive(Clone, Copy)]
pub struct Operand {
    /// Its value.
    pub value: Shown,
    /// How its word was read.
    pub reading: Reading,
    /// Whether the word is a number that the format lacks, so that the value is the nearest one.
    pub is_rounded: bool,
}

/// How a place between two neighbours compares with the midpoint.
#[derive(Clone, Copy)]
pub enum Side {
    /// Nearer to the lower neighbour.
    Lower,
    /// At the midpoint.
    Middle,
    /// Nearer to the upper neighbour.
    Upper,
}

/// An exact result that is not a value of the format.
#[derive(Clone, Copy)]
pub struct Exact {
    /// Whether it is negative.
    pub negative: bool,
    /// Its first 125 binary digits, rounded downward.
    pub digits: Meaning,
    /// Whether it is greater than these digits.
    pub is_cut: bool,
}

/// A place between two neighbours.
#[derive(Clone, Copy)]
pub struct Between {
    /// The exact result.
    pub exact: Exact,
    /// The neighbour below.
    pub lower: Shown,
    /// The neighbour above.
    pub upper: Shown,
    /// The distance from the lower neighbour, in 64ths of the distance to the upper one, rounded down.
    pub parts: u32,
    /// How the place compares with the midpoint.
    pub side: Side,
    /// Whether the upper neighbour is the result.
    pub takes_upper: bool,
}

/// Where an exact result is.
#[derive(Clone, Copy)]
pub enum Place {
    /// Not shown: nothing was computed, or an operand or the result is not a number.
    None,
    /// It is a value of the format.
    Exact,
    /// Between two neighbours.
    Between(Between),
    /// Beyond the largest value.
    Beyond(Exact),
}

/// Where a machine takes the NaN of a result from.
#[derive(Clone, Copy)]
pub enum NanSource {
    /// No operand is a NaN, so that the result is the default NaN.
    NoNan,
    /// The default NaN takes the place of a NaN that is added to the product of an infinity and a zero.
    InvalidProduct,
    /// An operand that is a NaN, as the machine chooses.
    Operands,
}

/// A computation.
#[derive(Clone, Copy)]
pub struct Explanation {
    /// The widths of the format's fields.
    pub widths: Widths,
    /// The operands, the last one repeated if there are fewer than three.
    pub operands: [Operand; 3],
    /// The result.
    pub result: Shown,
    /// Its flags.
    pub status: Status,
    /// Where the NaN comes from, if the result is one that a machine gives.
    pub nan_source: Option<NanSource>,
    /// Where the exact result is.
    pub place: Place,
    /// What the operand becomes in a storage format, if it is converted.
    pub grid: Option<Grid>,
}
