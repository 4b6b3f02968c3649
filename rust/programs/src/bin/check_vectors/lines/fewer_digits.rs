//! The formats to which an x87 rounds with fewer digits than its registers have, as its precision control asks.

use crate::erased::commands::custom_formats::{X87DoubleS, X87SingleS};
use crate::erased::rustc_apfloat::ieee::{IeeeFlags, TinyBefore};
use crate::lines::row_format::CallInFormat;

/// A format of fewer digits than `x87`, with its exponents and the flags of IEEE 754.
#[derive(Clone, Copy)]
pub enum FewerDigits {
    /// 24 digits; if true, tininess is detected before rounding.
    Single(bool),
    /// 53 digits; the same.
    Double(bool),
}

impl FewerDigits {
    /// The format of this word.
    pub fn named(word: &str) -> Option<FewerDigits> {
        match word {
            "x87p24+ieee" => Some(FewerDigits::Single(false)),
            "x87p24+ieee+before" => Some(FewerDigits::Single(true)),
            "x87p53+ieee" => Some(FewerDigits::Double(false)),
            "x87p53+ieee+before" => Some(FewerDigits::Double(true)),
            _ => None,
        }
    }

    /// Makes a call in the format.
    pub fn run<C: CallInFormat>(self, call: C) -> C::Output {
        match self {
            FewerDigits::Single(false) => call.made_in::<IeeeFlags<X87SingleS>>(),
            FewerDigits::Single(true) => call.made_in::<IeeeFlags<TinyBefore<X87SingleS>>>(),
            FewerDigits::Double(false) => call.made_in::<IeeeFlags<X87DoubleS>>(),
            FewerDigits::Double(true) => call.made_in::<IeeeFlags<TinyBefore<X87DoubleS>>>(),
        }
    }
}
