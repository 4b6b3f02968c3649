//! Values of a format without bits, as rows write them.
//!
//! A word is a sign and a magnitude: `+3q` is three quanta (the smallest positive values), `-5*2^70q` is minus five
//! times 2^70 quanta, `+0q` and `-0q` are the zeros, `+inf` is an infinity, and `-nan:2a` and `-snan:2a` are the quiet
//! and the signaling NaN with a payload in hexadecimal digits.
//!
//! Whether a value is that of a word is decided without reading texts: a number, scaled by a power of two (`scalbn`),
//! has to convert (`to_u128`) to the odd part of the count; zeros and infinities are recognized by their category, and
//! NaNs by comparison with the results of `qnan` and `snan`. Operands are made by calls too, and then checked in the
//! same way.

use crate::erased::commands::{bits_of, number_of};
use crate::erased::rustc_apfloat::{Category, ExpInt, Flags, Float};
use crate::library;
use crate::lines::text::Text;
use std::fmt::Write;

/// The value that a word spells.
#[derive(Clone, Copy)]
pub struct Quanta {
    is_negative: bool,
    magnitude: Magnitude,
}

/// A magnitude.
#[derive(Clone, Copy)]
pub enum Magnitude {
    Infinity,
    // NaNs, with their payloads.
    Quiet(u128),
    Signaling(u128),
    Zero,
    // An odd integer times a power of two, of quanta.
    Count(u128, ExpInt),
}

impl Quanta {
    /// The value that a word spells, if it has the form of a value.
    pub fn named(word: &str) -> Option<Quanta> {
        if let Some(magnitude) = word.strip_prefix('-') {
            return signed(true, Magnitude::named(magnitude));
        }
        word.strip_prefix('+').and_then(|magnitude| signed(false, Magnitude::named(magnitude)))
    }

    /// The value in the type `F`, if the type has it.
    pub fn value<F: Float>(self) -> Option<F> {
        let x = self.magnitude.value::<F>()?;
        let x = if self.is_negative { -x } else { x };
        if self.is_of(x) { Some(x) } else { None }
    }

    /// Whether this is the value `x`.
    pub fn is_of<F: Float>(self, x: F) -> bool {
        x.is_negative() == self.is_negative && self.magnitude.is_of(x.abs())
    }
}

/// A magnitude with a sign, if there is a magnitude.
fn signed(is_negative: bool, magnitude: Option<Magnitude>) -> Option<Quanta> {
    magnitude.map(|magnitude| Quanta { is_negative, magnitude })
}

/// The word for a value other than a NaN.
pub fn text_of<F: Float>(x: F) -> Option<Text> {
    let sign = if x.is_negative() { "-" } else { "+" };
    match x.category() {
        Category::NaN => None,
        Category::Infinity => joined(sign, "inf"),
        Category::Zero => joined(sign, "0q"),
        Category::Normal => match count_of(x) {
            Some((number, power)) => text_of_count(sign, number, power),
            None => None,
        },
    }
}

/// The word made of a sign and a magnitude.
fn joined(sign: &str, magnitude: &str) -> Option<Text> {
    let mut text = Text::of(sign);
    match text.write_str(magnitude) {
        Ok(()) => Some(text),
        Err(_) => None,
    }
}

/// The word for a count of quanta.
fn text_of_count(sign: &str, number: u128, power: ExpInt) -> Option<Text> {
    let mut text = Text::of(sign);
    let written = match short(number, power) {
        Some(short) => write!(text, "{short}q"),
        None => write!(text, "{number}*2^{power}q"),
    };
    match written {
        Ok(()) => Some(text),
        Err(_) => None,
    }
}

/// A count as a single number, if it is below 2^63.
fn short(number: u128, power: ExpInt) -> Option<i64> {
    let number = i64::try_from(number).ok()?;
    let power = u32::try_from(power).ok()?;
    2i64.checked_pow(power).and_then(|factor| number.checked_mul(factor))
}

/// The count of quanta of a nonzero number.
fn count_of<F: Float>(x: F) -> Option<(u128, ExpInt)> {
    let power = x.ilogb().saturating_sub(F::MIN_EXP).max(0);
    exponent_to_count(F::PRECISION, F::MIN_EXP, power)
        .and_then(|exponent| odd_count(x.abs().scalbn(exponent).to_u128(128).value, power))
}

/// The exponent of `2^power` quanta of a format with this precision and this least exponent.
fn exponent_of(precision: usize, min_exp: ExpInt, power: ExpInt) -> Option<ExpInt> {
    let digits = ExpInt::try_from(precision).ok()?;
    let below = min_exp.checked_sub(digits)?;
    below.checked_add(1).and_then(|of_quantum| of_quantum.checked_add(power))
}

/// The exponent that scales `2^power` quanta of such a format to 1.
fn exponent_to_count(precision: usize, min_exp: ExpInt, power: ExpInt) -> Option<ExpInt> {
    exponent_of(precision, min_exp, power).and_then(|exponent| exponent.checked_neg())
}

/// A nonzero integer times a power of two, with the integer odd.
fn odd_count(number: u128, power: ExpInt) -> Option<(u128, ExpInt)> {
    let zeros = number.trailing_zeros();
    let added = ExpInt::try_from(zeros).ok()?;
    match (number.checked_shr(zeros), power.checked_add(added)) {
        (Some(number), Some(power)) => Some((number, power)),
        _ => None,
    }
}

impl Magnitude {
    /// The magnitude of a word without its sign.
    fn named(word: &str) -> Option<Magnitude> {
        if word == "inf" {
            return Some(Magnitude::Infinity);
        }
        if let Some(digits) = word.strip_prefix("nan:") {
            return Magnitude::quiet(bits_of(digits, 128));
        }
        if let Some(digits) = word.strip_prefix("snan:") {
            return Magnitude::signaling(bits_of(digits, 128));
        }
        word.strip_suffix('q').and_then(Magnitude::counted)
    }

    /// The quiet NaN with a payload, if there is one.
    fn quiet(payload: Option<u128>) -> Option<Magnitude> {
        payload.map(Magnitude::Quiet)
    }

    /// The signaling NaN with a payload, if there is one.
    fn signaling(payload: Option<u128>) -> Option<Magnitude> {
        payload.map(Magnitude::Signaling)
    }

    /// The magnitude of a count of quanta.
    fn counted(count: &str) -> Option<Magnitude> {
        match count.split_once("*2^") {
            None => Magnitude::of_count(number_of(count), Some(0)),
            Some((factor, power)) => Magnitude::of_count(number_of(factor), exponent_named(power)),
        }
    }

    /// The magnitude of a number times a power of two, if both exist.
    fn of_count(number: Option<u128>, power: Option<ExpInt>) -> Option<Magnitude> {
        let (Some(number), Some(power)) = (number, power) else {
            return None;
        };
        if number == 0 {
            return Some(Magnitude::Zero);
        }
        odd_count(number, power).map(|(number, power)| Magnitude::Count(number, power))
    }

    /// The value of this magnitude with a positive sign, if there is one.
    fn value<F: Float>(self) -> Option<F> {
        match self {
            Magnitude::Infinity => Some(library::infinity()),
            Magnitude::Quiet(payload) => Some(F::qnan(Some(payload))),
            Magnitude::Signaling(payload) => Some(F::snan(Some(payload))),
            Magnitude::Zero => Some(library::zero()),
            Magnitude::Count(number, power) => counted(number, power),
        }
    }

    /// Whether a value with a positive sign has this magnitude.
    fn is_of<F: Float>(self, x: F) -> bool {
        match self {
            Magnitude::Infinity => x.is_infinite(),
            Magnitude::Quiet(payload) => x.bitwise_eq(F::qnan(Some(payload))),
            Magnitude::Signaling(payload) => x.bitwise_eq(F::snan(Some(payload))),
            Magnitude::Zero => x.is_zero(),
            Magnitude::Count(number, power) => x.is_finite_non_zero() && has_count(x, number, power),
        }
    }
}

/// The value of a count of quanta, rounded.
fn counted<F: Float>(number: u128, power: ExpInt) -> Option<F> {
    exponent_of(F::PRECISION, F::MIN_EXP, power).map(|exponent| F::from_u128(number).value.scalbn(exponent))
}

/// Whether a number is this count of quanta.
fn has_count<F: Float>(x: F, number: u128, power: ExpInt) -> bool {
    let Some(exponent) = exponent_to_count(F::PRECISION, F::MIN_EXP, power) else {
        return false;
    };
    let integer = x.scalbn(exponent).to_u128(128);
    integer.status.is_empty() && integer.value == number
}

/// The exponent that a word spells.
fn exponent_named(word: &str) -> Option<ExpInt> {
    word.parse().ok()
}
