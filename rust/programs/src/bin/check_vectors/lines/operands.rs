//! The operands of a call.

use crate::erased::commands::{bits_of, number_of};
use crate::erased::rustc_apfloat::{ExpInt, Float, Status};
use crate::lines::answer::status_named;
use crate::lines::quanta::Quanta;
use crate::lines::widths::mask;

/// An operand, read without its format.
#[derive(Clone, Copy)]
pub enum Operand {
    /// No operand.
    Nothing,
    /// A value, as its bits.
    Bits(u128),
    /// A value of a format without bits.
    Quanta(Quanta),
    /// An exponent, a width or a number of digits.
    Integer(ExpInt),
    /// An unsigned integer.
    Unsigned(u128),
    /// An integer.
    Signed(i128),
    /// The payload of a NaN, or none.
    Payload(Option<u128>),
    /// Flags.
    Status(Status),
}

/// The operands of a call.
#[derive(Clone, Copy)]
pub struct Operands {
    /// The first one.
    pub first: Operand,
    /// The second one.
    pub second: Operand,
    /// The third one.
    pub third: Operand,
}

impl Operands {
    /// No operands.
    pub fn none() -> Operands {
        Operands::one(Operand::Nothing)
    }

    /// A single operand.
    pub fn one(first: Operand) -> Operands {
        Operands { first, second: Operand::Nothing, third: Operand::Nothing }
    }

    /// Two values, separated by a space.
    pub fn two_values(text: &str) -> Option<Operands> {
        let (first, second) = text.split_once(' ')?;
        match (Operand::value(first), Operand::value(second)) {
            (Some(first), Some(second)) => Some(Operands { first, second, third: Operand::Nothing }),
            _ => None,
        }
    }

    /// Three values, separated by spaces.
    pub fn three_values(text: &str) -> Option<Operands> {
        let (first, others) = text.split_once(' ')?;
        match (Operand::value(first), Operands::two_values(others)) {
            (Some(value), Some(others)) => Some(Operands { first: value, second: others.first, third: others.second }),
            _ => None,
        }
    }

    /// Flags, once.
    pub fn one_status(text: &str) -> Option<Operands> {
        status_named(text).map(|status| Operands::one(Operand::Status(status)))
    }

    /// Flags, twice, separated by a space.
    pub fn two_statuses(text: &str) -> Option<Operands> {
        let (first, second) = text.split_once(' ')?;
        match (status_named(first), status_named(second)) {
            (Some(first), Some(second)) => Some(Operands {
                first: Operand::Status(first),
                second: Operand::Status(second),
                third: Operand::Nothing,
            }),
            _ => None,
        }
    }

    /// Flags, three times, separated by spaces.
    pub fn three_statuses(text: &str) -> Option<Operands> {
        let (first, others) = text.split_once(' ')?;
        match (status_named(first), Operands::two_statuses(others)) {
            (Some(first), Some(others)) => {
                Some(Operands { first: Operand::Status(first), second: others.first, third: others.second })
            }
            _ => None,
        }
    }

    /// A value and an integer, separated by a space.
    pub fn value_and_integer(text: &str) -> Option<Operands> {
        let (value, integer) = text.split_once(' ')?;
        match (Operand::value(value), integer.parse::<ExpInt>()) {
            (Some(first), Ok(integer)) => {
                Some(Operands { first, second: Operand::Integer(integer), third: Operand::Nothing })
            }
            _ => None,
        }
    }

    /// A value and flags, separated by a space.
    pub fn value_and_status(text: &str) -> Option<Operands> {
        let (value, status) = text.split_once(' ')?;
        let (first, second) = (Operand::value(value)?, Operand::Status(status_named(status)?));
        Some(Operands { first, second, third: Operand::Nothing })
    }

    /// A value, a number of digits and an integer without a sign, separated by spaces.
    pub fn value_and_random(text: &str) -> Option<Operands> {
        let (rest, random) = text.rsplit_once(' ')?;
        match (Operands::value_and_integer(rest), Operand::unsigned(random)) {
            (Some(read), Some(third)) => Some(Operands { third, ..read }),
            _ => None,
        }
    }
}

impl Operand {
    /// A value, as bits or as quanta.
    pub fn value(word: &str) -> Option<Operand> {
        if let Some(bits) = bits_of(word, 128) {
            return Some(Operand::Bits(bits));
        }
        Quanta::named(word).map(Operand::Quanta)
    }

    /// An unsigned integer.
    pub fn unsigned(word: &str) -> Option<Operand> {
        number_of(word).map(Operand::Unsigned)
    }

    /// An integer.
    pub fn signed(word: &str) -> Option<Operand> {
        word.parse::<i128>().ok().map(Operand::Signed)
    }

    /// The payload of a NaN, or none.
    pub fn payload(word: &str) -> Option<Operand> {
        match bits_of(word, 128) {
            Some(bits) => Some(Operand::Payload(Some(bits))),
            None if word == "None" => Some(Operand::Payload(None)),
            None => None,
        }
    }
}

/// The value of an operand: its bits, or a count of quanta in a format without bits.
pub fn value_of<F: Float>(operand: Operand) -> Option<F> {
    match operand {
        Operand::Bits(bits) if bits <= mask(F::BITS) && F::PRECISION < F::BITS => Some(F::from_bits(bits)),
        Operand::Quanta(quanta) if F::PRECISION >= F::BITS => quanta.value(),
        _ => None,
    }
}

/// The values of the first two operands.
pub fn two_values<F: Float>(operands: Operands) -> Option<(F, F)> {
    match (value_of(operands.first), value_of(operands.second)) {
        (Some(x), Some(y)) => Some((x, y)),
        _ => None,
    }
}
