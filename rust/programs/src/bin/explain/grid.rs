//! The numbers of a storage format, among which a value becomes one.

use crate::erased::rustc_apfloat::ieee::{IeeeFloat, Semantics};
use crate::erased::rustc_apfloat::{Flags, Round, Status, StatusAnd};
use crate::erased::small_formats::{E2M1FN, E2M3FN, E3M2FN, StorageFormat, StoredFloat};

/// A storage format.
#[derive(Clone, Copy)]
pub enum Element {
    E2M1FN,
    E2M3FN,
    E3M2FN,
}

impl Element {
    /// The format of this name.
    pub fn named(word: &str) -> Option<Element> {
        match word {
            "e2m1fn" => Some(Element::E2M1FN),
            "e2m3fn" => Some(Element::E2M3FN),
            "e3m2fn" => Some(Element::E3M2FN),
            _ => None,
        }
    }

    /// How many codes have no sign.
    pub fn count(self) -> u8 {
        match self {
            Element::E2M1FN => 8,
            Element::E2M3FN | Element::E3M2FN => 32,
        }
    }

    /// The number of the code without its sign, in sixteenths.
    pub fn sixteenths(self, index: u8) -> u32 {
        let (written, quantum) = match self {
            Element::E2M1FN => (1, 8),
            Element::E2M3FN => (3, 2),
            Element::E3M2FN => (2, 1),
        };
        let (field, digits) = (u32::from(index >> written), u32::from(index % (1 << written)));
        if field == 0 { digits * quantum } else { ((digits + (1 << written)) << (field.min(8) - 1)) * quantum }
    }
}

/// What a value becomes in a storage format, by codes.
#[derive(Clone, Copy)]
pub struct Grid {
    /// The format.
    pub element: Element,
    /// The code of the result.
    pub taken: u8,
    /// The result rounded downward.
    pub lower: u8,
    /// The result rounded upward.
    pub upper: u8,
    /// The flags.
    pub status: Status,
}

impl Grid {
    /// What a value becomes.
    pub fn of<S: Semantics>(element: Element, x: IeeeFloat<S>, round: Round) -> Grid {
        let answer = stored(element, x, round);
        Grid {
            element,
            taken: answer.value,
            lower: stored(element, x, Round::TowardNegative).value,
            upper: stored(element, x, Round::TowardPositive).value,
            status: answer.status,
        }
    }

    /// Whether the value is past the largest number.
    pub fn is_beyond(self) -> bool {
        self.lower == self.upper && self.status.intersects(Status::INEXACT)
    }
}

/// A value, stored.
fn stored<S: Semantics>(element: Element, x: IeeeFloat<S>, round: Round) -> StatusAnd<u8> {
    match element {
        Element::E2M1FN => code_of::<S, E2M1FN>(x, round),
        Element::E2M3FN => code_of::<S, E2M3FN>(x, round),
        Element::E3M2FN => code_of::<S, E3M2FN>(x, round),
    }
}

/// The code of a value in a format.
fn code_of<S: Semantics, F: StorageFormat>(x: IeeeFloat<S>, round: Round) -> StatusAnd<u8> {
    let mut loses_info = false;
    let answer = StoredFloat::<F>::from_value(x, round, &mut loses_info);
    answer.status.and(answer.value.to_bits())
}
