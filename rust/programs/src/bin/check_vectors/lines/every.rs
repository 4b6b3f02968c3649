//! Rows of `every_` and a call: the checksum of what the call returns for all its operands, or for those whose patterns
//! are multiples of steps.

use crate::erased::rustc_apfloat::Flags;
use crate::lines::answer::{ExtraField, RowAnswer, StatusField, ValueField};
use crate::lines::asked::Asked;
use crate::lines::call::Call;
use crate::lines::call_fault::CallFault;
use crate::lines::call_row::CallRow;
use crate::lines::operands::{Operand, Operands};
use crate::lines::request::Answered;
use std::cmp::Ordering;

/// What the name of such a call begins with.
pub const EVERY: &str = "every_";

/// The most results of a row.
const MOST: u128 = 1 << 24;

/// The words of categories and of classes (5.7.2), which a checksum has as their places in these lists.
const WORDS: [&[&str]; 2] = [
    &["NaN", "Infinity", "Zero", "Normal"],
    &[
        "SignalingNan",
        "QuietNan",
        "NegativeInfinity",
        "NegativeNormal",
        "NegativeSubnormal",
        "NegativeZero",
        "PositiveZero",
        "PositiveSubnormal",
        "PositiveNormal",
        "PositiveInfinity",
    ],
];

/// The checksum of all results of the call `name`, which is that of the row without `every_`.
pub fn answer(row: CallRow<'_>, name: &str) -> Answered {
    let form = Call::named(name).ok_or(CallFault::Call)?.form();
    let count = form.value_count();
    if !(1..=3).contains(&count) {
        return Err(CallFault::Call);
    }
    // The steps become values, which are replaced below.
    let mut steps = [1; 3];
    let mut operands = String::new();
    for (place, word) in row.operands.split(' ').enumerate() {
        let separator = if place == 0 { "" } else { " " };
        operands.push_str(separator);
        match steps.get_mut(place) {
            Some(step) if place < count => {
                *step = word.parse::<u128>().map_err(|_| CallFault::Operands)?;
                operands.push('0');
            }
            _ => operands.push_str(word),
        }
    }
    let asked = Asked::of(name, row.format, row.mode, &operands, "-")?;
    let width = asked.width().filter(|width| *width <= 19).ok_or(CallFault::Support)?;
    let patterns = 1 << width;
    if steps.iter().any(|step| !(1..=patterns).contains(step)) {
        return Err(CallFault::Operands);
    }
    let counts = [0, 1, 2].map(|place| if place < count { patterns.div_ceil(steps[place]) } else { 1 });
    if counts.iter().product::<u128>() > MOST {
        return Err(CallFault::Operands);
    }
    checksum(asked, count, steps, counts)
}

/// The checksum of the results for so many multiples of the steps, the first operand outermost.
fn checksum(asked: Asked<'_>, count: usize, steps: [u128; 3], counts: [u128; 3]) -> Answered {
    let mut checksum: u64 = 0;
    for first in 0..counts[0] {
        for second in 0..counts[1] {
            for third in 0..counts[2] {
                let multiples = [first * steps[0], second * steps[1], third * steps[2]];
                let answer = asked.with(replaced(asked.operands(), count, multiples)).answer()?;
                checksum = extended(checksum, &answer)?;
            }
        }
    }
    Ok(RowAnswer::told(ValueField::Bits(u128::from(checksum), 64)))
}

/// The operands with these values in the first places.
fn replaced(operands: Operands, count: usize, values: [u128; 3]) -> Operands {
    let place = |index: usize, own| if index < count { Operand::Bits(values[index]) } else { own };
    Operands { first: place(0, operands.first), second: place(1, operands.second), third: place(2, operands.third) }
}

/// The checksum with one more result.
fn extended(checksum: u64, answer: &RowAnswer) -> Result<u64, CallFault> {
    let flags = match answer.status {
        StatusField::Flags(status) => u64::from(status.bits()),
        StatusField::Nothing => 0,
        StatusField::Refused => return Err(CallFault::Support),
    };
    let loses_info = matches!(answer.extra, ExtraField::LosesInfo(true));
    let value = number_of(&answer.value).ok_or(CallFault::Support)?;
    Ok(checksum
        .wrapping_mul(1_000_003)
        .wrapping_add(value.wrapping_mul(64))
        .wrapping_add(2 * flags + u64::from(loses_info)))
}

/// A result as a number, of which the lowest 64 bits count.
fn number_of(value: &ValueField) -> Option<u64> {
    match value {
        ValueField::Bits(bits, _) => Some(*bits as u64),
        ValueField::Unsigned(number) => Some(*number as u64),
        ValueField::Signed(number) => Some(*number as u64),
        ValueField::Truth(holds) => Some(u64::from(*holds)),
        ValueField::Order(order) => Some(match order {
            None => 0,
            Some(Ordering::Less) => 1,
            Some(Ordering::Equal) => 2,
            Some(Ordering::Greater) => 3,
        }),
        ValueField::Text(text) => WORDS
            .iter()
            .find_map(|words| words.iter().position(|word| *word == text.as_str()))
            .map(|place| place as u64),
        _ => None,
    }
}
