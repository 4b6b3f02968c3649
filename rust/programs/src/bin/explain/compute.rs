//! Computes what is shown.
//!
//! The neighbours of an exact result are the results rounded downward and upward. Its place between them is found in a
//! format of 125 digits, rounded downward: the midpoint of two neighbours is a value of that format, and the flag
//! INEXACT says whether the exact result is above it.

use crate::erased::apfloat_decimals::{read_decimal, shortest};
use crate::erased::commands::bits_of;
use crate::erased::commands::custom_formats::Vast;
use crate::erased::formats_at_run_time::InFormat;
use crate::erased::rustc_apfloat::ieee::{Flagged, IeeeFloat, Semantics};
use crate::erased::rustc_apfloat::{Category, ExpInt, Flags, Float, FloatConvert, Round, Status, StatusAnd};
use crate::explanation::{Between, Exact, Explanation, Meaning, Operand, Place, Reading, Shown, Side, Widths};
use crate::grid::Grid;
use crate::on_machine::{nan_source, on_machine};
use crate::question::{Operation, Question};

/// A computation in a format that is chosen while the program runs.
#[derive(Clone, Copy)]
pub struct Computation<'a> {
    /// What is to be explained.
    pub question: Question<'a>,
}

impl<'a> InFormat for Computation<'a> {
    type Output = Result<Explanation, &'a str>;

    fn in_format<S: Semantics>(self) -> Result<Explanation, &'a str> {
        explained::<S>(self.question)
    }
}

/// The value of a word.

struct Given<S: Semantics> {
    value: IeeeFloat<S>,
    reading: Reading,
    is_rounded: bool,
}
impl<S: Semantics> Copy for Given<S> {}
impl<S: Semantics> Clone for Given<S> {
    fn clone(&self) -> Self {
        *self
    }
}

/// The computation in a format, or the word that is not a value.
fn explained<'a, S: Semantics>(question: Question<'a>) -> Result<Explanation, &'a str> {
    values_of::<S>(question.operands).map(|operands| explanation(question, operands[0], operands[1], operands[2]))
}

/// The values of the words.
fn values_of<'a, S: Semantics>(words: &'a [String]) -> Result<[Given<S>; 3], &'a str> {
    let mut found = [Given { value: IeeeFloat::<S>::from_u128(0).value, reading: Reading::Only, is_rounded: false }; 3];
    for (place, word) in words.iter().enumerate() {
        let word = word.as_str();
        let Some(given) = value_of::<S>(word) else {
            return Err(word);
        };
        if place < 3 {
            found[place] = given;
        }
    }
    Ok(found)
}

/// The value of a word: a number followed by `d`, bits, or any other number.
fn value_of<S: Semantics>(word: &str) -> Option<Given<S>> {
    let reading = if bits_of(word, 128).is_some() { Reading::Number } else { Reading::Only };
    if let Some(text) = word.strip_suffix('d') {
        if let Some(number) = number_of::<S>(text, reading) {
            return Some(number);
        }
    }
    let number = number_of::<S>(word, reading);
    match bits_of(word, S::BITS) {
        Some(bits) => Some(Given {
            value: S::from_bits(bits),
            reading: if number.is_some() { Reading::Bits } else { Reading::Only },
            is_rounded: false,
        }),
        None => number,
    }
}

/// The value nearest to the number that a text spells.
fn number_of<S: Semantics>(text: &str, reading: Reading) -> Option<Given<S>> {
    match read_decimal::<S>(text, Round::NearestTiesToEven) {
        Ok(answer) => {
            Some(Given { value: answer.value, reading, is_rounded: answer.status.intersects(Status::INEXACT) })
        }
        Err(_) => None,
    }
}

/// What is shown of a computation.
fn explanation<S: Semantics>(question: Question, first: Given<S>, second: Given<S>, third: Given<S>) -> Explanation {
    let (x, y, z) = (first.value, second.value, third.value);
    let (operation, round) = (question.operation, question.round);
    let plain = computed(operation, x, y, z, round);
    let place = place(operation, x, y, z, plain.value, plain.status);
    let (answer, nan_source) = match question.machine {
        None => (plain, None),
        Some((machine, _)) => {
            (on_machine(machine, operation, x, y, z, round), nan_source(machine, operation, x, y, z, plain.value))
        }
    };
    let grid = match operation {
        Operation::Into(element) => Some(Grid::of(element, x, round)),
        _ => None,
    };
    let a = operand(first);
    let b = operand(second);
    let c = operand(third);
    Explanation {
        widths: widths::<S>(),
        operands: [a, b, c],
        result: shown(answer.value),
        status: answer.status,
        nan_source,
        place,
        grid,
    }
}

/// The widths of a format's fields.
fn widths<S: Semantics>() -> Widths {
    Widths { bits: S::BITS as u32, exponent: S::EXP_BITS as u32 }
}

/// An operation on values of a format.
pub fn computed<S: Flagged>(
    operation: Operation,
    x: IeeeFloat<S>,
    y: IeeeFloat<S>,
    z: IeeeFloat<S>,
    round: Round,
) -> StatusAnd<IeeeFloat<S>> {
    match operation {
        Operation::Value | Operation::Into(_) => Status::OK.and(x),
        Operation::OfTwo(arithmetic) => arithmetic.answer(x, y, round),
        Operation::FusedSum => x.wide_mul_add_r(y, z, round),
        Operation::SquareRoot => x.sqrt_r(round),
    }
}

/// The value of a word as it is shown.
fn operand<S: Semantics>(given: Given<S>) -> Operand {
    Operand { value: shown(given.value), reading: given.reading, is_rounded: given.is_rounded }
}

/// A value as it is shown.
fn shown<S: Semantics>(x: IeeeFloat<S>) -> Shown {
    Shown {
        bits: S::to_bits(x),
        negative: x.is_negative(),
        meaning: meaning(x),
        decimal: shortest(x),
        is_denormal: x.is_denormal(),
    }
}

/// What a value is.
fn meaning<S: Semantics>(x: IeeeFloat<S>) -> Meaning {
    match x.category() {
        Category::Zero => Meaning::Zero,
        Category::Normal => number(x),
        Category::Infinity => Meaning::Infinity,
        Category::NaN => {
            if x.is_signaling() {
                Meaning::SignalingNan
            } else {
                Meaning::QuietNan
            }
        }
    }
}

/// A nonzero number as an odd number times a power of two.
fn number<S: Semantics>(x: IeeeFloat<S>) -> Meaning {
    let last = x.ilogb().saturating_sub(124);
    let digits = widened(x.abs()).scalbn(0_i32.saturating_sub(last));
    let whole = digits.to_u128(128).value;
    let zeros = whole.trailing_zeros();
    if zeros >= 128 {
        return Meaning::Zero;
    }
    Meaning::Number(whole >> zeros, last.saturating_add(zeros as ExpInt))
}

/// A value in the format of 125 digits, which has every number of the format.
fn widened<S: Semantics>(x: IeeeFloat<S>) -> Vast {
    let mut loses_info = false;
    let converted: StatusAnd<Vast> = x.convert_r(Round::NearestTiesToEven, &mut loses_info);
    converted.value
}

/// Where the exact result of an operation is.
fn place<S: Semantics>(
    operation: Operation,
    x: IeeeFloat<S>,
    y: IeeeFloat<S>,
    z: IeeeFloat<S>,
    answer: IeeeFloat<S>,
    status: Status,
) -> Place {
    let lower = computed(operation, x, y, z, Round::TowardNegative).value;
    let upper = computed(operation, x, y, z, Round::TowardPositive).value;
    if !status.intersects(Status::INEXACT) {
        return if answer.is_finite() { Place::Exact } else { Place::None };
    }
    let downward = exact_place(operation, widened(x), widened(y), widened(z));
    if !lower.is_finite() || !upper.is_finite() {
        return Place::Beyond(exact_result(&downward));
    }
    let way = way_between(widened(lower), widened(upper), &downward);
    Place::Between(Between {
        exact: exact_result(&downward),
        lower: shown(lower),
        upper: shown(upper),
        parts: way.parts,
        side: way.side,
        takes_upper: answer.bitwise_eq(upper),
    })
}

/// The exact result, rounded downward to 125 digits.
fn exact_place(operation: Operation, x: Vast, y: Vast, z: Vast) -> StatusAnd<Vast> {
    computed(operation, x, y, z, Round::TowardNegative)
}

/// The exact result, from the result rounded downward.
fn exact_result(downward: &StatusAnd<Vast>) -> Exact {
    Exact {
        negative: downward.value.is_negative(),
        digits: meaning(downward.value),
        is_cut: downward.status.intersects(Status::INEXACT),
    }
}

/// A place between two neighbours.
#[derive(Clone, Copy)]
struct Way {
    parts: u32,
    side: Side,
}

/// The place of a number between two neighbours. The number is rounded downward, and inexact if it is greater.
fn way_between(lower: Vast, upper: Vast, exact: &StatusAnd<Vast>) -> Way {
    let gap = (upper - lower).value;
    let above = exact.value.sub_r(lower, Round::TowardNegative);
    let is_cut = exact.status.union(above.status).intersects(Status::INEXACT);
    let way = (above.value / gap).value;
    let parts = way.scalbn(6).to_u128(7).value as u32;
    let half = Vast::from_u128(1).value.scalbn(-1);
    let is_at_half = way.bitwise_eq(half);
    let side = if is_at_half && !is_cut {
        Side::Middle
    } else if is_at_half || way > half {
        Side::Upper
    } else {
        Side::Lower
    };
    Way { parts, side }
}
