//! What a call returns, compared with the last three columns of a row.

use crate::erased::commands::{bits_of, number_of, write_status};
use crate::erased::rustc_apfloat::{ExpInt, Flags, Float, Status, StatusAnd};
use crate::lines::call_fault::CallFault;
use crate::lines::quanta::{Quanta, text_of};
use crate::lines::text::{Text, shown};
use std::cmp::Ordering;
use std::fmt::Debug;
use std::io;
use std::io::Write;

/// What a call in the type `F` returns.
pub enum Returned<F> {
    /// A value.
    Value(F),
    /// A value, or none.
    Optional(Option<F>),
    /// A value, and its status.
    Rounded(StatusAnd<F>),
    /// A fraction, and its exponent.
    Fraction(F, ExpInt),
    /// An integer, and whether it is exact.
    Integer(StatusAnd<ValueField>, ExtraField),
    /// Something else without a status.
    Field(ValueField),
    /// Why a text is refused.
    Refused(Text),
}

/// What is compared with the column of the value.
#[derive(Clone, Copy)]
pub enum ValueField {
    /// The bits of a value, and the width of the format.
    Bits(u128, usize),
    /// The bits of two values, and the width of the format.
    TwoBits(u128, u128, usize),
    /// A value of a format without bits, equal to that of the row.
    InRow,
    /// A value of a format without bits that differs from that of the row.
    Quanta(Text),
    /// An unsigned integer.
    Unsigned(u128),
    /// A signed integer.
    Signed(i128),
    /// A truth value.
    Truth(bool),
    /// An order, or none if the operands are unordered.
    Order(Option<Ordering>),
    /// A text.
    Text(Text),
}

/// What is compared with the column of the flags.
#[derive(Clone, Copy)]
pub enum StatusField {
    /// The call has no status.
    Nothing,
    /// These flags.
    Flags(Status),
    /// The text is refused.
    Refused,
}

/// What is compared with the last column of a row.
#[derive(Clone, Copy)]
pub enum ExtraField {
    /// There is nothing else.
    Nothing,
    /// Whether the value is a signaling NaN.
    IsSignaling(bool),
    /// Whether an integer is exact.
    IsExact(bool),
    /// Whether a conversion loses information.
    LosesInfo(bool),
    /// The exponent of a fraction.
    Exponent(ExpInt),
    /// The steps that a remainder takes, and their bound.
    Steps(u32, ExpInt),
    /// How many elements of a block raised OVERFLOW, UNDERFLOW and INEXACT.
    Counts([usize; 3]),
}

/// What a call returns, as the last three columns of a row.
#[derive(Clone, Copy)]
pub struct RowAnswer {
    /// The value.
    pub value: ValueField,
    /// The flags.
    pub status: StatusField,
    /// What else the call returns.
    pub extra: ExtraField,
}

impl RowAnswer {
    /// The columns for what a call returns; `stated` is the value in the row, if it is one of a format without bits.
    pub fn of<F: Float + Debug>(returned: Returned<F>, stated: Option<Quanta>) -> RowAnswer {
        match returned {
            Returned::Value(x) | Returned::Optional(Some(x)) => RowAnswer::told(field_of(x, stated)),
            Returned::Optional(None) => RowAnswer::told(ValueField::Text(Text::of("None"))),
            Returned::Rounded(answer) => rounded(answer, stated),
            Returned::Fraction(x, exponent) => RowAnswer {
                value: field_of(x, stated),
                status: StatusField::Nothing,
                extra: ExtraField::Exponent(exponent),
            },
            Returned::Integer(answer, extra) => RowAnswer::flagged(answer).with(extra),
            Returned::Field(value) => RowAnswer::told(value),
            Returned::Refused(reason) => RowAnswer::refused(reason),
        }
    }

    /// The columns for a text that is refused.
    pub fn refused(reason: Text) -> RowAnswer {
        RowAnswer { value: ValueField::Text(reason), status: StatusField::Refused, extra: ExtraField::Nothing }
    }

    /// The columns for a result without a status.
    pub fn told(value: ValueField) -> RowAnswer {
        RowAnswer { value, status: StatusField::Nothing, extra: ExtraField::Nothing }
    }

    /// The columns for a result with flags.
    pub fn flagged(answer: StatusAnd<ValueField>) -> RowAnswer {
        RowAnswer { value: answer.value, status: StatusField::Flags(answer.status), extra: ExtraField::Nothing }
    }

    /// The same columns with this last one.
    pub fn with(self, extra: ExtraField) -> RowAnswer {
        RowAnswer { value: self.value, status: self.status, extra }
    }

    /// Whether these columns agree with those of a row; `-` in the last one agrees with anything.
    pub fn is_of(&self, value: &str, status: &str, extra: &str) -> Result<bool, CallFault> {
        let Some(has_status) = self.status.is_in_row(status) else {
            return Err(CallFault::Flags(self.status.form()));
        };
        let Some(has_extra) = self.extra.is_in_row(extra) else {
            return Err(CallFault::Extra(self.extra.form()));
        };
        match self.value.is_named(value) {
            Some(has_value) => Ok(has_value && has_status && has_extra),
            None if status == "ParseError" => Ok(false),
            None => Err(self.value.fault()),
        }
    }

    /// Writes the columns, the last one only if the row has it.
    pub fn write(&self, value: &str, extra: &str, out: &mut impl Write) -> io::Result<()> {
        self.value.write(value, out)?;
        out.write_all(b"\t")?;
        self.status.write(out)?;
        out.write_all(b"\t")?;
        if extra == "-" {
            return out.write_all(b"-");
        }
        self.extra.write(extra, out)
    }
}

/// The columns for a value and a status.
fn rounded<F: Float + Debug>(answer: StatusAnd<F>, stated: Option<Quanta>) -> RowAnswer {
    RowAnswer {
        value: field_of(answer.value, stated),
        status: StatusField::Flags(answer.status),
        extra: ExtraField::IsSignaling(answer.value.is_signaling()),
    }
}

/// The field for a value: its canonical bits, if the format has bits.
fn field_of<F: Float + Debug>(x: F, stated: Option<Quanta>) -> ValueField {
    if F::PRECISION < F::BITS {
        return ValueField::Bits(x.to_bits(), F::BITS);
    }
    match stated {
        Some(quanta) if quanta.is_of(x) => ValueField::InRow,
        _ => quanta_field(x),
    }
}

/// The field for a value of a format without bits.
fn quanta_field<F: Float + Debug>(x: F) -> ValueField {
    match text_of(x) {
        Some(text) => ValueField::Quanta(text),
        None => ValueField::Text(shown(x)),
    }
}

impl ValueField {
    /// Whether a word of a row agrees with this; `None` if it cannot be compared.
    fn is_named(&self, word: &str) -> Option<bool> {
        match self {
            ValueField::Bits(bits, width) => is_bits(*bits, *width, word),
            ValueField::TwoBits(first, second, width) => are_bits(*first, *second, *width, word),
            ValueField::InRow => Some(true),
            ValueField::Quanta(_) => is_other_quanta(word),
            ValueField::Unsigned(number) => is_same(*number, number_of(word)),
            ValueField::Signed(number) => is_signed(*number, word),
            ValueField::Truth(holds) => is_truth(*holds, word),
            ValueField::Order(order) => is_order(*order, word),
            ValueField::Text(text) => Some(word.as_bytes() == text.as_bytes()),
        }
    }

    /// The fault of a word that cannot be compared.
    fn fault(&self) -> CallFault {
        match self {
            ValueField::Bits(_, width) => CallFault::ValueBits(*width),
            ValueField::TwoBits(_, _, _) => CallFault::Value("two values of the format"),
            ValueField::InRow | ValueField::Quanta(_) => CallFault::Value("quanta, as `+3q`"),
            ValueField::Unsigned(_) => CallFault::Value("an integer of 128 bits without a sign"),
            ValueField::Signed(_) => CallFault::Value("an integer of 128 bits"),
            ValueField::Truth(_) => CallFault::Value("true or false"),
            ValueField::Order(_) => CallFault::Value("Less, Equal, Greater or None"),
            ValueField::Text(_) => CallFault::Value("a text"),
        }
    }

    /// Writes the word for this.
    fn write(&self, in_row: &str, out: &mut impl Write) -> io::Result<()> {
        match self {
            ValueField::Bits(bits, width) => write_bits(*bits, *width, out),
            ValueField::TwoBits(first, second, width) => {
                write_bits(*first, *width, out)?;
                out.write_all(b" ")?;
                write_bits(*second, *width, out)
            }
            ValueField::InRow => out.write_all(in_row.as_bytes()),
            ValueField::Unsigned(number) => write!(out, "{number}"),
            ValueField::Signed(number) => write!(out, "{number}"),
            ValueField::Truth(holds) => write!(out, "{holds}"),
            ValueField::Order(order) => out.write_all(order_name(*order).as_bytes()),
            ValueField::Quanta(text) | ValueField::Text(text) => out.write_all(text.as_bytes()),
        }
    }
}

/// Whether a word spells these bits; `None` in a row means an inverse that does not exist.
fn is_bits(bits: u128, width: usize, word: &str) -> Option<bool> {
    if word == "None" {
        return Some(false);
    }
    is_same(bits, bits_of(word, width))
}

/// Whether two words spell these bits.
fn are_bits(first: u128, second: u128, width: usize, words: &str) -> Option<bool> {
    let (left, right) = words.split_once(' ')?;
    match (is_bits(first, width, left), is_bits(second, width, right)) {
        (Some(is_first), Some(is_second)) => Some(is_first && is_second),
        _ => None,
    }
}

/// The comparison with a value that differs from that of the row: `Some(false)` if the word has the form of a value.
fn is_other_quanta(word: &str) -> Option<bool> {
    if word == "None" || Quanta::named(word).is_some() { Some(false) } else { None }
}

/// Whether a stated number equals this one.
fn is_same(number: u128, stated: Option<u128>) -> Option<bool> {
    stated.map(|stated| stated == number)
}

/// Whether a word spells this signed integer.
fn is_signed(number: i128, word: &str) -> Option<bool> {
    word.parse::<i128>().ok().map(|stated| stated == number)
}

/// Whether a word is this truth value.
fn is_truth(holds: bool, word: &str) -> Option<bool> {
    match word {
        "true" => Some(holds),
        "false" => Some(!holds),
        _ => None,
    }
}

/// Whether a word is the name of this order.
fn is_order(order: Option<Ordering>, word: &str) -> Option<bool> {
    match word {
        "None" | "Less" | "Equal" | "Greater" => Some(word == order_name(order)),
        _ => None,
    }
}

/// Writes all hexadecimal digits of bits.
fn write_bits(bits: u128, width: usize, out: &mut impl Write) -> io::Result<()> {
    let digits = width.div_ceil(4).max(1);
    write!(out, "{bits:0digits$x}")
}

impl StatusField {
    /// Whether the column of flags agrees with this; `None` if it cannot be compared.
    fn is_in_row(&self, word: &str) -> Option<bool> {
        let is_refused = matches!(self, StatusField::Refused);
        if word == "ParseError" {
            return Some(is_refused);
        }
        if word == "-" {
            return match self {
                StatusField::Nothing => Some(true),
                StatusField::Refused => Some(false),
                // The row does not state the flags.
                StatusField::Flags(_) => Some(true),
            };
        }
        match (self, status_named(word)) {
            (StatusField::Nothing, _) | (_, None) => None,
            (StatusField::Refused, Some(_)) => Some(false),
            (StatusField::Flags(status), Some(stated)) => Some(status.bits() == stated.bits()),
        }
    }

    /// The form of the column, for messages.
    fn form(&self) -> &'static str {
        match self {
            StatusField::Nothing => "`-`, since the call has none",
            _ => "`-`, OK, or names joined by bars, as OVERFLOW|INEXACT",
        }
    }

    /// Writes the word for this.
    fn write(&self, out: &mut impl Write) -> io::Result<()> {
        match self {
            StatusField::Nothing => out.write_all(b"-"),
            StatusField::Refused => out.write_all(b"ParseError"),
            StatusField::Flags(status) => write_status(*status, out),
        }
    }
}

impl ExtraField {
    /// Whether the last column agrees with this; `None` if it cannot be compared.
    fn is_in_row(&self, word: &str) -> Option<bool> {
        if word == "-" {
            return Some(true);
        }
        let word = word.strip_prefix(self.label())?;
        match self {
            ExtraField::Nothing => None,
            ExtraField::IsSignaling(holds) | ExtraField::IsExact(holds) | ExtraField::LosesInfo(holds) => {
                is_truth(*holds, word)
            }
            ExtraField::Exponent(exponent) => is_exponent(*exponent, word),
            ExtraField::Steps(taken, bound) => are_steps(*taken, *bound, word),
            ExtraField::Counts(counts) => are_counts(*counts, word),
        }
    }

    /// The beginning of a word for this.
    fn label(&self) -> &'static str {
        match self {
            ExtraField::Nothing => "",
            ExtraField::IsSignaling(_) => "is_signaling=",
            ExtraField::IsExact(_) => "is_exact=",
            ExtraField::LosesInfo(_) => "loses_info=",
            ExtraField::Exponent(_) => "exponent=",
            ExtraField::Steps(_, _) => "steps=",
            ExtraField::Counts(_) => "overflow=",
        }
    }

    /// The form of the column, for messages.
    fn form(&self) -> &'static str {
        match self {
            ExtraField::Nothing => "`-`",
            ExtraField::IsSignaling(_) => "`-`, or is_signaling= with true or false",
            ExtraField::IsExact(_) => "`-`, or is_exact= with true or false",
            ExtraField::LosesInfo(_) => "`-`, or loses_info= with true or false",
            ExtraField::Exponent(_) => "`-`, or exponent= with an integer",
            ExtraField::Steps(_, _) => "`-`, or steps=3, or steps=3 bound=5",
            ExtraField::Counts(_) => "`-`, or counts as in overflow=1 underflow=0 inexact=2",
        }
    }

    /// Writes the word for this, with the bound only if the row has it.
    fn write(&self, in_row: &str, out: &mut impl Write) -> io::Result<()> {
        out.write_all(self.label().as_bytes())?;
        match self {
            ExtraField::Nothing => out.write_all(b"-"),
            ExtraField::IsSignaling(holds) | ExtraField::IsExact(holds) | ExtraField::LosesInfo(holds) => {
                write!(out, "{holds}")
            }
            ExtraField::Exponent(exponent) => write!(out, "{exponent}"),
            ExtraField::Steps(taken, bound) => write_steps(*taken, *bound, in_row, out),
            ExtraField::Counts([overflow, underflow, inexact]) => {
                write!(out, "{overflow} underflow={underflow} inexact={inexact}")
            }
        }
    }
}

/// Writes the number of steps that a remainder takes, and the bound if the row has it.
fn write_steps(taken: u32, bound: ExpInt, in_row: &str, out: &mut impl Write) -> io::Result<()> {
    if in_row.contains(' ') { write!(out, "{taken} bound={bound}") } else { write!(out, "{taken}") }
}

/// The name of an order, or of none.
fn order_name(order: Option<Ordering>) -> &'static str {
    match order {
        None => "None",
        Some(Ordering::Less) => "Less",
        Some(Ordering::Equal) => "Equal",
        Some(Ordering::Greater) => "Greater",
    }
}

/// Whether a word spells this exponent.
fn is_exponent(exponent: ExpInt, word: &str) -> Option<bool> {
    word.parse::<ExpInt>().ok().map(|stated| stated == exponent)
}

/// Whether a remainder takes the stated number of steps, and no more than the stated bound, if there is one.
fn are_steps(taken: u32, bound: ExpInt, stated: &str) -> Option<bool> {
    let Some((steps, stated)) = stated.split_once(" bound=") else {
        return is_count(taken, stated);
    };
    let is_within = i64::from(taken) <= i64::from(bound);
    match (is_exponent(bound, stated), is_count(taken, steps)) {
        (Some(is_bound), Some(is_taken)) => Some(is_taken && is_bound && is_within),
        _ => None,
    }
}

/// Whether the rest of a word spells these counts, as in `overflow=1 underflow=0 inexact=2`.
fn are_counts(counts: [usize; 3], stated: &str) -> Option<bool> {
    let (overflow, others) = stated.split_once(" underflow=")?;
    let (underflow, inexact) = others.split_once(" inexact=")?;
    let number = |word: &str| word.parse::<usize>().ok();
    Some([number(overflow)?, number(underflow)?, number(inexact)?] == counts)
}

/// Whether a word spells this count.
fn is_count(count: u32, word: &str) -> Option<bool> {
    word.parse::<u32>().ok().map(|stated| stated == count)
}

/// The status of this word: `OK`, or the names of flags, joined by bars.
pub fn status_named(word: &str) -> Option<Status> {
    let mut status = Status::OK;
    if word == "OK" {
        return Some(status);
    }
    for name in word.split('|') {
        let flag = Status::from_name(name)?;
        if status.contains(flag) {
            return None;
        }
        status = status.union(flag);
    }
    Some(status)
}
