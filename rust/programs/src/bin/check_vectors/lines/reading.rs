//! The operands of a row, in the form that its call takes.

use crate::lines::form::Form;
use crate::lines::operands::{Operand, Operands};

/// The operands that a text spells, in this form; one that is a text stays in the row.
pub fn operands_of(form: Form, text: &str) -> Option<Operands> {
    match form {
        Form::Nothing if text == "-" => Some(Operands::none()),
        Form::Nothing => None,
        Form::Text => Some(Operands::none()),
        Form::TwoValues => Operands::two_values(text),
        Form::ThreeValues => Operands::three_values(text),
        Form::ValueAndExponent
        | Form::ValueAndWidth
        | Form::ValueAndCount
        | Form::ValueAndDigits
        | Form::ValueAndPlaces => Operands::value_and_integer(text),
        Form::ValueAndRandom => Operands::value_and_random(text),
        Form::ValueAndStatus => Operands::value_and_status(text),
        Form::OneStatus => Operands::one_status(text),
        Form::TwoStatuses => Operands::two_statuses(text),
        Form::ThreeStatuses => Operands::three_statuses(text),
        _ => operand_of(form, text).map(Operands::one),
    }
}

/// The only operand.
fn operand_of(form: Form, word: &str) -> Option<Operand> {
    match form {
        Form::OneValue => Operand::value(word),
        Form::Unsigned => Operand::unsigned(word),
        Form::Signed => Operand::signed(word),
        Form::Payload => Operand::payload(word),
        _ => None,
    }
}
