//! The forms of operands.

/// The form of the operands of a call.
#[derive(Clone, Copy)]
pub enum Form {
    /// No operands.
    Nothing,
    /// A text.
    Text,
    /// One value.
    OneValue,
    /// Two values.
    TwoValues,
    /// Three values.
    ThreeValues,
    /// A value and an exponent.
    ValueAndExponent,
    /// A value and the width of an integer.
    ValueAndWidth,
    /// A value and a number of digits.
    ValueAndCount,
    /// A value and a number of digits that are written.
    ValueAndDigits,
    /// A value and a number of hexadecimal digits after the dot.
    ValueAndPlaces,
    /// A value, a number of random digits, and these as a number.
    ValueAndRandom,
    /// An unsigned integer.
    Unsigned,
    /// A signed integer.
    Signed,
    /// The payload of a NaN.
    Payload,
    /// A value, and flags.
    ValueAndStatus,
    /// Flags.
    OneStatus,
    /// Flags, twice.
    TwoStatuses,
    /// Flags, three times.
    ThreeStatuses,
}

impl Form {
    /// How many operands at the start are values.
    pub fn value_count(self) -> usize {
        match self {
            Form::OneValue
            | Form::ValueAndExponent
            | Form::ValueAndWidth
            | Form::ValueAndCount
            | Form::ValueAndDigits
            | Form::ValueAndPlaces
            | Form::ValueAndRandom
            | Form::ValueAndStatus => 1,
            Form::TwoValues => 2,
            Form::ThreeValues => 3,
            _ => 0,
        }
    }

    /// The form that operands have to have, for messages.
    pub fn description(self) -> &'static str {
        match self {
            Form::Nothing => "`-`",
            Form::Text => "a text",
            Form::OneValue => "one value",
            Form::TwoValues => "two values",
            Form::ThreeValues => "three values",
            Form::ValueAndExponent => "a value and an exponent",
            Form::ValueAndWidth => "a value and a width of at most 128 bits",
            Form::ValueAndCount => "a value and a count of 1 to 36 digits",
            Form::ValueAndDigits => "a value and a count of 1 to 128 digits",
            Form::ValueAndPlaces => "a value and a count of at most 31 digits",
            Form::ValueAndRandom => "a value, a count of digits and a random number",
            Form::Unsigned => "an integer of 128 bits without a sign",
            Form::Signed => "an integer of 128 bits",
            Form::Payload => "hexadecimal digits or `None`",
            Form::ValueAndStatus => "a value, and OK or names joined by bars, as OVERFLOW|INEXACT",
            Form::OneStatus => "OK, or names joined by bars, as OVERFLOW|INEXACT",
            Form::TwoStatuses => "two of OK, or names joined by bars, as OVERFLOW|INEXACT",
            Form::ThreeStatuses => "three of OK, or names joined by bars, as OVERFLOW|INEXACT",
        }
    }
}
