//! What can be wrong with a row of a call, by column.

/// What is wrong with a row of a call.
#[derive(Clone, Copy)]
pub enum CallFault {
    /// There is no such call.
    Call,
    /// The call does not take the mode.
    Mode,
    /// There is no such format.
    Format,
    /// The operands do not have the form that the call takes.
    Operands,
    /// An operand is not a value of the format.
    Operand,
    /// Random digits are not of this form.
    Random(&'static str),
    /// The formats do not have the call.
    Support,
    /// The flags cannot be those of the call, which are of this form.
    Flags(&'static str),
    /// The last column cannot be that of the call, which is of this form.
    Extra(&'static str),
    /// The value cannot be that of the call, which is of this form.
    Value(&'static str),
    /// The value has more bits than its format, which has this many.
    ValueBits(usize),
}
