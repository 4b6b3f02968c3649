//! Sets of operands.

/// The numbers that are drawn.
#[derive(Clone, Copy)]
pub enum OperandSet {
    /// Normal ones with exponents near 0.
    Normal,
    /// A quarter of them denormal, a quarter near the denormal ones, and the others as in `Normal`.
    Denormal,
    /// Normal ones with exponents such that most of them fit in a 64-bit integer.
    Integer,
    /// Half of them denormal, and the others as in `Integer`.
    IntegerDenormal,
}

impl OperandSet {
    /// The name of the set in the output.
    pub fn name(self) -> &'static str {
        match self {
            OperandSet::Normal | OperandSet::Integer => "normal",
            OperandSet::Denormal | OperandSet::IntegerDenormal => "denormal",
        }
    }

    /// The set used in place of this one for operands that are converted to integers.
    pub fn for_integers(self) -> Self {
        match self {
            OperandSet::Normal | OperandSet::Integer => OperandSet::Integer,
            OperandSet::Denormal | OperandSet::IntegerDenormal => OperandSet::IntegerDenormal,
        }
    }
}
