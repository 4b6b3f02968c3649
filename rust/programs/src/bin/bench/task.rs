//! What is measured, in any type.

use crate::erased::rustc_apfloat::Round;
use crate::operand_set::OperandSet;
use crate::operation::Operation;

/// An operation on drawn operands.
#[derive(Clone, Copy)]
pub struct Task {
    /// The operation.
    pub operation: Operation,
    /// Which operands are drawn.
    pub set: OperandSet,
    /// The rounding mode.
    pub mode: Round,
    /// The greatest number of timed rounds.
    pub rounds: u32,
}
