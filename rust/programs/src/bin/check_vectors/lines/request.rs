//! The calls that rows ask for.

use crate::erased::rustc_apfloat::Round;
use crate::lines::answer::RowAnswer;
use crate::lines::call::Call;
use crate::lines::call_fault::CallFault;
use crate::lines::operands::Operands;
use crate::lines::quanta::Quanta;

/// What the call of a row returns, or the fault of the row.
pub type Answered = Result<RowAnswer, CallFault>;

/// A call that a row asks for, in one mode.
#[derive(Clone, Copy)]
pub struct Request {
    /// The call.
    pub call: Call,
    /// The mode, which is ignored if the call takes none.
    pub round: Round,
    /// The operands that are not texts.
    pub operands: Operands,
    /// The value that the row states, if it is one of a format without bits.
    pub stated: Option<Quanta>,
}
