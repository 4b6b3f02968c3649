//! Square roots, and products and fused sums in formats of any precision.

use crate::erased::rustc_apfloat::ieee::{IeeeFloat, Semantics};
use crate::erased::rustc_apfloat::{Float, StatusAnd};
use crate::measure::{Calls, Measured, for_each, measured_calls};
use crate::numbers::{Operands, values};
use crate::operation::Operation;
use crate::task::Task;

/// Measures one of these operations.
pub fn wide_arithmetic<S: Semantics>(task: Task) -> Measured {
    let drawn = operands_of::<S>(task);
    let blank = IeeeFloat::<S>::zero();
    measured_calls(task.rounds, CalculatesWide(task), &drawn, blank)
}

/// The drawn operands, or for a root their magnitudes.
fn operands_of<S: Semantics>(task: Task) -> Vec<Operands<S>> {
    let mut drawn = values::<S>(task);
    if matches!(task.operation, Operation::SquareRoot) {
        for x in &mut drawn {
            x[0] = x[0].abs();
        }
    }
    drawn
}

/// Computes an operation.
#[derive(Clone, Copy)]
struct CalculatesWide(Task);

impl<S: Semantics> Calls<Operands<S>, IeeeFloat<S>> for CalculatesWide {
    fn make(self, operands: &[Operands<S>], answers: &mut [StatusAnd<IeeeFloat<S>>]) {
        let mode = self.0.mode;
        match self.0.operation {
            Operation::SquareRoot => for_each!(operands, answers, x => x[0].sqrt_r(mode)),
            Operation::WideProduct => {
                for_each!(operands, answers, x => x[0].wide_mul_r(x[1], mode))
            }
            Operation::WideFusedSum => {
                for_each!(operands, answers, x => x[0].wide_mul_add_r(x[1], x[2], mode))
            }
            _ => {}
        }
    }
}
