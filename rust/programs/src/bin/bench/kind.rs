//! Measures an operation in a kind of values.

use crate::erased::formats_at_run_time::{CommandKind, InFormat, InKind};
use crate::erased::rustc_apfloat::ieee::Semantics;
use crate::measure::Measured;
use crate::numbers::measured_in;
use crate::pairs::measured_pairs;
use crate::task::Task;

/// The measurements of an operation on values of a kind, or `None` if the kind does not have it.
pub fn measured(kind: CommandKind, task: Task) -> Option<Measured> {
    kind.run(Measurement(task))
}

/// A measurement of a task.
struct Measurement(Task);

impl InFormat for Measurement {
    type Output = Option<Measured>;

    fn in_format<S: Semantics>(self) -> Option<Measured> {
        measured_in::<S>(self.0)
    }
}

impl InKind for Measurement {
    fn in_pairs(self) -> Option<Measured> {
        measured_pairs(self.0)
    }
}
