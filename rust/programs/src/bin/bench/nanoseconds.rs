//! Times per call, as they are printed.

use crate::measure::Measured;
use std::fmt;
use std::time::Duration;

/// A time in hundredths of a nanosecond.
#[derive(Clone, Copy)]
pub struct Nanoseconds {
    hundredths: u64,
}

impl Nanoseconds {
    /// The time of one call.
    pub fn of_each(answers: Measured) -> Self {
        Nanoseconds::of_part(answers.time, answers.count)
    }

    /// A time divided by a number of calls.
    pub fn of_part(whole: Duration, count: usize) -> Self {
        let hundredths = whole.as_nanos().saturating_mul(100);
        let part = hundredths.checked_div(count as u128).unwrap_or(0);
        Nanoseconds { hundredths: u64::try_from(part).unwrap_or(u64::MAX) }
    }

    /// This time divided by a number of parts.
    pub fn part(self, count: u64) -> Self {
        Nanoseconds { hundredths: self.hundredths.checked_div(count).unwrap_or(0) }
    }
}

impl fmt::Display for Nanoseconds {
    /// Prints two decimals below 10, one below 100, and none from 100 on.
    fn fmt(&self, f: &mut fmt::Formatter<'_>) -> fmt::Result {
        let whole = self.hundredths / 100;
        let rest = self.hundredths % 100;
        if whole < 10 {
            write!(f, "{whole}.{rest:02}")
        } else if whole < 100 {
            let tenths = rest / 10;
            write!(f, "{whole}.{tenths}")
        } else {
            write!(f, "{whole}")
        }
    }
}
