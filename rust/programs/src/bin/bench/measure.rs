//! Times rounds of calls.

use crate::checksum::{Written, checksum_of};
use crate::erased::rustc_apfloat::{Status, StatusAnd};
use std::time::{Duration, Instant};

/// The measurements of a round of calls.
#[derive(Clone, Copy)]
pub struct Measured {
    /// The checksum of the results.
    pub checksum: u64,
    /// The least time of a round, which is one call for each operand.
    pub time: Duration,
    /// The number of operands.
    pub count: usize,
}

/// The times of rounds.
#[derive(Clone, Copy)]
struct Rounds {
    least: Duration,
    spent: Duration,
}

impl Rounds {
    /// No rounds yet.
    fn new() -> Self {
        Rounds { least: Duration::MAX, spent: Duration::ZERO }
    }

    /// Adds the time of a round.
    fn take(&mut self, round: Duration) {
        self.least = self.least.min(round);
        self.spent = self.spent.saturating_add(round);
    }

    /// Whether the rounds took a fifth of a second in all.
    fn are_enough(self) -> bool {
        self.spent > Duration::from_millis(200)
    }

    /// The measurements, with the results of the last round.
    fn with_answers<T: Written>(self, answers: &[StatusAnd<T>]) -> Measured {
        Measured { checksum: checksum_of(answers), time: self.least, count: answers.len() }
    }
}

/// Calls on operands of type `X`, with results of type `T`.
pub trait Calls<X, T>: Copy {
    /// Makes a call for each operand.
    fn make(self, operands: &[X], answers: &mut [StatusAnd<T>]);
}

/// Measures calls: one round that is not timed, then at most `rounds` timed ones, until they are enough.
pub fn measured_calls<X, T: Written, C: Calls<X, T>>(rounds: u32, calls: C, operands: &[X], blank: T) -> Measured {
    let mut answers = vec![Status::OK.and(blank); operands.len()];
    calls.make(operands, &mut answers);
    let mut times = Rounds::new();
    for _ in 0..rounds {
        let start = Instant::now();
        calls.make(operands, &mut answers);
        times.take(start.elapsed());
        if times.are_enough() {
            break;
        }
    }
    times.with_answers(&answers)
}

// Makes a call for each operand, from memory to memory.
macro_rules! for_each {
    ($operands:ident, $answers:ident, $x:ident => $call:expr) => {
        for ($x, answer) in $operands.iter().zip($answers.iter_mut()) {
            *answer = $call;
        }
    };
}

pub(crate) use for_each;
