//! The loop that times a call.

use std::hint::black_box;
use std::time::{Duration, Instant};

/// Calls the operation for each operand, in rounds, until a fifth of a second is spent. Returns the results, and the
/// nanoseconds of a call in the fastest round.
pub fn fastest<T, R: Clone>(operands: &[T], blank: R, call: impl Fn(&T) -> R) -> (Vec<R>, f64) {
    let operands = black_box(operands);
    let mut results = vec![blank; operands.len()];
    let (mut least, mut spent) = (Duration::MAX, Duration::ZERO);
    for _ in 0..300 {
        let start = Instant::now();
        for (operand, result) in operands.iter().zip(results.iter_mut()) {
            *result = call(operand);
        }
        black_box(&mut results);
        least = least.min(start.elapsed());
        spent += start.elapsed();
        if spent > Duration::from_millis(200) {
            break;
        }
    }
    let nanoseconds = least.as_nanos() as f64 / results.len() as f64;
    (results, nanoseconds)
}
