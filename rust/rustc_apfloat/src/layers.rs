//! Tests of the library's text where the crate's interface has a function otherwise, or not at all.

mod augmented;
mod blocks;
mod comparisons;
mod decimals;
mod format_of;
mod machines;
mod modes;
mod odd;
mod pairs;
mod projections;
mod quotients;
mod stored_quotient_rows;
mod stored_quotients;
mod stored_values;
mod sums;
mod written_digits;
mod written_hex;

use core::fmt::Debug;

/// Asserts that a result is the expected one. The message names the case.
#[track_caller]
fn same<T: PartialEq + Debug, C: Debug>(got: T, expected: T, case: C) {
    assert_eq!(got, expected, "{case:?}");
}
