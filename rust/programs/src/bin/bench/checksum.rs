//! Checksums of results.

use crate::erased::rustc_apfloat::ieee::{IeeeFloat, Semantics};
use crate::erased::rustc_apfloat::ppc::DoubleDouble;
use crate::erased::rustc_apfloat::{Flags, Float, StatusAnd};

/// The checksum of a sequence of results, over the flags and both halves of the bits of each.
pub fn checksum_of<T: Written>(results: &[StatusAnd<T>]) -> u64 {
    let mut sum = 0;
    for result in results {
        let bits = result.value.bits();
        sum = with_word(sum, u64::from(result.status.bits()));
        sum = with_word(sum, (bits & u128::from(u64::MAX)) as u64);
        sum = with_word(sum, (bits >> 64) as u64);
    }
    sum
}

/// The checksum extended by one word.
fn with_word(sum: u64, word: u64) -> u64 {
    const PRIME: u128 = (1 << 61) - 1;
    ((u128::from(sum) * 31 + u128::from(word)) % PRIME) as u64
}

/// A result with bits.
pub trait Written: Copy {
    /// The bits of the result.
    fn bits(self) -> u128;
}

impl Written for u128 {
    fn bits(self) -> u128 {
        self
    }
}

impl Written for i128 {
    fn bits(self) -> u128 {
        self.cast_unsigned()
    }
}

impl<S: Semantics> Written for IeeeFloat<S> {
    fn bits(self) -> u128 {
        if S::PRECISION < S::BITS { self.to_bits() } else { 0 }
    }
}

impl Written for DoubleDouble {
    fn bits(self) -> u128 {
        self.to_bits()
    }
}
