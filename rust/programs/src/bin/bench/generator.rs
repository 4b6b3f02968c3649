//! Pseudorandom integers, the same in each run.

/// The state of Marsaglia's 64-bit generator `xorshift64`, which is never 0.
#[derive(Clone, Copy)]
pub struct Generator {
    state: u64,
}

impl Generator {
    /// The generator at the start of each run.
    pub fn new() -> Self {
        Generator { state: 0x9e37_79b9_7f4a_7c15 }
    }

    /// The next 64 bits.
    pub fn word(&mut self) -> u64 {
        let mut state = self.state;
        state ^= state << 13;
        state ^= state >> 7;
        state ^= state << 17;
        self.state = state;
        state
    }

    /// The next 128 bits, the low half first.
    pub fn wide_word(&mut self) -> u128 {
        let low = self.word();
        let high = self.word();
        u128::from(high) << 64 | u128::from(low)
    }

    /// The next integer from 0 to `bound - 1`; 0 if there is none.
    pub fn below(&mut self, bound: u64) -> u64 {
        self.word().checked_rem(bound).unwrap_or(0)
    }

    /// The next exponent from `least` to `greatest`.
    pub fn exponent(&mut self, least: i32, greatest: i32) -> i32 {
        let count = i64::from(greatest) - i64::from(least) + 1;
        let drawn = self.below(u64::try_from(count).unwrap_or(0));
        least.saturating_add(i32::try_from(drawn).unwrap_or(0))
    }
}
