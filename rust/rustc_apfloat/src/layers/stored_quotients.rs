//! Quotients whose codes and flags were computed with fractions (`evidence/stored_quotients.py`).

use super::stored_quotient_rows::{QUOTIENTS_E2M1FN, QUOTIENTS_E2M3FN, QUOTIENTS_E3M2FN};
use crate::erased::apfloat_base::{Category, ExpInt, Flags, Float, Round};
use crate::erased::apfloat_ieee::built_in_formats::{Double, Single};
use crate::erased::apfloat_ieee::{IeeeFloat, Semantics};
use crate::erased::small_formats::{E2M1FN, E2M3FN, E3M2FN, StorageFormat, StoredFloat};

/// Singles by which is divided: their bits, their significands, and the exponents of 1/32 of their last digits.
static DIVISORS: [(u32, u128, ExpInt); 4] =
    [(0x3f80_0000, 1, -5), (0x4049_0fdb, 0xc9_0fdb, -27), (0x0000_0001, 1, -154), (0x7f7f_ffff, 0xff_ffff, 99)];

/// The checksum with the quotient of each sign.
fn with_quotients<F: StorageFormat, S: Semantics, R: Semantics>(
    checksum: u64,
    x: IeeeFloat<S>,
    y: IeeeFloat<R>,
    mode: Round,
) -> u64 {
    match y.category() {
        Category::Normal => {
            let divisor = y.abs();
            let sum = with_quotient::<F, S, R>(checksum, x, divisor, mode);
            with_quotient::<F, S, R>(sum, -x, divisor, mode)
        }
        _ => checksum,
    }
}

/// The checksum with a quotient.
fn with_quotient<F: StorageFormat, S: Semantics, R: Semantics>(
    checksum: u64,
    x: IeeeFloat<S>,
    y: IeeeFloat<R>,
    mode: Round,
) -> u64 {
    if !x.is_finite() {
        return checksum;
    }
    let got = StoredFloat::<F>::from_quotient(x, y, mode);
    let result =
        64 * u64::from(got.value.to_bits()) + 2 * u64::from(got.status.bits()) + u64::from(!got.status.is_empty());
    checksum.wrapping_mul(1_000_003).wrapping_add(result)
}

/// The checksum of quotients about the multiples of 1/32.
fn quotients<F: StorageFormat>(mode: Round) -> u64 {
    let mut checksum = 0;
    for (bits, significand, exponent) in &DIVISORS {
        let y = Single::from_bits(u128::from(*bits));
        for step in 0..1200u32 {
            let x = Double::from_u128(u128::from(step) * *significand).value.scalbn(*exponent);
            if step != 0 {
                checksum = with_quotients::<F, _, _>(checksum, x.next_down().value, y, mode);
            }
            checksum = with_quotients::<F, _, _>(checksum, x, y, mode);
            if step != 0 {
                checksum = with_quotients::<F, _, _>(checksum, x.next_up().value, y, mode);
            }
        }
    }
    checksum
}

fn all_modes<F: StorageFormat>() -> [u64; 5] {
    [
        Round::NearestTiesToEven,
        Round::TowardPositive,
        Round::TowardNegative,
        Round::TowardZero,
        Round::NearestTiesToAway,
    ]
    .map(quotients::<F>)
}

#[test]
fn in_each_mode() {
    assert_eq!(all_modes::<E2M1FN>(), QUOTIENTS_E2M1FN);
    assert_eq!(all_modes::<E2M3FN>(), QUOTIENTS_E2M3FN);
    assert_eq!(all_modes::<E3M2FN>(), QUOTIENTS_E3M2FN);
}
