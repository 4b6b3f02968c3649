//! Rounding modes.

use super::same;
use crate::erased::apfloat_model::Round;

#[test]
fn swaps_directed_modes() {
    for (mode, swapped) in [
        (Round::TowardPositive, Round::TowardNegative),
        (Round::TowardNegative, Round::TowardPositive),
        (Round::TowardZero, Round::TowardZero),
        (Round::NearestTiesToEven, Round::NearestTiesToEven),
        (Round::NearestTiesToAway, Round::NearestTiesToAway),
    ] {
        same(-mode, swapped, mode);
    }
}
