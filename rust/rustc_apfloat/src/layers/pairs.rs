//! The shortest decimal of a pair of doubles that was read from one.

use super::same;
use crate::erased::apfloat_decimals::Decimal;
use crate::erased::apfloat_digits::of_double_doubles::{read_decimal_pair_ascii, shortest_of_pair};
use crate::erased::apfloat_model::Round;

#[test]
fn tenth() {
    let tenth = read_decimal_pair_ascii(b"0.1", Round::NearestTiesToEven).map(|answer| shortest_of_pair(answer.value));
    same(tenth, Ok(Some(Decimal { negative: false, digits: 1, exponent: -1 })), "0.1");
}
