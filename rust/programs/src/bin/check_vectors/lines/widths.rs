//! Widths in bits.

/// A mask of the lowest `width` bits.
pub fn mask(width: usize) -> u128 {
    if width < 128 { !(u128::MAX << width as u32) } else { u128::MAX }
}
