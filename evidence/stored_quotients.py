"""Computes rust/rustc_apfloat/src/layers/stored_quotient_rows.rs: quotients of two values in a storage format.

    python3 evidence/stored_quotients.py | diff - rust/rustc_apfloat/src/layers/stored_quotient_rows.rs

The quotients are those of doubles by singles: multiples of 1/32 of the divisor, which are the points of the
formats, their midpoints and what is between, each as it is and next to it on both sides, with either sign.
The fraction is looked up between the numbers that the codes mean, as in evidence/storage_formats.py.
"""

from fractions import Fraction
from struct import pack, unpack

from exact.formats import DOUBLE, SINGLE
from exact.bits import decoded
from exact.data import Finite
from row_files import MODES, extended
from storage_formats import FORMATS

ELEMENTS = FORMATS[:3]

# 1, the single next to pi, the least single, and the largest one
DIVISORS = (0x3F800000, 0x40490FDB, 0x00000001, 0x7F7FFFFF)

STEPS = 1200


def double_bits(exact):
    """The bits of a fraction that is a double."""
    (bits,) = unpack("<Q", pack("<d", float(exact)))
    assert Fraction(unpack("<d", pack("<Q", bits))[0]) == exact
    return bits


def quotients():
    """The quotients as fractions without a sign."""
    for bits in DIVISORS:
        divisor = Fraction(decoded(SINGLE, bits).quanta, 1 << SINGLE.scale)
        for step in range(STEPS):
            dividend = double_bits(divisor * Fraction(step, 32))
            for near in (dividend - 1, dividend, dividend + 1) if step else (dividend,):
                yield Fraction(decoded(DOUBLE, near).quanta, 1 << DOUBLE.scale) / divisor


class Source:
    """Quanta of a quotient: any, since a fraction is its own."""

    scale = 0


def checksum(form, mode, found):
    """All quotients with both signs."""
    total = 0
    for exact in found:
        for negative in (False, True):
            code, flags, loses = form.store(Source, Finite(negative, exact), mode)
            total = extended(total, code, flags, loses)
    return total


def main():
    """Prints the file."""
    print("//! Quotients in storage formats, computed by `evidence/stored_quotients.py`.")
    found = list(quotients())
    for form in ELEMENTS:
        sums = ", ".join(f"0x{checksum(form, mode, found):x}" for mode in MODES)
        print(f"\npub(super) static QUOTIENTS_{form.name}: [u64; {len(MODES)}] =\n    [{sums}];")


if __name__ == "__main__":
    main()
