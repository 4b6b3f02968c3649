"""Computes tests/rows/e3m4.tsv: conversions into `e3m4` and out of it.

    python3 evidence/e3m4.py | diff - tests/rows/e3m4.tsv

As evidence/storage_formats.py: each code is decoded to a fraction by its fields, and a value is looked up
between its neighbours in the list of these fractions. What becomes of a NaN, and what comes out, is
computed by the model, which has all other results too: that is checked.
"""

from dataclasses import dataclass
from fractions import Fraction

from exact.bits import decoded, encoded
from exact.conversions import convert
from exact.data import Infinite, is_nan
from exact.formats import SINGLE, Format
from exact.rounding import overflows
from exact.status import INEXACT, OK, OVERFLOW, UNDERFLOW
from storage_formats import Elements, checksums, pick, single_bits, stored

E3M4 = Format("e3m4", 8, 3, 5, -2, 3)

# the code of the largest number, 15.5, and that of infinity
LARGEST, INFINITY = 0x6F, 0x70


@dataclass(frozen=True)
class Narrow(Elements):
    """A format with a sign, whose greatest exponent is that of infinities and NaNs."""

    def store(self, source, x, mode):
        """The code, the flags, and whether information is lost."""
        value, status, loses = convert(source, E3M4, x, mode)
        known = encoded(E3M4, value), status, loses
        found = known if is_nan(x) else self.store_number(source, x, mode)
        assert found == known
        return found

    def store_number(self, source, x, mode):
        """The same, of a number or an infinity, by the list of fractions."""
        sign = 0x80 if x.negative else 0
        if isinstance(x, Infinite):
            return sign | INFINITY, OK, False
        index, is_exact = pick(self.points, mode, x.negative, Fraction(x.quanta, 1 << source.scale))
        if index > LARGEST:
            leads = overflows(mode, x.negative)
            flags = OVERFLOW | INEXACT if leads else INEXACT
            return sign | (INFINITY if leads else LARGEST), flags, True
        if is_exact:
            return sign | index, OK, False
        return sign | index, UNDERFLOW | INEXACT if index < 16 else INEXACT, True

    def load(self, target, code, mode):
        """The value in another format."""
        return convert(E3M4, target, decoded(E3M4, code), mode)


FORM = Narrow("E3M4", 8, 5, -2)


def check_values():
    """Each number has the fraction of its fields."""
    for code in range(LARGEST + 1):
        assert Fraction(decoded(E3M4, code).quanta, 1 << E3M4.scale) == FORM.points[code]


def singles():
    """The bits of singles at and beside the values and midpoints at both ends and at the least normal number."""
    points = FORM.points
    pairs = [(points[i], points[i + 1]) for i in (0, 1, 15, 16, 110, 111)]
    wanted = {x for a, b in pairs for x in (a, b, (a + b) / 2)} - {0}
    around = {bits + step for x in wanted for bits in (single_bits(x),) for step in (-1, 0, 1)}
    around |= {0, 1, 0x00400000, 0x7F7FFFFF, 0x7F800000, 0x7F800001, 0x7FC00000, 0x7FF80000}
    return [sign << 31 | bits for bits in sorted(around) for sign in (0, 1)]


def main():
    """Prints the file."""
    check_values()
    print("# Conversions into e3m4 and out of it. Computed by evidence/e3m4.py.")
    for bits in singles():
        print("\n".join(stored(FORM, SINGLE, bits)))
    print("\n".join(checksums(FORM)))


if __name__ == "__main__":
    main()
