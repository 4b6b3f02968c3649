"""Computes tests/rows/storage_formats.tsv: conversions into storage formats and out of them.

    python3 evidence/storage_formats.py | diff - tests/rows/storage_formats.tsv

Each code is decoded to a fraction by its fields. A value is looked up between its neighbours in the list
of these fractions, which goes on past the largest number, since a pick there decides the overflow. What comes
out is rounded by the model.
"""

from bisect import bisect_right
from dataclasses import dataclass
from fractions import Fraction
from functools import cached_property
from struct import pack, unpack

from exact.bits import decoded, encoded
from exact.conversions import convert
from exact.data import Finite, Infinite, is_nan, is_signaling, qnan
from exact.formats import BFLOAT, E4M3FN, E5M2, HALF, SINGLE
from exact.rounding import Mode, delivered, overflows
from exact.status import INEXACT, INVALID_OP, OK, OVERFLOW, UNDERFLOW
from row_files import MODES, every, hexes, in_each_mode, loses


@dataclass(frozen=True)
class Elements:
    """A format with a sign, all of whose codes are numbers."""

    name: str
    bits: int
    precision: int
    least_exponent: int

    def magnitude(self, fields):
        """The number with these bits below the sign, of which there may be more than the format has."""
        written = self.precision - 1
        field, digits = fields >> written, fields & (1 << written) - 1
        last = Fraction(2) ** (self.least_exponent - written)
        return digits * last if field == 0 else ((1 << written) + digits) * last * 2 ** (field - 1)

    @cached_property
    def count(self):
        """How many codes have no sign."""
        return 1 << self.bits - 1

    @cached_property
    def points(self):
        """The numbers in order, and those of four more exponents."""
        return [self.magnitude(m) for m in range(self.count + (2 << self.precision))]

    def value(self, code):
        """Whether the code has a sign, and its magnitude."""
        return code >= self.count, self.magnitude(code % self.count)

    def store(self, source, x, mode):
        """The code, the flags, and whether information is lost."""
        if is_nan(x):
            return 0, INVALID_OP, True
        sign = self.count if x.negative else 0
        if isinstance(x, Infinite):
            return sign + self.count - 1, INVALID_OP, True
        exact = Fraction(x.quanta, 1 << source.scale)
        index, is_exact = pick(self.points, mode, x.negative, exact)
        if index >= self.count:
            leads = overflows(mode, x.negative)
            return sign + self.count - 1, OVERFLOW | INEXACT if leads else INEXACT, True
        if is_exact:
            return sign + index, OK, False
        tiny = self.points[index] < Fraction(2) ** self.least_exponent
        return sign + index, UNDERFLOW | INEXACT if tiny else INEXACT, True

    def load(self, target, code, mode):
        """The value in another format, as any number is converted."""
        negative, magnitude = self.value(code)
        if magnitude == 0:
            return convert(HALF, target, Finite(negative, 0), mode)
        quanta = magnitude * (1 << target.scale)
        value, status = delivered(target, mode, negative, quanta.numerator, quanta.denominator)
        return value, status, status != OK


class Scales:
    """The powers of two with a NaN."""

    name = "E8M0FNU"
    bits = 8

    @cached_property
    def points(self):
        """The scales in order, and one more."""
        return [Fraction(2) ** (code - 127) for code in range(256)]

    def store(self, source, x, mode):
        """The code, the flags, and whether information is lost."""
        if is_nan(x):
            status = INVALID_OP if is_signaling(source, x) else OK
            return 255, status, source.payload_mask != 0
        if isinstance(x, Infinite):
            return 255, INVALID_OP if x.negative else INEXACT, True
        if x.quanta == 0:
            return 0, UNDERFLOW | INEXACT, True
        if x.negative:
            return 255, INVALID_OP, True
        exact = Fraction(x.quanta, 1 << source.scale)
        if exact < self.points[0]:
            return 0, UNDERFLOW | INEXACT, True
        if exact >= 2 * self.points[255]:
            index, is_exact = 256, False
        else:
            index, is_exact = pick([*self.points, 2 * self.points[255]], mode, False, exact)
        if index > 254:
            leads = overflows(mode, False)
            return 255 if leads else 254, OVERFLOW | INEXACT if leads else INEXACT, True
        return index, OK if is_exact else INEXACT, not is_exact

    def load(self, target, code, mode):
        """The value in another format."""
        if code == 255:
            return qnan(target), OK, False
        quanta = self.points[code] * (1 << target.scale)
        value, status = delivered(target, mode, False, quanta.numerator, quanta.denominator)
        return value, status, status != OK


class Unsigned:
    """The numbers of `e4m3fn` that are not below zero, and its NaN."""

    name = "UE4M3"
    bits = 7

    @cached_property
    def points(self):
        """The numbers in order, with what is past them."""
        return Elements("", 8, 4, -6).points

    @cached_property
    def count(self):
        """How many of them are numbers."""
        return 127

    def store(self, source, x, mode):
        """The code, the flags, and whether information is lost."""
        if is_nan(x):
            status = INVALID_OP if is_signaling(source, x) else OK
            return 127, status, source.payload_mask != 0
        if isinstance(x, Infinite):
            return 127, INVALID_OP if x.negative else INEXACT, True
        if x.negative:
            return (0, INEXACT, True) if x.quanta == 0 else (127, INVALID_OP, True)
        index, is_exact = pick(self.points, mode, False, Fraction(x.quanta, 1 << source.scale))
        if index > 126:
            leads = overflows(mode, False)
            return 127 if leads else 126, OVERFLOW | INEXACT if leads else INEXACT, True
        if is_exact:
            return index, OK, False
        return index, UNDERFLOW | INEXACT if index < 8 else INEXACT, True

    def load(self, target, code, mode):
        """The value in another format."""
        if code == 127:
            return convert(E4M3FN, target, decoded(E4M3FN, code), mode)
        if code == 0:
            return convert(HALF, target, Finite(False, 0), mode)
        quanta = self.points[code] * (1 << target.scale)
        value, status = delivered(target, mode, False, quanta.numerator, quanta.denominator)
        return value, status, status != OK


def pick(points, mode, negative, exact):
    """Where the point is that the mode takes, and whether it is the value itself."""
    below = bisect_right(points, exact) - 1
    if below + 1 == len(points):
        return below, False
    if points[below] == exact:
        return below, True
    to_lower, to_upper = exact - points[below], points[below + 1] - exact
    if mode is Mode.UP:
        above = not negative
    elif mode is Mode.DOWN:
        above = negative
    elif mode is Mode.ZERO:
        above = False
    elif to_lower == to_upper:
        above = mode is Mode.AWAY or below % 2 == 1
    else:
        above = to_upper < to_lower
    return below + above, False


FORMATS = (
    Elements("E2M1FN", 4, 2, 0),
    Elements("E2M3FN", 6, 4, 0),
    Elements("E3M2FN", 6, 3, -2),
    Scales(),
    Unsigned(),
)


# ---- rows: singles at and beside each value and each midpoint


def single_bits(exact):
    """The bits of the single that equals a fraction."""
    (bits,) = unpack("<I", pack("<f", float(exact)))
    assert Fraction(*float(exact).as_integer_ratio()) == exact
    return bits


def singles_of(form):
    """The bits of the singles."""
    points = form.points
    if isinstance(form, Scales):
        near = (1, 2, 3, 30, 31, 125, 126, 127, 128, 200, 253, 254)
        wanted = [points[code] for code in near] + [points[code] * Fraction(3, 2) for code in near]
        signs = (0,)
    else:
        shown = points[: form.count + 2] if form.count < 64 else [*points[:18], *points[120:130]]
        wanted = [*shown[1:], *((a + b) / 2 for a, b in zip(shown, shown[1:]))]
        signs = (0,) if isinstance(form, Unsigned) else (0, 1)
    around = {bits + step for x in set(wanted) for bits in (single_bits(x),) for step in (-1, 0, 1)}
    around |= {0, 1, 0x00400000, 0x7F7FFFFF, 0x7F800000, 0x7F800001, 0x7FC00000}
    found = [sign << 31 | bits for bits in sorted(around) for sign in signs]
    return found + ([0x80000000, 0xBF800000, 0xFF800000] if signs == (0,) else [])


def stored(form, source, bits):
    """The rows of a value that is stored in each mode."""

    def answer(mode):
        code, status, is_lost = form.store(source, decoded(source, bits), mode)
        return hexes(form, code), status, loses(is_lost)

    return in_each_mode("convert_r", f"{source.name}>{form.name.lower()}", hexes(source, bits), answer)


# ---- checksums of all values


def into(source, form, mode, step):
    """The results for each code of the source that is a multiple of the step, stored."""
    return (form.store(source, decoded(source, bits), mode) for bits in range(0, 1 << source.bits, step))


def out_of(form, target, mode):
    """The results for each code of the format, converted."""
    for code in range(1 << form.bits):
        value, status, is_lost = form.load(target, code, mode)
        yield encoded(target, value), status, is_lost


def checksums(form):
    """The rows of all values."""
    name = form.name.lower()
    for source, step in ((E4M3FN, 1), (E5M2, 1), (HALF, 7), (BFLOAT, 7)):
        for mode in MODES:
            yield every("convert_r", f"{source.name}>{name}", mode, step, into(source, form, mode, step))
    for target in (HALF, SINGLE, E4M3FN, E5M2):
        for mode in MODES:
            yield every("convert_r", f"{name}>{target.name}", mode, 1, out_of(form, target, mode))


def main():
    """Prints the file."""
    print("# Conversions into storage formats and out of them. Computed by evidence/storage_formats.py.")
    for form in FORMATS:
        for bits in singles_of(form):
            print("\n".join(stored(form, SINGLE, bits)))
        print("\n".join(checksums(form)))


if __name__ == "__main__":
    main()
