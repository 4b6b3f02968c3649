"""Computes tests/rows/conversion_modes.tsv: conversions to odd and with random digits.

    python3 evidence/conversion_modes.py | diff - tests/rows/conversion_modes.tsv

As evidence/storage_formats.py and evidence/projections.py, a value is looked up between its neighbours among
the fractions that the codes mean. With random digits every random number is tried too: how many of them take
the upper neighbour is the number of whole parts that the value is above the lower one. For every format of
P3109 of 3 to 8 bits this is checked between each two codes, as is what is taken to odd, what becomes of each
code, and what is past the largest number.
"""

from bisect import bisect_right
from fractions import Fraction

from exact.bits import decoded
from exact.data import Finite, Infinite, is_nan
from exact.formats import HALF
from exact.status import INEXACT, INVALID_OP, OK, OVERFLOW, UNDERFLOW
from projections import NOT_A_NUMBER, TESTED, family
from row_files import every
from storage_formats import FORMATS

ELEMENTS = FORMATS[:3]

# to odd, and random digits with a random number
MODES = (None, (1, 0), (1, 1), (3, 2), (8, 0), (8, 77), (8, 255), (32, 0x9E3779B9))

# The calls of these modes; in each second one, to an element, a NaN becomes the largest number.
ODD, RANDOM, ALL = "convert_odd", "convert_stochastic", "convert_stochastic_all"

ODD_FIRST = (ODD, *[RANDOM] * 7)

BY_TURNS = (ODD, ALL, *(RANDOM, ALL) * 3)


def parts(digits, points, below, exact):
    """Of 2^digits parts of the distance to the next point, how many whole ones the value is above this one."""
    share = (exact - points[below]) / (points[below + 1] - points[below])
    return (share.numerator << digits) // share.denominator


def moves(mode, points, below, exact):
    """Whether the mode takes the upper neighbour."""
    if mode is None:
        return below % 2 == 0
    digits, random = mode
    return parts(digits, points, below, exact) + random >= 1 << digits


def store(form, x, mode, largest_for_nan, source=HALF):
    """The code, the flags, and whether information is lost."""
    if is_nan(x):
        return form.count - 1 if largest_for_nan else 0, INVALID_OP, True
    sign = form.count if x.negative else 0
    if isinstance(x, Infinite):
        return sign + form.count - 1, INVALID_OP, True
    exact = Fraction(x.quanta, 1 << source.scale)
    points = form.points
    index = bisect_right(points, exact) - 1
    if index < form.count and points[index] == exact:
        return sign + index, OK, False
    if index + 1 < len(points):
        index += points[index] != exact and moves(mode, points, index, exact)
    if index >= form.count:
        return sign + form.count - 1, INEXACT if mode is None else OVERFLOW | INEXACT, True
    tiny = points[index] < Fraction(2) ** form.least_exponent
    return sign + index, UNDERFLOW | INEXACT if tiny else INEXACT, True


def project(form, source, x, mode):
    """The same in a format of P3109: random digits lead past the largest number, and to odd does not."""
    return form.store_by(source, x, lambda below, exact: moves(mode, form.points, below, exact), mode is not None)


def rows(name, step, convert, names):
    """The rows of each half that is a multiple of the step, by the names of the calls in each mode."""
    for call, mode in zip(names, MODES):
        operands = " ".join(map(str, (step, *(mode or ()))))
        found = (convert(decoded(HALF, bits), mode, call) for bits in range(0, 65536, step))
        yield every(call, f"half>{name}", None, operands, found)


def try_counts(points, last, shares, widths):
    """Counts the random numbers that take the upper neighbour of a value, in sixteenths between two points."""
    for below in range(last):
        for share in shares:
            exact = points[below] + (points[below + 1] - points[below]) * Fraction(share, 16)
            for digits in widths:
                taken = sum(moves((digits, r), points, below, exact) for r in range(1 << digits))
                assert taken == (share << digits) // 16
        assert not any(moves((3, r), points, below, points[below]) for r in (0, 7))


def significand(form, index):
    """The digits of a number of a format of P3109, down to the last one that it has there."""
    written = form.precision - 1
    return (index & (1 << written) - 1) + (1 << written if index >> written else 0)


class Source:
    """A format that has every fraction with this denominator."""

    payload_mask = 0

    def __init__(self, scale):
        self.scale = scale


def try_projection(form):
    """Codes stay, the odd one of two is taken to odd, and past the largest number is what the mode leads to."""
    written = form.precision - 1
    source = Source(form.bias + written + 4)
    last = form.largest_index

    def stored(exact, mode, negative=False):
        return project(form, source, Finite(negative, int(exact * (1 << source.scale))), mode)

    for code in range(1 << form.bits):
        value = form.value(code)
        if isinstance(value, Fraction) and value:
            for mode in (None, (3, 7)):
                assert stored(abs(value), mode, value < 0) == (code, OK, False)
    for below in range(last):
        lower, upper = form.magnitude(below), form.magnitude(below + 1)
        for share in (1, 8, 15):
            code, status, loses = stored(lower + (upper - lower) * Fraction(share, 16), None)
            assert loses and code in (below, below + 1) and code % 2 == 1
            assert form.precision == 1 or significand(form, code) % 2 == 1
            assert status == (UNDERFLOW | INEXACT if code < 1 << written else INEXACT)
    for exact in (form.magnitude(last + 1), 3 * form.magnitude(last + 1)):
        assert stored(exact, None) == (last, INEXACT, True)
        for random in (0, 7):
            assert stored(exact, (3, random)) == (form.infinity(False), OVERFLOW | INEXACT, True)
    assert form.extended or form.value(form.infinity(False)) == NOT_A_NUMBER


def main():
    """Prints the file."""
    for form in family(3, 8):
        try_projection(form)
        try_counts(form.points, form.largest_index, (1, 7, 8, 13), (1, 2))
    print("# Conversions to odd and with random digits. Computed by evidence/conversion_modes.py.")
    for form in ELEMENTS:
        try_counts(form.points, form.count - 1, range(1, 16), (1, 2, 3, 6))
        print("\n".join(rows(form.name.lower(), 3, lambda x, mode, call: store(form, x, mode, call == ALL), BY_TURNS)))
    for form in TESTED:
        print("\n".join(rows(form.name, 61, lambda x, mode, _: project(form, HALF, x, mode), ODD_FIRST)))


if __name__ == "__main__":
    main()
