"""Rounding to odd: the exact result if the format has it, otherwise the neighbour whose last digit is odd."""

from fractions import Fraction

from exact.data import Finite, Infinite, is_nan, number, result_of_nans
from exact.rounding import Mode, delivered
from exact.status import INEXACT, INVALID_OP, OK

# What takes the place of a mode.
ODD = "odd"

# The calls of rows, and the operation of each.
ARITHMETIC = {
    "add_odd": "Sum",
    "sub_odd": "Difference",
    "mul_odd": "Product",
    "div_odd": "Quotient",
    "sqrt_odd": "Root",
    "mul_add_odd": "FusedSum",
}
CALLS = (
    *ARITHMETIC,
    "convert_odd",
    "round_to_odd_integral",
    "from_u128_odd",
    "from_i128_odd",
    "to_u128_odd",
    "to_i128_odd",
)


def delivered_to_odd(format, negative, amount, parts):
    """The magnitude amount / parts quanta with that sign, with the flags of rounding toward zero."""
    place = max(0, (amount // parts).bit_length() - format.precision)
    digits, rest = divmod(amount, parts << place)
    if rest and digits % 2 == 0:
        digits += 1
    _, status = delivered(format, Mode.ZERO, negative, amount, parts)
    return number(format, negative, min(digits << place, format.largest)), status


def odd_integer(exact):
    """A magnitude, or of the two integers beside it the odd one."""
    whole = exact.numerator // exact.denominator
    return whole if exact == whole or whole % 2 == 1 else whole + 1


def integral(format, x):
    """The value as an integral value, with its flags."""
    if is_nan(x):
        return result_of_nans(format, x)
    if isinstance(x, Infinite):
        return x, OK
    quanta = odd_integer(Fraction(x.quanta, 1 << format.scale)) << format.scale
    return number(format, x.negative, quanta), OK if quanta == x.quanta else INEXACT


def to_integer(format, x, least, greatest):
    """The value as an integer of this range, with its flags."""
    if is_nan(x):
        return 0, INVALID_OP
    if isinstance(x, Infinite):
        return least if x.negative else greatest, INVALID_OP
    exact = Fraction(x.quanta, 1 << format.scale)
    magnitude = odd_integer(exact)
    integer = -magnitude if x.negative else magnitude
    if integer < least or integer > greatest:
        return least if integer < least else greatest, INVALID_OP
    return integer, OK if magnitude == exact else INEXACT
