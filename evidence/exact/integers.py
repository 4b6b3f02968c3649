"""Rounding to integral values, and conversions from and to integers."""

from exact.data import Finite, Infinite, is_nan, number, result_of_nans
from exact.rounding import delivered, rounded_quotient
from exact.status import INEXACT, INVALID_OP, OK


def round_to_integral(format, x, mode):
    """The integral value that the mode picks, and the flags."""
    if is_nan(x):
        return result_of_nans(format, x)
    if isinstance(x, Infinite):
        return x, OK
    integer, exact = rounded_quotient(mode, x.negative, x.quanta, 1 << format.scale)
    return number(format, x.negative, integer << format.scale), OK if exact else INEXACT


def from_integer(format, integer, mode):
    """The value of an integer, and the flags."""
    return delivered(format, mode, integer < 0, abs(integer) << format.scale)


def to_integer(format, x, least, greatest, mode):
    """The integer that the mode picks, the flags, and whether it is exactly x.

    Out of range it is the nearest end of the range. A negative zero is not an integer exactly.
    """
    if is_nan(x):
        return 0, INVALID_OP, False
    if isinstance(x, Infinite):
        return least if x.negative else greatest, INVALID_OP, False
    magnitude, exact = rounded_quotient(mode, x.negative, x.quanta, 1 << format.scale)
    integer = -magnitude if x.negative else magnitude
    if integer < least:
        return least, INVALID_OP, False
    if integer > greatest:
        return greatest, INVALID_OP, False
    is_negative_zero = x.negative and x.quanta == 0
    return integer, OK if exact else INEXACT, exact and not is_negative_zero


def is_integer(format, x):
    """Whether x is an integer. Both zeros are."""
    return isinstance(x, Finite) and x.quanta % (1 << format.scale) == 0
