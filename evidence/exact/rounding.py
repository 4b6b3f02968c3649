"""The one rounding that all operations share."""

from enum import Enum

from exact.data import infinity, number
from exact.status import INEXACT, OK, OVERFLOW, UNDERFLOW


class Mode(Enum):
    """A rounding mode."""

    EVEN = "even"
    UP = "up"
    DOWN = "down"
    ZERO = "zero"
    AWAY = "away"

    @property
    def opposite(self):
        """The mode that rounds the negated value to the negated result."""
        return {Mode.UP: Mode.DOWN, Mode.DOWN: Mode.UP}.get(self, self)


def takes_above(mode, negative, is_odd, rest, unit):
    """Whether a mode takes the upper of two neighbours that are a unit apart.

    The value is `rest` above the lower one and not equal to it. The lower one is odd or even in
    units.
    """
    if mode is Mode.UP:
        return not negative
    if mode is Mode.DOWN:
        return negative
    if mode is Mode.ZERO:
        return False
    if 2 * rest == unit:
        return is_odd or mode is Mode.AWAY
    return 2 * rest > unit


def rounded_quotient(mode, negative, amount, unit):
    """The integer that a mode picks for amount / unit, and whether they are equal."""
    below, rest = divmod(amount, unit)
    if rest == 0:
        return below, True
    return below + takes_above(mode, negative, below % 2 == 1, rest, unit), False


def picked(precision, mode, negative, amount, parts):
    """The point that a mode picks for amount / parts on a grid, and whether they are equal.

    A point of the grid is an integer of at most `precision` binary digits times a power of two
    that is at least 1. Near a magnitude the points are as far apart as the least power of two
    that leaves it below 2^precision.
    """
    place = max(0, amount.bit_length() - parts.bit_length() - precision)
    if amount >= parts << place + precision:
        place += 1
    digits, exact = rounded_quotient(mode, negative, amount, parts << place)
    return digits << place, exact


def overflows(mode, negative):
    """Whether a mode takes what is above the largest number to infinity."""
    if mode is Mode.UP:
        return not negative
    if mode is Mode.DOWN:
        return negative
    return mode is not Mode.ZERO


def delivered(format, mode, negative, amount, parts=1):
    """The magnitude of amount / parts quanta with its sign, rounded once, with its flags."""
    quanta, exact = picked(format.precision, mode, negative, amount, parts)
    if quanta > format.largest:
        if overflows(mode, negative):
            return infinity(format, negative), OVERFLOW | INEXACT
        flags = OVERFLOW | INEXACT if format.ieee_flags else INEXACT
        return number(format, negative, format.largest), flags
    value = number(format, negative, quanta)
    if exact:
        return value, OK
    if format.tiny_before_rounding:
        is_tiny = amount < format.smallest_normalized * parts
    elif format.ieee_flags:
        is_tiny = is_tiny_without_end(format, mode, negative, amount, parts)
    else:
        is_tiny = quanta < format.smallest_normalized
    return value, INEXACT | UNDERFLOW if is_tiny else INEXACT


def is_tiny_without_end(format, mode, negative, amount, parts):
    """Whether the pick is below the normal numbers if there is no least exponent.

    In units that are small enough for the magnitude to have all digits of a significand.
    """
    finer = format.precision + parts.bit_length()
    units, _ = picked(format.precision, mode, negative, amount << finer, parts)
    return units < format.smallest_normalized << finer
