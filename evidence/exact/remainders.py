"""Exact remainders. Each returns its value and its flags."""

from exact.data import (
    Infinite,
    invalid,
    is_nan,
    is_nonzero_number,
    is_zero,
    number,
    result_of_nans,
)
from exact.status import OK


def special_remainder(format, x, y):
    """The remainder where an operand is a NaN, an infinity or a zero; otherwise None."""
    if is_nan(x) or is_nan(y):
        return result_of_nans(format, x, y)
    if isinstance(x, Infinite) or is_zero(y):
        return invalid(format)
    if isinstance(y, Infinite) or is_zero(x):
        return x, OK
    return None


def truncated_remainder(format, x, y):
    """What is left of x by the quotient cut toward zero, with the sign of x."""
    special = special_remainder(format, x, y)
    if special:
        return special
    return number(format, x.negative, x.quanta % y.quanta), OK


def nearest_remainder(format, x, y):
    """What is left of x by the nearest integer quotient, ties to even.

    A zero has the sign of x.
    """
    special = special_remainder(format, x, y)
    if special:
        return special
    quotient, rest = divmod(x.quanta, y.quanta)
    is_tie = 2 * rest == y.quanta
    if 2 * rest > y.quanta or is_tie and quotient % 2 == 1:
        return number(format, not x.negative, y.quanta - rest), OK
    return number(format, x.negative, rest), OK


def ones_of_quotient(x, y):
    """How many binary digits of the truncated quotient are ones; 0 for special operands.

    So many multiples of y by powers of two are subtracted from x.
    """
    if is_nonzero_number(x) and is_nonzero_number(y):
        return (x.quanta // y.quanta).bit_count()
    return 0
