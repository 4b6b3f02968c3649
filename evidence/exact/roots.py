"""Square roots."""

from math import isqrt

from exact.data import invalid, is_nan, is_nonzero_number, is_zero, result_of_nans
from exact.exponents import delivered_power
from exact.status import OK


def square_root(format, x, mode):
    """The square root, and the flags. That of -0 is -0; another negative operand is invalid."""
    if is_nan(x):
        return result_of_nans(format, x)
    if is_zero(x):
        return x, OK
    if x.negative:
        return invalid(format)
    if not is_nonzero_number(x):
        return x, OK
    # n quanta of 2^-scale have the root of n * 2^scale, in quanta. A midpoint has one digit more
    # than a number of the format.
    integer, exponent = beside_root(x.quanta << format.scale, format.precision + 1)
    return delivered_power(format, mode, False, integer, exponent)


def beside_root(square, digits):
    """The root of an integer as an integer and a power of two, if it has at most so many digits.

    A longer root lies between two neighbouring numbers of so many digits, and so does what is
    returned for it, their middle.
    """
    place = (square.bit_length() - 2 * digits + 1) // 2
    root = isqrt(shifted(square, -2 * place))
    if shifted(root * root, 2 * place) == square:
        return root, place
    return 2 * root + 1, place - 1


def shifted(integer, places):
    """The floor of integer * 2^places."""
    return integer << places if places >= 0 else integer >> -places
