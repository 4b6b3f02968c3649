"""Scaling by powers of two, binary logarithms, fractions and exact inverses."""

from exact.data import Finite, Infinite, is_nan, is_nonzero_number, is_zero, number, result_of_nans
from exact.rounding import delivered

EXPONENT_OF_INFINITY = 2**31 - 1
EXPONENT_OF_NAN = -(2**31)
EXPONENT_OF_ZERO = -(2**31) + 1


def delivered_power(format, mode, negative, integer, exponent):
    """integer * 2^exponent quanta, rounded once, for any exponent.

    An exponent past all numbers of the format is brought nearer, so that no power of two is too
    long to be held. That changes no result: above, the magnitude stays beyond twice the largest
    number; below, it stays under a quarter of a quantum.
    """
    beyond = format.largest.bit_length() + 2
    exponent = max(min(exponent, beyond), -2 - integer.bit_length())
    if exponent >= 0:
        return delivered(format, mode, negative, integer << exponent)
    return delivered(format, mode, negative, integer, 1 << -exponent)


def scaled(format, x, exponent, mode):
    """x * 2^exponent, without flags."""
    if is_nan(x):
        return result_of_nans(format, x)[0]
    if isinstance(x, Infinite) or is_zero(x):
        return x
    return delivered_power(format, mode, x.negative, x.quanta, exponent)[0]


def logarithm(format, x):
    """The floor of the binary logarithm of the magnitude."""
    if is_nan(x):
        return EXPONENT_OF_NAN
    if isinstance(x, Infinite):
        return EXPONENT_OF_INFINITY
    if is_zero(x):
        return EXPONENT_OF_ZERO
    return x.quanta.bit_length() - 1 - format.scale


def fraction(format, x, mode):
    """The fraction of x, from 0.5 to below 1, and its exponent."""
    if is_zero(x):
        return x, 0
    exponent = logarithm(format, x)
    if not is_nonzero_number(x):
        return scaled(format, x, 0, mode), exponent
    return scaled(format, x, -(exponent + 1), mode), exponent + 1


def exact_inverse(format, x):
    """The inverse of a power of two, if it and its inverse are normal numbers; otherwise None."""
    if not isinstance(x, Finite) or x.quanta.bit_count() != 1:
        return None
    # The quanta of x and of its inverse multiply to 2^(2 scale).
    places = 2 * format.scale - (x.quanta.bit_length() - 1)
    inverse = 1 << places if places >= 0 else 0
    for quanta in x.quanta, inverse:
        if not format.smallest_normalized <= quanta <= format.largest:
            return None
    return number(format, x.negative, inverse)
