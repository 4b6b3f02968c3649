"""Sums, differences, products, quotients and fused sums.

Each returns its value and its flags. The first lines of each are the table of special operands.
"""

from exact.data import (
    Finite,
    Infinite,
    infinity,
    invalid,
    is_nan,
    is_nonzero_number,
    is_zero,
    negated,
    number,
    result_of_nans,
)
from exact.rounding import Mode, delivered
from exact.status import DIV_BY_ZERO, OK


def add(format, x, y, mode):
    """x + y."""
    if is_nan(x) or is_nan(y):
        return result_of_nans(format, x, y)
    if isinstance(x, Infinite):
        if isinstance(y, Infinite) and x.negative != y.negative:
            return invalid(format)
        return x, OK
    if isinstance(y, Infinite):
        return y, OK
    total = x.signed_quanta + y.signed_quanta
    if total == 0:
        return exact_zero(format, x.negative, y.negative, mode), OK
    return delivered(format, mode, total < 0, abs(total))


def exact_zero(format, left_negative, right_negative, mode):
    """The zero that two parts of these signs add up to."""
    negative = left_negative if left_negative == right_negative else mode is Mode.DOWN
    return number(format, negative, 0)


def subtract(format, x, y, mode):
    """x - y. A NaN on the right keeps its sign."""
    if is_nan(x) or is_nan(y):
        return result_of_nans(format, x, y)
    return add(format, x, negated(format, y), mode)


def multiply(format, x, y, mode):
    """x * y."""
    if is_nan(x) or is_nan(y):
        return result_of_nans(format, x, y)
    negative = x.negative != y.negative
    if isinstance(x, Infinite) or isinstance(y, Infinite):
        if is_zero(x) or is_zero(y):
            return invalid(format)
        return Infinite(negative), OK
    return delivered(format, mode, negative, x.quanta * y.quanta, 1 << format.scale)


def divide(format, x, y, mode):
    """x / y."""
    if is_nan(x) or is_nan(y):
        return result_of_nans(format, x, y)
    negative = x.negative != y.negative
    if isinstance(x, Infinite):
        return invalid(format) if isinstance(y, Infinite) else (Infinite(negative), OK)
    if isinstance(y, Infinite):
        return number(format, negative, 0), OK
    if y.quanta == 0:
        if x.quanta == 0:
            return invalid(format)
        return infinity(format, negative), DIV_BY_ZERO
    return delivered(format, mode, negative, x.quanta << format.scale, y.quanta)


def multiply_add(format, x, y, z, mode):
    """x * y + z, rounded once."""
    if not (is_nonzero_number(x) and is_nonzero_number(y)):
        product, status = multiply(format, x, y, mode)
        return add(format, product, z, mode) if status == OK else (product, status)
    if not isinstance(z, Finite):
        return add(format, x, z, mode)
    negative = x.negative != y.negative
    product = x.quanta * y.quanta
    total = (-product if negative else product) + (z.signed_quanta << format.scale)
    if total == 0:
        return exact_zero(format, negative, z.negative, mode), OK
    return delivered(format, mode, total < 0, abs(total), 1 << format.scale)
