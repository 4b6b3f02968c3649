"""Operations whose result is of another format than their operands, each of one rounding of a fraction."""

from fractions import Fraction
from math import isqrt

from exact.conversions import converted_nan
from exact.data import Infinite, infinity, invalid, is_nan, is_signaling, number
from exact.odd import ODD, delivered_to_odd
from exact.rounding import Mode, delivered
from exact.status import DIV_BY_ZERO, INEXACT, INVALID_OP, OK

# The operations, by the calls of rows.
OPERATIONS = {
    "add_to": "Sum",
    "sub_to": "Difference",
    "mul_to": "Product",
    "div_to": "Quotient",
    "sqrt_to": "Root",
    "mul_add_to": "FusedSum",
}


def deliver(format, mode, negative, amount, parts):
    """A magnitude rounded once, in a mode or to odd."""
    if mode == ODD:
        return delivered_to_odd(format, negative, amount, parts)
    return delivered(format, mode, negative, amount, parts)


def value_of(format, x):
    """The number as a fraction."""
    return Fraction(x.signed_quanta, 1 << format.scale)


def rounded(format, mode, exact, negative_zero):
    """A fraction rounded once."""
    quanta = abs(exact) * (1 << format.scale)
    negative = exact < 0 or exact == 0 and negative_zero
    return deliver(format, mode, negative, quanta.numerator, quanta.denominator)


def zero_of_sum(mode, left, right):
    """Whether the zero that two numbers of these signs add up to is negative."""
    return left if left == right else mode is Mode.DOWN


def infinite(format, negative):
    """An infinity, which raises INEXACT where the format has none."""
    return infinity(format, negative), OK if format.has_infinity else INEXACT


def of_nans(source, target, operands):
    """The first NaN, converted."""
    value, _, _ = converted_nan(source, target, next(x for x in operands if is_nan(x)))
    return value, INVALID_OP if any(is_signaling(source, x) for x in operands) else OK


def sum_of(target, mode, x, y, left, right):
    """The sum of two fractions or infinities with these signs."""
    if isinstance(x, Infinite) and isinstance(y, Infinite) and x != y:
        return invalid(target)
    for operand in (x, y):
        if isinstance(operand, Infinite):
            return infinite(target, operand.negative)
    return rounded(target, mode, x + y, zero_of_sum(mode, left, right))


def root_of(target, mode, exact):
    """The root of a positive fraction; if it is none, halfway between two sixteenths of a quantum."""
    square = exact * (1 << 2 * target.scale + 8)
    root = isqrt(square.numerator // square.denominator)
    if root * root == square:
        return deliver(target, mode, False, root, 16)
    return deliver(target, mode, False, 2 * root + 1, 32)


def computed(source, target, operation, mode, data):
    """The value and the flags."""
    if operation == "FusedSum":
        x, y, z = data
        zero = [not isinstance(v, Infinite) and not is_nan(v) and v.quanta == 0 for v in (x, y)]
        infinities = [isinstance(v, Infinite) for v in (x, y)]
        if not is_nan(x) and not is_nan(y) and any(zero) and any(infinities):
            return invalid(target)
    if any(is_nan(x) for x in data):
        return of_nans(source, target, data)
    numbers = [x if isinstance(x, Infinite) else value_of(source, x) for x in data]
    signs = [x.negative for x in data]
    if operation == "Sum":
        return sum_of(target, mode, *numbers, *signs)
    if operation == "Difference":
        x, y = numbers
        y = Infinite(not y.negative) if isinstance(y, Infinite) else -y
        return sum_of(target, mode, x, y, signs[0], not signs[1])
    if operation == "Root":
        if numbers[0] == 0:
            return number(target, signs[0], 0), OK
        if signs[0]:
            return invalid(target)
        if data[0] == Infinite(False):
            return infinite(target, False)
        return root_of(target, mode, numbers[0])
    negative = signs[0] != signs[1]
    infinities = [isinstance(x, Infinite) for x in data[:2]]
    if operation == "Quotient":
        if all(infinities):
            return invalid(target)
        if infinities[0]:
            return infinite(target, negative)
        if infinities[1]:
            return number(target, negative, 0), OK
        if numbers[1] == 0:
            return invalid(target) if numbers[0] == 0 else (infinity(target, negative), DIV_BY_ZERO)
        return rounded(target, mode, numbers[0] / numbers[1], negative)
    if any(infinities):
        if 0 in numbers[:2]:
            return invalid(target)
        product = Infinite(negative)
    else:
        product = numbers[0] * numbers[1]
    if operation == "FusedSum":
        return sum_of(target, mode, product, numbers[2], negative, signs[2])
    if any(infinities):
        return infinite(target, negative)
    return rounded(target, mode, product, negative)
