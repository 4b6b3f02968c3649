"""The calls of the library on a kind of values: a format here, pairs of doubles in pairs.py.

A call takes and returns data, and returns the flags with its value where it has flags. Methods
that both kinds share, in terms of others, stand in `Values`.
"""

import functools

from exact import (
    arithmetic,
    bits,
    data,
    exponents,
    integers,
    neighbours,
    order,
    remainders,
    roots,
    texts,
)
from exact.data import Finite
from exact.formats import FORMATS


class Values:
    """What formats and pairs of doubles have in common."""

    def subtract(self, x, y, mode):
        """x - y, as the sum with the negated right operand."""
        return self.add(x, self.negated(y), mode)

    def next_down(self, x):
        """The greatest value below x, and the flags."""
        value, status = self.next_up(self.negated(x))
        return self.negated(value), status

    def absolute(self, x):
        """x without its sign."""
        return self.negated(x) if self.is_negative(x) else x

    def copy_sign(self, x, y):
        """x with the sign of y."""
        return self.negated(x) if self.is_negative(x) != self.is_negative(y) else x

    def minimum_number(self, x, y):
        """The smaller one; of a NaN and another value the other one."""
        return self.chosen_number(x, y, -1)

    def maximum_number(self, x, y):
        """The greater one; of a NaN and another value the other one."""
        return self.chosen_number(x, y, 1)

    def minimum(self, x, y):
        """The smaller one, with -0 below +0; the first NaN."""
        return self.chosen(x, y, -1)

    def maximum(self, x, y):
        """The greater one, with -0 below +0; the first NaN."""
        return self.chosen(x, y, 1)

    def chosen_number(self, x, y, side):
        """y if x is a NaN or y is on this side of x, otherwise x."""
        return y if self.category(x) == "NaN" or self.compared(y, x) == side else x

    def chosen(self, x, y, side):
        """As `chosen_number`, but the first NaN, and zeros in the order of their signs."""
        for operand in x, y:
            if self.category(operand) == "NaN":
                return operand
        are_zeros = self.category(x) == self.category(y) == "Zero"
        if are_zeros and self.is_negative(x) != self.is_negative(y):
            return x if self.is_negative(x) == (side == -1) else y
        return self.chosen_number(x, y, side)

    def equal(self, x, y):
        """Whether the values are equal. A NaN equals nothing; both zeros are equal."""
        return self.compared(x, y) == 0

    def same(self, x, y):
        """Whether the data are the same."""
        return x == y

    def is_normal(self, x):
        """Whether x is a number of full precision."""
        return self.category(x) == "Normal" and not self.is_denormal(x)

    def is_smallest(self, x):
        """Whether x is the smallest denormal number of its sign."""
        return self.same(x, self.copy_sign(self.smallest(), x))

    def is_smallest_normalized(self, x):
        """Whether x is the smallest normal number of its sign."""
        return self.same(x, self.copy_sign(self.smallest_normalized(), x))

    def is_largest(self, x):
        """Whether x is the largest number of its sign."""
        return self.same(x, self.copy_sign(self.largest(), x))


def in_format(call):
    """A method that makes a call at the format of its values."""

    @functools.wraps(call)
    def method(self, *operands):
        return call(self.format, *operands)

    return method


class FormatValues(Values):
    """The values of a format."""

    def __init__(self, format):
        self.format = format
        self.name = format.name
        self.bits = format.bits
        self.hexadecimal_digits = format.hexadecimal_digits
        self.precision = format.precision
        self.least_exponent = format.least_exponent
        self.greatest_exponent = format.greatest_exponent
        self.multiplies = format.precision <= 64
        self.multiplies_and_adds = format.precision <= 63

    # Bits.

    decoded = in_format(bits.decoded)
    encoded = in_format(bits.encoded)

    # Values that a format has.

    def zero(self):
        """+0."""
        return Finite(False, 0)

    def smallest(self):
        """One quantum."""
        return Finite(False, 1)

    def smallest_normalized(self):
        """The smallest normal number."""
        return Finite(False, self.format.smallest_normalized)

    def largest(self):
        """The largest number."""
        return Finite(False, self.format.largest)

    def infinity(self):
        """The infinity, or the NaN in its place."""
        return data.infinity(self.format, False)

    qnan = in_format(data.qnan)
    snan = in_format(data.snan)

    # Arithmetic.

    add = in_format(arithmetic.add)
    subtract = in_format(arithmetic.subtract)
    multiply = in_format(arithmetic.multiply)
    divide = in_format(arithmetic.divide)
    multiply_add = in_format(arithmetic.multiply_add)
    square_root = in_format(roots.square_root)
    truncated_remainder = in_format(remainders.truncated_remainder)
    nearest_remainder = in_format(remainders.nearest_remainder)
    next_up = in_format(neighbours.next_up)
    negated = in_format(data.negated)

    # Exponents.

    scaled = in_format(exponents.scaled)
    logarithm = in_format(exponents.logarithm)
    fraction = in_format(exponents.fraction)
    exact_inverse = in_format(exponents.exact_inverse)

    # Integers.

    round_to_integral = in_format(integers.round_to_integral)
    from_integer = in_format(integers.from_integer)
    is_integer = in_format(integers.is_integer)

    def to_unsigned(self, x, width, mode):
        """The unsigned integer of so many bits, the flags, and whether it is exactly x."""
        return integers.to_integer(self.format, x, 0, (1 << width) - 1, mode)

    def to_signed(self, x, width, mode):
        """The signed integer of so many bits, the flags, and whether it is exactly x."""
        end = 1 << width - 1
        return integers.to_integer(self.format, x, -end, end - 1, mode)

    # Texts.

    read = in_format(texts.read)
    shown = in_format(texts.shown)

    # Order and classes.

    def category(self, x):
        """The class of a value, by its name."""
        return order.category(x)

    def compared(self, x, y):
        """-1, 0 or 1 for less, equal or greater; None if either operand is a NaN."""
        return order.compared(x, y)

    def compared_magnitudes(self, x, y):
        """The same for the magnitudes of two numbers."""
        return order.compared(self.absolute(x), self.absolute(y))

    def is_negative(self, x):
        """Whether the sign is minus, of NaNs too."""
        return x.negative

    def is_denormal(self, x):
        """Whether x is a number other than zero and below the normal ones."""
        return data.is_nonzero_number(x) and x.quanta < self.format.smallest_normalized

    is_signaling = in_format(data.is_signaling)


VALUES = {name: FormatValues(known) for name, known in FORMATS.items()}
