"""Pairs of doubles: values that are the exact sum of two doubles.

Sums and products are chains of operations on doubles; the flags of all their steps are joined.
Quotients, remainders, texts and some other calls are those of a wide format of 106 digits: the
pair is joined to one wide number, and the wide result is split into a pair.
"""

from dataclasses import dataclass

from exact import arithmetic, bits, data, exponents, integers, order, texts
from exact.conversions import convert
from exact.data import Finite, Infinite, is_nonzero_number, is_zero
from exact.formats import DOUBLE, FALLBACK
from exact.rounding import Mode
from exact.status import INVALID_OP, OK
from exact.values import VALUES, Values

_WIDE = VALUES[FALLBACK.name]
_ZERO = Finite(False, 0)


@dataclass(frozen=True, slots=True)
class Pair:
    """Two data of binary64. The high part decides the class and the sign."""

    high: object
    low: object = _ZERO


def joined(x):
    """The wide number of a pair: the sum of its parts, rounded once to nearest."""
    high = convert(DOUBLE, FALLBACK, x.high, Mode.EVEN)[0]
    if not is_nonzero_number(x.high):
        return high
    low = convert(DOUBLE, FALLBACK, x.low, Mode.EVEN)[0]
    return arithmetic.add(FALLBACK, high, low, Mode.EVEN)[0]


def split(x):
    """The pair of a wide number: the nearest double, and what it leaves."""
    high = convert(FALLBACK, DOUBLE, x, Mode.EVEN)[0]
    if not is_nonzero_number(high):
        return Pair(high)
    # Doubles and wide numbers have the same quantum.
    rest = x.signed_quanta - high.signed_quanta
    return Pair(high, Finite(rest < 0, abs(rest)))


def split_result(result):
    """The pair of a wide result, with the flags of the wide call."""
    value, status = result
    return split(value), status


class Steps:
    """Operations on doubles in one mode, whose flags are joined."""

    def __init__(self, mode):
        self.mode = mode
        self.status = OK

    def taken(self, result):
        """The value of a step."""
        value, status = result
        self.status |= status
        return value

    def add(self, x, y):
        """x + y."""
        return self.taken(arithmetic.add(DOUBLE, x, y, self.mode))

    def subtract(self, x, y):
        """x - y."""
        return self.taken(arithmetic.subtract(DOUBLE, x, y, self.mode))

    def multiply(self, x, y):
        """x * y."""
        return self.taken(arithmetic.multiply(DOUBLE, x, y, self.mode))

    def multiply_add(self, x, y, z):
        """x * y + z."""
        return self.taken(arithmetic.multiply_add(DOUBLE, x, y, z, self.mode))

    def closed(self, main, rest):
        """The pair of the sum of a main part and a rest, and the flags of all steps."""
        high = self.add(main, rest)
        if not isinstance(high, Finite):
            return Pair(high), self.status
        low = self.add(self.subtract(main, high), rest)
        return Pair(high, low), self.status


def minus(x):
    """A double with its sign flipped."""
    return data.negated(DOUBLE, x)


def special_sum(x, y):
    """The sum where a high part is not a nonzero number; otherwise None."""
    if isinstance(x.high, Infinite) and isinstance(y.high, Infinite):
        if x.high != y.high:
            return Pair(data.qnan(DOUBLE, negative=x.high.negative)), INVALID_OP
        return x, OK
    if is_zero(y.high) or data.is_nan(x.high):
        return x, OK
    if isinstance(x.high, Infinite) and is_nonzero_number(y.high):
        return x, OK
    if is_zero(x.high) or not is_nonzero_number(y.high):
        return y, OK
    return None


def summed(x, y, steps):
    """The sum of two numbers, by a chain of steps."""
    a, aa, c, cc = x.high, x.low, y.high, y.low
    z = steps.add(a, c)
    if isinstance(z, Infinite):
        return summed_from_the_smallest(x, y, Steps(steps.mode))
    q = steps.subtract(a, z)
    zz = steps.add(q, c)
    q = minus(steps.subtract(steps.add(q, z), a))
    zz = steps.add(steps.add(steps.add(zz, q), aa), cc)
    if zz == _ZERO:
        return Pair(z), OK
    return steps.closed(z, zz)


def summed_from_the_smallest(x, y, steps):
    """The sum where the high parts add up to an infinity: the low parts are added up first."""
    a, aa, c, cc = x.high, x.low, y.high, y.low
    greater, smaller = (a, c) if a.quanta > c.quanta else (c, a)
    z = steps.add(steps.add(steps.add(cc, aa), smaller), greater)
    if not isinstance(z, Finite):
        return Pair(z), steps.status
    zz = steps.add(aa, cc)
    low = steps.add(steps.subtract(greater, z), smaller)
    return Pair(z, steps.add(low, zz)), steps.status


def special_product(x, y):
    """The product where a high part is not a nonzero number; otherwise None."""
    for pair in x, y:
        if data.is_nan(pair.high):
            return pair, OK
    if is_nonzero_number(x.high) and is_nonzero_number(y.high):
        return None
    for one, other in (x, y), (y, x):
        if is_zero(one.high) and isinstance(other.high, Infinite):
            return Pair(data.qnan(DOUBLE)), OK
    return y if is_nonzero_number(x.high) else x, OK


def multiplied(x, y, steps):
    """The product of two numbers, by a chain of steps, without the product of the low parts."""
    a, b, c, d = x.high, x.low, y.high, y.low
    t = steps.multiply(a, c)
    if not is_nonzero_number(t):
        return Pair(t), steps.status
    tau = steps.multiply_add(a, c, minus(t))
    v = steps.multiply(a, d)
    w = steps.multiply(b, c)
    tau = steps.add(tau, steps.add(v, w))
    return steps.closed(t, tau)


class PairValues(Values):
    """The calls of pairs of doubles. In bits, the low part is the upper half."""

    name = "dd"
    bits = 128
    hexadecimal_digits = 32
    precision = FALLBACK.precision
    least_exponent = FALLBACK.least_exponent
    greatest_exponent = FALLBACK.greatest_exponent
    multiplies = True
    multiplies_and_adds = False

    # Bits.

    def decoded(self, pattern):
        """The value of a bit pattern."""
        return Pair(bits.decoded(DOUBLE, pattern), bits.decoded(DOUBLE, pattern >> 64))

    def encoded(self, x):
        """The bits of a value."""
        return bits.encoded(DOUBLE, x.low) << 64 | bits.encoded(DOUBLE, x.high)

    # Values that pairs have.

    def zero(self):
        """+0."""
        return Pair(_ZERO)

    def smallest(self):
        """The smallest double."""
        return Pair(Finite(False, 1))

    def smallest_normalized(self):
        """The smallest number of full precision, 2^-969."""
        return Pair(Finite(False, FALLBACK.smallest_normalized))

    def largest(self):
        """The largest double, and a low part just below half of its last digit."""
        return self.decoded(0x7C8FFFFFFFFFFFFE_7FEFFFFFFFFFFFFF)

    def infinity(self):
        """The infinity."""
        return Pair(Infinite(False))

    def qnan(self, payload):
        """The quiet NaN with a payload."""
        return Pair(data.qnan(DOUBLE, payload))

    def snan(self, payload):
        """The signaling NaN with a payload."""
        return Pair(data.snan(DOUBLE, payload))

    # By chains.

    def add(self, x, y, mode):
        """x + y."""
        return special_sum(x, y) or summed(x, y, Steps(mode))

    def multiply(self, x, y, mode):
        """x * y."""
        return special_product(x, y) or multiplied(x, y, Steps(mode))

    # By the wide format.

    def divide(self, x, y, mode):
        """x / y."""
        return split_result(_WIDE.divide(joined(x), joined(y), mode))

    def square_root(self, x, mode):
        """The square root."""
        return split_result(_WIDE.square_root(joined(x), mode))

    def truncated_remainder(self, x, y):
        """The remainder by the quotient cut toward zero."""
        return split_result(_WIDE.truncated_remainder(joined(x), joined(y)))

    def nearest_remainder(self, x, y):
        """The remainder by the nearest integer quotient."""
        return split_result(_WIDE.nearest_remainder(joined(x), joined(y)))

    def round_to_integral(self, x, mode):
        """The integral value that the mode picks."""
        return split_result(_WIDE.round_to_integral(joined(x), mode))

    def next_up(self, x):
        """The next wide value above x."""
        return split_result(_WIDE.next_up(joined(x)))

    def exact_inverse(self, x):
        """1 / x, if x is a power of two and both are normal numbers."""
        inverse = _WIDE.exact_inverse(joined(x))
        return None if inverse is None else split(inverse)

    def read(self, text, mode):
        """The value of a text."""
        return split_result(_WIDE.read(text, mode))

    def from_integer(self, integer, mode):
        """The value of an integer; of a negative one, that of its magnitude, negated."""
        if integer >= 0:
            return split_result(_WIDE.from_integer(integer, mode))
        value, status = self.from_integer(-integer, mode.opposite)
        return self.negated(value), status

    def to_unsigned(self, x, width, mode):
        """The unsigned integer of so many bits, the flags, and whether it is exactly x."""
        return _WIDE.to_unsigned(joined(x), width, mode)

    def to_signed(self, x, width, mode):
        """The signed integer of so many bits, the flags, and whether it is exactly x.

        By the sign of the high part, it is that of an unsigned conversion.
        """
        if not self.is_negative(x):
            return self.to_unsigned(x, width - 1, mode)
        if is_zero(x.high):
            return 0, OK, False
        magnitude, status, exact = self.to_unsigned(self.negated(x), width, mode.opposite)
        if magnitude > 1 << width - 1:
            return -(1 << width - 1), INVALID_OP, False
        return -magnitude, status, exact

    # By parts.

    def negated(self, x):
        """-x. A low part that is zero or not finite stays as it is."""
        low = minus(x.low) if is_nonzero_number(x.low) else x.low
        return Pair(minus(x.high), low)

    def scaled(self, x, exponent, mode):
        """x * 2^exponent."""
        return Pair(*(exponents.scaled(DOUBLE, part, exponent, mode) for part in (x.high, x.low)))

    def logarithm(self, x):
        """The floor of the binary logarithm of the high part."""
        return exponents.logarithm(DOUBLE, x.high)

    def fraction(self, x, mode):
        """The fraction of the high part and its exponent, which scales the low part, too."""
        high, exponent = exponents.fraction(DOUBLE, x.high, mode)
        low = x.low
        if is_nonzero_number(x.high):
            low = exponents.scaled(DOUBLE, low, -exponent, mode)
        return Pair(high, low), exponent

    def shown(self, x):
        """A value as it is shown for debugging."""
        return f"DoubleFloat({texts.shown(DOUBLE, x.high)}, {texts.shown(DOUBLE, x.low)})"

    def category(self, x):
        """The class of a value, by its name."""
        return order.category(x.high)

    def compared(self, x, y):
        """-1, 0 or 1 for less, equal or greater; None if either operand is a NaN.

        The high parts come first.
        """
        by_high = order.compared(x.high, y.high)
        return order.compared(x.low, y.low) if by_high == 0 else by_high

    def compared_magnitudes(self, x, y):
        """The order of magnitudes: that of the high parts, and if these tie that of the low parts.

        A low part of the opposite sign takes away from its high part.
        """
        if x.high.quanta != y.high.quanta:
            return 1 if x.high.quanta > y.high.quanta else -1
        if x.low.quanta == y.low.quanta:
            return 0
        left, right = (
            -pair.low.quanta if pair.low.negative != pair.high.negative else pair.low.quanta
            for pair in (x, y)
        )
        return 1 if left > right else -1

    def is_negative(self, x):
        """Whether the sign of the high part is minus."""
        return x.high.negative

    def is_denormal(self, x):
        """Whether x is a number whose high part is denormal, or is not the nearest sum of both."""
        if not is_nonzero_number(x.high):
            return False
        nearest = arithmetic.add(DOUBLE, x.high, x.low, Mode.EVEN)[0]
        is_small = x.high.quanta < DOUBLE.smallest_normalized
        return is_small or order.compared(x.high, nearest) != 0

    def is_signaling(self, x):
        """Whether the high part is a signaling NaN."""
        return data.is_signaling(DOUBLE, x.high)

    def is_integer(self, x):
        """Whether both parts are integers."""
        return all(integers.is_integer(DOUBLE, part) for part in (x.high, x.low))


PAIRS = PairValues()
