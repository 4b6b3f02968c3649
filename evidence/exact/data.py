"""Data: numbers, infinities and NaNs; and what a NaN does to a result."""

from dataclasses import dataclass

from exact.status import INVALID_OP, OK


@dataclass(frozen=True, slots=True)
class Finite:
    """A number: a sign, and how many quanta it has. Zero has a sign, too."""

    negative: bool
    quanta: int

    @property
    def signed_quanta(self):
        """The quanta with the sign."""
        return -self.quanta if self.negative else self.quanta


@dataclass(frozen=True, slots=True)
class Infinite:
    """An infinity."""

    negative: bool


@dataclass(frozen=True, slots=True)
class NaN:
    """A NaN: a sign and a significand, whose digits below the integer bit are its payload."""

    negative: bool
    significand: int


def number(format, negative, quanta):
    """The number of so many quanta. A zero has no sign where the format has no negative zero."""
    return Finite(negative and (quanta > 0 or format.has_negative_zero), quanta)


def infinity(format, negative):
    """The infinity, or the NaN that a format without infinities has in its place."""
    if format.has_infinity:
        return Infinite(negative)
    return qnan(format, negative=negative)


def qnan(format, payload=0, negative=False):
    """The quiet NaN with the digits of the payload that fit."""
    significand = format.nan_base | format.quiet_digits | payload & format.payload_mask
    return NaN(negative and format.has_negative_zero, significand)


def snan(format, payload=0, negative=False):
    """The signaling NaN with the digits of the payload that fit.

    If no digit is left, the one below the quiet bit is set, since a signaling NaN has a payload.
    """
    quiet = qnan(format, payload, negative)
    significand = quiet.significand & ~format.quiet_bit
    if not significand & format.payload_mask:
        significand |= format.quiet_bit >> 1
    return NaN(quiet.negative, significand)


def negated(format, x):
    """The sign flipped, without a flag. A zero and a NaN without a sign stay as they are."""
    if isinstance(x, Finite):
        return number(format, not x.negative, x.quanta)
    if isinstance(x, Infinite):
        return Infinite(not x.negative)
    return NaN(not x.negative and format.has_negative_zero, x.significand)


def is_nan(x):
    """Whether a datum is a NaN."""
    return isinstance(x, NaN)


def is_zero(x):
    """Whether a datum is a zero."""
    return isinstance(x, Finite) and x.quanta == 0


def is_nonzero_number(x):
    """Whether a datum is a number other than zero."""
    return isinstance(x, Finite) and x.quanta > 0


def is_signaling(format, x):
    """Whether a datum is a NaN that lacks one of the digits of quiet ones."""
    return is_nan(x) and x.significand & format.quiet_digits != format.quiet_digits


def quieted(format, x):
    """A NaN with the quiet bit set. Where the integer bit is written, it stays as it is."""
    return NaN(x.negative, x.significand | format.quiet_bit)


def result_of_nans(format, *operands):
    """The first operand that is a NaN, quieted, with INVALID_OP if any operand is signaling."""
    first = next(x for x in operands if is_nan(x))
    signaling = any(is_signaling(format, x) for x in operands)
    return quieted(format, first), INVALID_OP if signaling else OK


def invalid(format):
    """The result of an operation that has none."""
    return qnan(format), INVALID_OP
