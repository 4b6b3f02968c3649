"""Bits: how data are encoded.

From the top: the sign, the biased exponent (the field), and the trailing significand. The x87
format and those like it write the integer bit of the significand, too.
"""

from exact.data import Finite, Infinite, NaN
from exact.formats import NonFinite


def decoded(format, bits):
    """The datum that bits are read as. Bits above those of the format are ignored."""
    written = significand_bits(format)
    significand = bits & (1 << written) - 1
    field = bits >> written & format.greatest_field
    negative = bits >> format.bits - 1 & 1 == 1
    if format.writes_integer_bit:
        return decoded_explicit(format, negative, field, significand)
    if format.has_infinity and field == format.greatest_field:
        return NaN(negative, significand) if significand else Infinite(negative)
    if is_only_nan(format, negative, field, significand):
        return NaN(negative and format.has_negative_zero, significand)
    if field == 0:
        return Finite(negative, significand)
    return Finite(negative, (1 << written) + significand << field - 1)


def significand_bits(format):
    """How many bits of a significand are written."""
    return format.precision if format.writes_integer_bit else format.precision - 1


def is_only_nan(format, negative, field, significand):
    """Whether these parts encode the NaN of a format that has no infinities.

    It is all ones below the sign, or the bits that would be a negative zero.
    """
    if format.non_finite is NonFinite.NAN_ONLY:
        return field == format.greatest_field and significand == format.nan_base
    if format.non_finite is NonFinite.NAN_NEGATIVE_ZERO:
        return negative and field == 0 and significand == 0
    return False


def decoded_explicit(format, negative, field, significand):
    """The datum where the integer bit is written.

    Without it, a significand at a field between the least and the greatest is a NaN.
    """
    has_integer_bit = significand >> format.precision - 1 == 1
    if field == format.greatest_field:
        if significand == format.smallest_normalized:
            return Infinite(negative)
        return NaN(negative, significand)
    if field > 0 and not has_integer_bit:
        return NaN(negative, significand)
    return Finite(negative, significand << max(field - 1, 0))


def encoded(format, x):
    """The canonical bits of a datum."""
    if isinstance(x, NaN) and format.non_finite is NonFinite.NAN_NEGATIVE_ZERO:
        return 1 << format.bits - 1
    if isinstance(x, Finite):
        place = max(0, x.quanta.bit_length() - format.precision)
        significand = x.quanta >> place
        field = place + (significand >> format.precision - 1)
    else:
        field = format.greatest_field
        significand = x.significand if isinstance(x, NaN) else format.smallest_normalized
    written = significand_bits(format)
    sign = x.negative << format.bits - 1
    return sign | field << written | significand & (1 << written) - 1
