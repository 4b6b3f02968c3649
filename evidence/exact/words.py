"""Values as rows write them: bits, or, in a format without bits, quanta."""

import re

from exact import data
from exact.data import Finite, Infinite

_QUANTA = re.compile(r"([+-])(?:(inf)|(s?)nan:([0-9a-f]+)|([0-9]+)(?:\*2\^([0-9]+))?q)")

# Counts of quanta from here on are written as an odd integer times a power of two.
_SHORT = 2**20


def value_of(kind, word):
    """The value of a word."""
    if kind.bits:
        return kind.decoded(int(word, 16))
    sign, infinite, signaling, payload, odd_part, power = _QUANTA.fullmatch(word).groups()
    negative = sign == "-"
    if infinite:
        return Infinite(negative)
    if payload:
        make = data.snan if signaling else data.qnan
        return make(kind.format, int(payload, 16), negative)
    return Finite(negative, int(odd_part) << int(power or 0))


def word_of(kind, x):
    """The word of a value."""
    if kind.bits:
        return f"{kind.encoded(x):0{kind.hexadecimal_digits}x}"
    return ("-" if x.negative else "+") + magnitude_of(kind.format, x)


def magnitude_of(format, x):
    """The word of a value without its sign.

    The payload of a NaN is written without the quiet bit, and without what all NaNs have.
    """
    if isinstance(x, Infinite):
        return "inf"
    if data.is_nan(x):
        payload = x.significand & format.payload_mask & ~format.quiet_bit
        return f"{'s' * data.is_signaling(format, x)}nan:{payload:x}"
    power = trailing_zeros(x.quanta)
    if power == 0 or x.quanta < _SHORT:
        return f"{x.quanta}q"
    return f"{x.quanta >> power}*2^{power}q"


def trailing_zeros(integer):
    """How many zeros the binary digits of an integer end in; 0 for 0."""
    return (integer & -integer).bit_length() - 1 if integer else 0


def payload_of(word):
    """The payload of a NaN in hexadecimal digits; None stands for 0."""
    return 0 if word == "None" else int(word, 16)


def checksum(words):
    """One integer for many."""
    total = 0
    for word in words:
        total = (total * 31 + word) % (2**61 - 1)
    return total
