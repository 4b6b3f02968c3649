"""Operations of IEEE 754-2019 that a kind of values has beside the calls of `calls.py`.

Numbers are compared, and digits computed, as fractions.
"""

from fractions import Fraction

from exact import data, integers, status
from exact.bits import decoded, encoded
from exact.data import Finite, Infinite, is_nan, is_signaling, quieted
from exact.exponents import delivered_power, logarithm
from exact.rounding import rounded_quotient
from exact.status import DIV_BY_ZERO, INEXACT, INVALID_OP, OK

# The relations that satisfy each predicate (tables 5.1 to 5.3); None is unordered.
PREDICATES = {
    "equal": (0,),
    "not_equal": (-1, 1, None),
    "greater": (1,),
    "greater_equal": (0, 1),
    "less": (-1,),
    "less_equal": (-1, 0),
    "not_greater": (-1, 0, None),
    "less_unordered": (-1, None),
    "not_less": (0, 1, None),
    "greater_unordered": (1, None),
    "unordered": (None,),
    "ordered": (-1, 0, 1),
}

COMPARISONS = {
    f"compare_{kind}_{name}": (relations, kind == "signaling")
    for kind in ("quiet", "signaling")
    for name, relations in PREDICATES.items()
    if not (kind == "signaling" and name in ("ordered", "unordered"))
}

# A signaling predicate that the standard has no name for.
UNNAMED = {"compare_signaling_unordered": ((None,), True)}

_EXTREMA = {
    "minimum": (False, -1),
    "maximum": (False, 1),
    "minimum_magnitude": (True, -1),
    "maximum_magnitude": (True, 1),
}

EXTREMA = {
    f"{name}{ending}": (*rule, ending == "_number_of")
    for name, rule in _EXTREMA.items()
    for ending in ("_of", "_number_of")
}


def exact_value(format, x):
    """The value of a number or an infinity, in an order that Python compares."""
    if isinstance(x, Infinite):
        return float("-inf") if x.negative else float("inf")
    return Fraction(x.signed_quanta, 1 << format.scale)


def relation(format, x, y):
    """-1, 0 or 1 for less, equal or greater; None if either operand is a NaN."""
    if is_nan(x) or is_nan(y):
        return None
    left, right = exact_value(format, x), exact_value(format, y)
    return (left > right) - (left < right)


def invalid_flag(format, *operands):
    """INVALID_OP if an operand is signaling."""
    return INVALID_OP if any(is_signaling(format, x) for x in operands) else OK


def compared(format, name, x, y):
    """Whether a predicate holds, and the flags (5.6.1, 5.11)."""
    return compared_between(format, format, name, x, y)


def compared_between(format, other, name, x, y):
    """The same of operands of two formats, by their exact values."""
    relations, signals = (COMPARISONS | UNNAMED)[name]
    flags = invalid_flag(format, x) | invalid_flag(other, y)
    if signals and (is_nan(x) or is_nan(y)):
        flags = INVALID_OP
    if is_nan(x) or is_nan(y):
        return None in relations, flags
    left, right = exact_value(format, x), exact_value(other, y)
    return (left > right) - (left < right) in relations, flags


def total_key(format, x):
    """What the total order orders (5.10)."""
    if is_nan(x):
        place = 1 if is_signaling(format, x) else 2
        return (-place, -x.significand, 0) if x.negative else (place, x.significand, 0)
    return 0, exact_value(format, x), 0 if x.negative else 1


def total_cmp(format, x, y):
    """-1, 0 or 1 in the total order."""
    left, right = total_key(format, x), total_key(format, y)
    return (left > right) - (left < right)


def extremum(format, name, x, y):
    """A minimum or a maximum, and the flags (9.6)."""
    of_magnitudes, side, prefers_number = EXTREMA[name]
    flags = invalid_flag(format, x, y)
    if is_nan(x) and (is_nan(y) or not prefers_number):
        return quieted(format, x), flags
    if is_nan(y) and not prefers_number:
        return quieted(format, y), flags
    if is_nan(x) or is_nan(y):
        return y if is_nan(x) else x, flags
    if of_magnitudes:
        left, right = abs(exact_value(format, x)), abs(exact_value(format, y))
        if left != right:
            return x if ((left > right) - (left < right)) == side else y, flags
    # -0 is below +0.
    return y if total_cmp(format, y, x) == side else x, flags


def class_of(format, x):
    """The class (5.7.2)."""
    if is_nan(x):
        return "SignalingNan" if is_signaling(format, x) else "QuietNan"
    sign = "Negative" if x.negative else "Positive"
    if isinstance(x, Infinite):
        return sign + "Infinity"
    if x.quanta == 0:
        return sign + "Zero"
    return sign + ("Subnormal" if x.quanta < format.smallest_normalized else "Normal")


def log_b(format, x, mode):
    """logB as a value (5.3.3)."""
    if is_nan(x):
        return data.result_of_nans(format, x)
    if isinstance(x, Infinite):
        return data.infinity(format, False), OK
    if x.quanta == 0:
        return data.infinity(format, True), DIV_BY_ZERO
    return integers.from_integer(format, logarithm(format, x), mode)


def integer_log_b(format, x):
    """logB as an integer (5.3.3)."""
    has_exponent = isinstance(x, Finite) and x.quanta != 0
    return logarithm(format, x), OK if has_exponent else INVALID_OP


def scale_b(format, x, power, mode):
    """The value times 2^power, and the flags (5.3.3)."""
    if is_nan(x):
        return data.result_of_nans(format, x)
    if isinstance(x, Infinite) or x.quanta == 0:
        return x, OK
    return delivered_power(format, mode, x.negative, x.quanta, power)


def round_to_integral_in(format, x, mode):
    """The integral value, without INEXACT (5.9)."""
    value, flags = integers.round_to_integral(format, x, mode)
    return value, flags & ~INEXACT


def to_integer(format, name, x, width, mode):
    """An integer, and the flags, with INEXACT or without it (5.8)."""
    end = 1 << width
    least, greatest = (0, end - 1) if "unsigned" in name else (-end // 2, end // 2 - 1)
    value, flags, _ = integers.to_integer(format, x, least, greatest, mode)
    return value, flags if name.endswith("_exact") else flags & ~INEXACT


def digits_of(format, x, count, mode):
    """So many decimal digits of a number other than zero, the exponent of the first, and the flags."""
    magnitude = Fraction(x.quanta, 1 << format.scale)
    exponent = len(str(magnitude.numerator)) - len(str(magnitude.denominator))
    while Fraction(10) ** exponent > magnitude:
        exponent -= 1
    while Fraction(10) ** (exponent + 1) <= magnitude:
        exponent += 1
    scaled = magnitude / Fraction(10) ** (exponent - count + 1)
    digits, exact = rounded_quotient(mode, x.negative, scaled.numerator, scaled.denominator)
    if digits == 10**count:
        digits, exponent = digits // 10, exponent + 1
    return str(digits), exponent, OK if exact else INEXACT


def digit_count(format, x):
    """How many decimal digits a number other than zero has."""
    return len(str(x.quanta * 5**format.scale).rstrip("0"))


def is_canonical_encoding(format, bits):
    """Whether bits are what the datum that they are read as is written as."""
    return encoded(format, decoded(format, bits)) == bits


def bits_of_flags(word):
    """The flags that a word names."""
    if word == "OK":
        return OK
    return sum(1 << status.NAMES.index(name) for name in word.split("|"))


# The operations on flags (5.7.4), as bits; those that test return whether any is raised.
ON_FLAGS = {
    "lower_flags": lambda flags, group: flags & ~group,
    "raise_flags": lambda flags, group: flags | group,
    "test_flags": lambda flags, group: flags & group != 0,
    "save_all_flags": lambda flags: flags,
    "test_saved_flags": lambda saved, group: saved & group != 0,
    "restore_flags": lambda flags, saved, group: flags & ~group | saved & group,
}
