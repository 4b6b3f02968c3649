"""Values in hexadecimal digits (5.12.3): the first digit is 1, and the others are those of the binary fraction."""

from exact.data import Finite, Infinite, is_signaling
from exact.rounding import rounded_quotient
from exact.status import INEXACT, OK


def sign(negative):
    """The sign of a text."""
    return "-" if negative else ""


def word(form, x):
    """The text of an infinity or a NaN."""
    if isinstance(x, Infinite):
        return f"{sign(x.negative)}inf"
    return f"{sign(x.negative)}{'snan' if is_signaling(form, x) else 'nan'}"


def spelled(negative, digits, exponent):
    """A text with these digits, of which the first stands before the dot."""
    fraction = f".{digits[1:]}" if len(digits) > 1 else ""
    return f"{sign(negative)}0x{digits[0]}{fraction}p{exponent}"


def exact_text(form, x):
    """The shortest text of a value."""
    if not isinstance(x, Finite):
        return word(form, x)
    if x.quanta == 0:
        return spelled(x.negative, "0", 0)
    places = x.quanta.bit_length() - 1
    aligned = x.quanta << -places % 4
    return spelled(x.negative, f"{aligned:x}".rstrip("0"), places - form.scale)


def rounded_text(form, mode, count, x):
    """The text of a value with so many digits after the dot, and its flags."""
    if not isinstance(x, Finite):
        return word(form, x), OK
    if x.quanta == 0:
        return spelled(x.negative, "0" * (count + 1), 0), OK
    places = x.quanta.bit_length() - 1
    digits, is_exact = rounded_quotient(mode, x.negative, x.quanta << 4 * count, 1 << places)
    if digits == 2 << 4 * count:
        digits, places = 1 << 4 * count, places + 1
    return spelled(x.negative, f"{digits:x}", places - form.scale), OK if is_exact else INEXACT
