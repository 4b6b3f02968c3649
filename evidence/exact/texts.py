"""Texts: infinities, NaNs, and hexadecimal literals such as 0x1.8p-1; and how values are shown."""

import re
import sys

from exact.data import Infinite, infinity, is_nan, is_zero, number, qnan, snan
from exact.exponents import delivered_power
from exact.formats import NonFinite
from exact.order import category
from exact.status import OK

# An exponent may have any count of decimal digits.
sys.set_int_max_str_digits(0)

# "Inf" needs a sign, and the other spellings never have a "+".
_INFINITY = re.compile(r"([+-])Inf|(-?)(?:inf|INFINITY)")
_PAYLOAD = r"0[xX]\+?[0-9a-fA-F]+|0\+?[0-7]+|0|[1-9][0-9]*|\+[0-9]+"
_NAN = re.compile(rf"(-?)([sS]?)(?:nan|NaN)(?:({_PAYLOAD})|\(({_PAYLOAD})\))?")


class ParseError(Exception):
    """A text that is refused, with the words of the refusal."""


def read(format, text, mode):
    """The value of a text, and the flags."""
    special = read_infinity(format, text) or read_nan(format, text)
    if special:
        return special, OK
    negative = text.startswith("-")
    integer, exponent = hexadecimal_literal(text)
    if integer == 0:
        return number(format, negative, 0), OK
    return delivered_power(format, mode, negative, integer, exponent + format.scale)


def read_infinity(format, text):
    """The infinity that a text spells, or None."""
    match = _INFINITY.fullmatch(text)
    return infinity(format, text.startswith("-")) if match else None


def read_nan(format, text):
    """The NaN that a text spells, or None. A payload is below 2^128."""
    match = _NAN.fullmatch(text)
    if not match:
        return None
    sign, signaling, plain, in_parentheses = match.groups()
    payload = payload_of(plain or in_parentheses or "0")
    if payload >= 1 << 128:
        return None
    make = snan if signaling else qnan
    return make(format, payload, sign == "-")


def payload_of(text):
    """The integer of a payload: hexadecimal after 0x, octal after another 0, otherwise decimal."""
    if text[:2] in ("0x", "0X"):
        return int(text[2:], 16)
    if text[0] == "0" and len(text) > 1:
        return int(text[1:], 8)
    return int(text)


def hexadecimal_literal(text):
    """The integer and the exponent of two that a literal stands for."""
    body = text[1:] if text[:1] in ("+", "-") else text
    if not text:
        raise ParseError("Invalid string length")
    if not body:
        raise ParseError("String has no digits")
    if body[:2] not in ("0x", "0X"):
        raise ParseError("Not a special or hexadecimal literal")
    if len(body) == 2:
        raise ParseError("Invalid string")
    significand = re.match(r"[0-9a-fA-F.]*", body[2:])[0]
    rest = body[2 + len(significand):]
    whole, *fractions = significand.split(".")
    if len(fractions) > 1:
        raise ParseError("String contains multiple dots")
    if rest and rest[0] not in "pP":
        raise ParseError("Invalid character in significand")
    digits = whole + "".join(fractions)
    if not digits:
        raise ParseError("Significand has no digits")
    if not rest:
        raise ParseError("Hex strings require an exponent")
    exponent = exponent_of(rest[1:])
    return int(digits, 16), exponent - 4 * (len(digits) - len(whole))


def exponent_of(text):
    """The decimal exponent after the p."""
    digits = text[1:] if text[:1] in ("+", "-") else text
    if re.search(r"[^0-9]", digits):
        raise ParseError("Invalid character in exponent")
    if not digits:
        raise ParseError("Exponent has no digits")
    return -int(digits) if text[0] == "-" else int(digits)


def shown(format, x):
    """A datum as it is shown for debugging: class, significand, exponent of the integer bit."""
    significand, exponent = shown_digits(format, x)
    sign = "-" if x.negative else "+"
    return f"({category(x)} | {sign}{significand} * 2^{exponent})"


def shown_digits(format, x):
    """The significand and the exponent that are shown."""
    above = format.greatest_exponent + 1
    if isinstance(x, Infinite):
        return 0, above
    if is_nan(x):
        if format.non_finite is NonFinite.NAN_NEGATIVE_ZERO:
            return x.significand, format.least_exponent - 1
        return x.significand, above if format.has_infinity else above - 1
    if is_zero(x):
        return 0, format.least_exponent - 1
    place = max(0, x.quanta.bit_length() - format.precision)
    return x.quanta >> place, format.least_exponent + place
