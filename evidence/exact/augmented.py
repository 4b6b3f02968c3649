"""Augmented operations (9.5), and payloads of NaNs (9.7)."""

from exact import arithmetic, bits
from exact.data import Finite, infinity, is_nan, number, qnan, snan
from exact.rounding import Mode
from exact.status import INEXACT, OK, OVERFLOW, UNDERFLOW

CALLS = ("augmented_add", "augmented_subtract", "augmented_multiply")
PAYLOADS = ("get_payload", "set_payload", "set_payload_signaling")


def nearest(form, amount, parts):
    """The nearest point to amount / parts quanta, of two as near the lower, and whether they are equal."""
    place = max(0, (amount // parts).bit_length() - form.precision)
    digits, rest = divmod(amount, parts << place)
    return digits + (2 * rest > parts << place) << place, rest == 0


def split(form, negative, amount, parts):
    """Head and tail of a magnitude amount / parts quanta with that sign, and their flags."""
    head, _ = nearest(form, amount, parts)
    if head > form.largest:
        past = infinity(form, negative)
        return past, past, OVERFLOW | INEXACT
    rest = amount - head * parts
    tail, is_exact = nearest(form, abs(rest), parts)
    tail_negative = negative != (rest < 0)
    flags = OK if is_exact else UNDERFLOW | INEXACT
    return number(form, negative, head), number(form, tail_negative, tail), flags


def computed(form, call, x, y):
    """The two results of an operation, and its flags."""
    finite = isinstance(x, Finite) and isinstance(y, Finite)
    if call == "augmented_multiply":
        if finite and x.quanta and y.quanta:
            return split(form, x.negative != y.negative, x.quanta * y.quanta, 1 << form.scale)
        value, flags = arithmetic.multiply(form, x, y, Mode.EVEN)
        return value, value, flags
    if not finite:
        operation = arithmetic.add if call == "augmented_add" else arithmetic.subtract
        value, flags = operation(form, x, y, Mode.EVEN)
        return value, value, flags
    if call == "augmented_subtract":
        y = Finite(not y.negative, y.quanta)
    total = x.signed_quanta + y.signed_quanta
    negative = total < 0 if total else x.negative and y.negative
    return split(form, negative, abs(total), 1)


def payload_bits(form):
    """How many binary digits a payload has."""
    return form.precision - 2 if form.has_infinity else 0


def of_payload(form, call, x):
    """The result of an operation on payloads."""
    room = 1 << payload_bits(form)
    if call == "get_payload":
        payload = bits.encoded(form, x) % room if is_nan(x) else -1
        return number(form, payload < 0, abs(payload) << form.scale)
    payload, rest = divmod(x.quanta, 1 << form.scale) if isinstance(x, Finite) else (0, 1)
    least = int(call == "set_payload_signaling")
    if rest or x.negative or not least <= payload < room:
        return number(form, False, 0)
    return snan(form, payload) if least else qnan(form, payload)
