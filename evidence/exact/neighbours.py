"""The next value up."""

from exact.data import (
    Infinite,
    infinity,
    is_nan,
    is_signaling,
    number,
    qnan,
)
from exact.status import INVALID_OP, OK


def next_up(format, x):
    """The least value above x, and the flags."""
    if is_nan(x):
        if is_signaling(format, x):
            return qnan(format, negative=x.negative), INVALID_OP
        return x, OK
    if isinstance(x, Infinite):
        return number(format, True, format.largest) if x.negative else x, OK
    if x.negative and x.quanta > 0:
        # Toward zero, the points between 0 and x are as far apart as those next to x - 1.
        return number(format, True, x.quanta - spacing(format, x.quanta - 1)), OK
    if x.quanta == format.largest:
        return infinity(format, False), OK
    return number(format, False, x.quanta + spacing(format, x.quanta)), OK


def spacing(format, quanta):
    """The spacing of numbers near that many quanta."""
    return 1 << max(0, quanta.bit_length() - format.precision)
