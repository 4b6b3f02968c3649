"""The class of a datum, and the order of data."""

from exact.data import Infinite, is_nan, is_zero


def category(x):
    """The class of a datum, by its name."""
    if is_nan(x):
        return "NaN"
    if isinstance(x, Infinite):
        return "Infinity"
    return "Zero" if is_zero(x) else "Normal"


def compared(x, y):
    """-1, 0 or 1 for less, equal or greater; None if either operand is a NaN."""
    if is_nan(x) or is_nan(y):
        return None
    left, right = order_key(x), order_key(y)
    return (left > right) - (left < right)


def order_key(x):
    """What orders numbers and infinities."""
    if isinstance(x, Infinite):
        return (-1 if x.negative else 1, 0)
    return (0, x.signed_quanta)
