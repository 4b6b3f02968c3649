"""The flags that an operation raises, as the bits of an integer."""

NAMES = ("INVALID_OP", "DIV_BY_ZERO", "OVERFLOW", "UNDERFLOW", "INEXACT")

OK = 0
INVALID_OP, DIV_BY_ZERO, OVERFLOW, UNDERFLOW, INEXACT = (1 << place for place in range(len(NAMES)))


def names(status):
    """The names of the flags, joined by bars; OK for none."""
    raised = [name for place, name in enumerate(NAMES) if status >> place & 1]
    return "|".join(raised) or "OK"
