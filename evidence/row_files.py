"""Rows in the seven columns of docs/PROGRAMS.md, for the scripts that write files of them."""

from exact.rounding import Mode
from exact.status import names

MODES = (Mode.EVEN, Mode.UP, Mode.DOWN, Mode.ZERO, Mode.AWAY)

FACTOR = 1000003


def hexes(form, *patterns):
    """Bits of values of a format, separated by spaces."""
    digits = -(-form.bits // 4)
    return " ".join(f"{bits:0{digits}x}" for bits in patterns)


def row(call, kind, mode, operands, value, status=None, more="-"):
    """A row; a call without a mode has None, and one without flags no status."""
    flags = "-" if status is None else names(status)
    return "\t".join((call, kind, mode.value if mode else "-", str(operands), str(value), flags, more))


def loses(information):
    """Whether information is lost, as a conversion tells it."""
    return f"loses_info={str(information).lower()}"


def in_each_mode(call, kind, operands, answer):
    """The rows of a call in each mode; a single one if the mode makes no difference. `answer` gives the last columns."""
    answers = [answer(mode) for mode in MODES]
    if all(each == answers[0] for each in answers):
        return [row(call, kind, MODES[0], operands, *answers[0]).replace("\teven\t", "\tany\t", 1)]
    return [row(call, kind, mode, operands, *each) for mode, each in zip(MODES, answers)]


def extended(checksum, value, status=0, loses_info=False):
    """A checksum with one more result."""
    return (checksum * FACTOR + value * 64 + status * 2 + loses_info) % 2**64


def checksum_of(results):
    """The checksum of results, each a value with, if there are such, its flags and whether information is lost."""
    checksum = 0
    for result in results:
        checksum = extended(checksum, *result)
    return checksum


def every(call, kind, mode, operands, results):
    """The row of all results of a call. Operands begin with the steps in which patterns are taken."""
    return row(f"every_{call}", kind, mode, operands, f"{checksum_of(results):016x}")
