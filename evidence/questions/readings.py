"""Decimal texts that are hard to read: halfway, at the ends of the range, long ones.

A magnitude is an integer, `amount`, that is halved so many times.
"""

from exact.formats import PROGRAM_FORMATS, FALLBACK
from exact.neighbours import spacing
from exact.rounding import Mode
from exact.words import trailing_zeros
from questions.operands import Operands
from questions.short_forms import product, repeated

# By the name in rows: the format that a text is rounded to.
FORMATS = {known.name: known for known in PROGRAM_FORMATS} | {"dd": FALLBACK}

_MIDPOINTS = 40

# Texts of a million bytes, or with an exponent of as many digits. The last two are refused.
_MILLION = (
    "1{0:1000000}e-1000000", "-0.{0:1000000}1e1000001", "{9:1000000}e-1000000", "-{9:1000000}e-999995",
    "0.{3:1000000}", "-1.{0:999999}1", "{0:1000000}1.5", "{10:500000}e-1000003", "{17:500000}e-999980",
    "1e{9:1000000}", "-1e-{9:1000000}", "-0e{9:1000000}", "1e{0:1000000}3", "-1e-{0:1000000}3",
    "1{0:1000000}e-{0:1000000}1000004", "0.{0:1000000}e{9:1000000}", "{1:1000000}x", "1e{9:1000000}x",
)


def readings(choices):
    """The names of formats, modes and short forms of texts."""
    for name, form in FORMATS.items():
        operands = Operands(choices, form)
        for point in ends(form):
            for mode in Mode:
                yield name, mode, written(operands, *point)
        for _ in range(_MIDPOINTS):
            yield from around(operands, name, *midpoint(operands))
        yield name, choices.choice(list(Mode)), written(operands, *midpoint(operands), 0, "1", 1000000)
    for literal in _MILLION:
        for name in ("half", "double", "quad", "dd", choices.choice(["single", "x87", "bfloat", "e5m2", "e4m3fn"])):
            yield name, choices.choice(list(Mode)), literal


def ends(form):
    """Magnitudes around zero, the smallest normal number and the largest, and how many units they change by.

    They are counted in quarters of a quantum, or of the spacing at the largest number.
    """
    normal = 4 * form.smallest_normalized
    low = [*range(1, 9), *range(normal - 5, normal + 4)]
    top = spacing(form, form.largest)
    above = [4 * form.largest + quarters * top for quarters in (-4, -2, -1, 0, 1, 2, 3, 4, 8)]
    ties = (2, 4, 6, normal - 4, normal - 2, normal, above[3], above[5], above[7])
    for amount in (*low, *above):
        for change in (0, -1, 1) if amount in ties else (0,):
            yield amount, form.scale + 2, change


def midpoint(operands):
    """The middle between two neighbours, any of the format."""
    form = operands.form
    place = operands.choices.randint(0, operands.span)
    quanta = operands.choice([operands.magnitude(), operands.scaled(operands.significand(form.precision), place)])
    return 2 * quanta + spacing(form, quanta), form.scale + 1


def around(operands, name, amount, halvings):
    """A midpoint in three modes, and numbers that are just below and above it."""
    directed = operands.choice([Mode.UP, Mode.DOWN, Mode.ZERO])
    for mode in (Mode.EVEN, Mode.AWAY, directed):
        yield name, mode, written(operands, amount, halvings)
    for change, tail in ((-1, "9"), (1, "0")):
        mode = operands.choice([Mode.EVEN, Mode.AWAY])
        if operands.sign():
            yield name, mode, written(operands, amount, halvings, change)
        else:
            count = operands.choice([1, 30, 800, 11000])
            yield name, mode, written(operands, amount, halvings, min(change, 0), tail, count)


def written(operands, amount, halvings, change=0, tail="", count=0):
    """A text of a magnitude, some units of its last place off, and with digits after those.

    A 1 follows these.
    """
    choices = operands.choices
    zeros = trailing_zeros(amount)
    power = zeros - halvings
    digits, length = product(amount >> zeros, 2 if power > 0 else 5, abs(power), change)
    exponent = min(power, 0)
    if tail:
        digits += repeated(tail, count) + "1"
        length, exponent = length + count + 1, exponent - count - 1
    sign = choices.choice(["", "", "+", "-", "-"])
    draw = choices.random()
    if draw < 0.3 and length <= -exponent:
        return f"{sign}0.{repeated('0', -exponent - length)}{digits}"
    if draw < 0.6:
        return f"{sign}.{digits}{choices.choice('eE')}{exponent + length}"
    return f"{sign}{digits}{f'e{exponent}' if exponent else ''}"
