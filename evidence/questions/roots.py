"""Square roots in every format, and of pairs of doubles."""

from exact import words
from exact.data import number
from exact.formats import FORMATS
from exact.values import VALUES
from questions.operands import Operands, random_bits

# How often each format is drawn. Those with millions of exponents take long.
_WEIGHTS = {
    "half": 20, "single": 30, "double": 30, "quad": 60, "x87": 60, "bfloat": 10, "e5m2": 3,
    "e4m3fn": 3, "e4m3fnuz": 3, "fallback": 15, "fallbackext": 15, "lim3": 6, "lim3nan": 6,
    "lim125": 30, "seven": 6, "expl14": 6, "nan10": 6, "halftbr": 3, "wide128": 3, "lim125deep": 2,
    "lim3deep": 1,
}


def question(choices, name=None):
    """A square root without its answer, in a format or in any."""
    if name is None:
        (name,) = choices.choices(list(_WEIGHTS), list(_WEIGHTS.values()))
    operands = Operands(choices, FORMATS[name])
    if operands.form.writes_integer_bit and choices.random() < 0.1:
        word = random_bits(choices, operands.form)
    else:
        word = words.word_of(VALUES[name], operand(operands))
    return f"sqrt_r\t{name}\t{operands.mode().value}\t{word}\t\t\t-"


def operand(operands):
    """Any datum, mostly positive; or a square, or next to one."""
    form, choices = operands.form, operands.choices
    draw = choices.random()
    if draw < 0.15:
        return operands.any()
    quanta = operands.magnitude()
    if draw < 0.75:
        quanta = operands.steps_away(square(operands), choices.choice([0, 1, 2]))
    return number(form, draw > 0.97, quanta)


def square(operands):
    """A number near a square: of a short number, of any number, or of a midpoint."""
    form, choices = operands.form, operands.choices
    digits = choices.choice([
        choices.randint(1, form.precision // 2 + 1), form.precision, form.precision + 1
    ])
    root = operands.significand(digits) | 1
    place = choices.randint(0, form.scale + form.greatest_exponent)
    place -= (place + form.scale) % 2
    # The square of root * 2^p is root^2 * 2^(2 p); here 2 p is place - scale.
    amount = root * root
    shift = place - amount.bit_length() // 2 * 2
    return operands.nearest(amount << max(shift, 0), 1 << max(-shift, 0))
