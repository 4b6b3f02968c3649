"""Products and fused sums at every precision, most of them in formats of more than 63 digits."""

from exact import words
from exact.data import is_nonzero_number, number
from exact.formats import FORMATS
from exact.values import VALUES
from questions.operands import Operands, random_bits

# How often each format is drawn. Those with millions of exponents take long.
_WEIGHTS = {
    "quad": 60, "x87": 60, "fallback": 20, "fallbackext": 20, "lim125": 30, "wide128": 3,
    "lim125deep": 2, "double": 6, "half": 6, "e4m3fn": 3, "e4m3fnuz": 3, "lim3": 3, "nan10": 3,
}


def question(choices, name=None):
    """A product or a fused sum without its answer, in a format or in any."""
    if name is None:
        (name,) = choices.choices(list(_WEIGHTS), list(_WEIGHTS.values()))
    operands = Operands(choices, FORMATS[name])
    call = choices.choice(["wide_mul_r", "wide_mul_add_r", "wide_mul_add_r"])
    data = list(factors(operands))
    if call == "wide_mul_add_r":
        data.append(addend(operands, *data))
    written = [words.word_of(VALUES[name], datum) for datum in data]
    if operands.form.writes_integer_bit and choices.random() < 0.15:
        written[choices.randrange(len(written))] = random_bits(choices, operands.form)
    return f"{call}\t{name}\t{operands.mode().value}\t{' '.join(written)}\t\t\t-"


def factors(operands):
    """Two factors: any, alike, short, powers of two, or with a product at an end of the range."""
    form, choices = operands.form, operands.choices
    draw = choices.random()
    if draw < 0.15:
        return operands.any(), operands.any()
    x = operands.magnitude()
    if draw < 0.25:
        y = operands.steps_away(x, 2)
    elif draw < 0.65:
        amount, parts = operands.end()
        y = operands.steps_away(operands.nearest(amount << form.scale, parts * x), 1)
    elif draw < 0.75:
        x, y = operands.near_one(1), operands.near_one(1)
    else:
        # A product of one digit more than a significand is a midpoint; a shorter one is exact.
        digits = choices.randint(1, form.precision)
        rest = form.precision - digits + choices.randint(0, 3)
        lengths = digits, max(1, min(rest, form.precision))
        x, y = (operands.near_one(operands.significand(length) | 1) for length in lengths)
    return operands.signed(x), operands.signed(y)


def addend(operands, x, y):
    """An addend: any, at an end of the range, or in view of the product.

    To a product below the normal numbers often another such number, which it may cancel. Otherwise
    near the product or its negation, or some places away; or so far above the product that this is
    about half of the addend's last digit.
    """
    form, choices = operands.form, operands.choices
    draw = choices.random()
    if draw < 0.15 or not (is_nonzero_number(x) and is_nonzero_number(y)):
        return operands.any()
    negative = x.negative == y.negative
    if choices.random() < 0.2:
        negative = not negative
    amount, parts = x.quanta * y.quanta, 1 << form.scale
    is_small = amount < form.smallest_normalized * parts
    if is_small and choices.random() < 0.5:
        quanta = operands.steps_away(operands.choice([1, 1, form.smallest_normalized]), 3)
    elif draw < 0.5:
        quanta = operands.steps_away(operands.nearest(amount, parts), operands.choice([0, 0, 1, 2]))
    elif draw < 0.7:
        quanta = operands.steps_away(operands.nearest(amount << form.precision, parts), 2)
    elif draw < 0.85:
        quanta = operands.steps_away(operands.choice([1, form.smallest_normalized, form.largest]), 3)
    else:
        places = choices.randint(1, 2 * form.precision + 4)
        shift = operands.choice([(places, 0), (0, places)])
        quanta = operands.nearest(amount << shift[0], parts << shift[1])
    return number(form, negative, quanta)
