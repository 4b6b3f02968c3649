"""Decimal texts to be read, many of them nearly halfway, and numbers to be written."""

from exact import words
from exact.data import number
from exact.formats import FORMATS
from exact.neighbours import spacing
from exact.values import VALUES
from questions.operands import Operands

_FORMATS = ("half", "single", "double", "quad", "x87", "bfloat", "e5m2", "e4m3fn", "e4m3fnuz")

# Formats with more exponents would need texts of thousands of digits.
_LARGEST_SPAN = 3000


def question(choices):
    """A decimal to be read, or a number to be written, without the answer."""
    name = choices.choice(_FORMATS)
    operands = Operands(choices, FORMATS[name])
    if choices.random() < 0.3:
        word = words.word_of(VALUES[name], operands.signed(magnitude(operands)))
        return f"shortest_decimal\t{name}\t-\t{word}\t\t\t-"
    return f"from_decimal_r\t{name}\t{operands.mode().value}\t{text(operands)}\t\t\t-"


def magnitude(operands):
    """The quanta of a number, near 1 in a format of many exponents."""
    if operands.span < _LARGEST_SPAN:
        return operands.magnitude()
    return operands.near_one(operands.significand(operands.form.precision))


def text(operands):
    """A literal: any, with a far exponent, or near a number, a midpoint or an end of the range."""
    form, choices = operands.form, operands.choices
    draw = choices.random()
    if draw < 0.25:
        digits = choices.getrandbits(choices.randint(1, 130))
        reach = (form.greatest_exponent - form.least_exponent) * 3 // 10
        return written(operands, digits, choices.randint(-reach, reach))
    if draw < 0.3:
        return written(operands, choices.randint(0, 9), choices.choice([-1, 1]) * 10**12)
    if draw < 0.32:
        return stretched(operands)
    amount, halvings = near_midpoint(operands)
    # The decimal of amount / 2^halvings ends as many places after the point.
    digits, exponent = (amount * 5**halvings, -halvings) if halvings > 0 else (amount, 0)
    return written(operands, *changed(operands, digits, exponent))


def stretched(operands):
    """A small integer with many zeros, and the exponent that makes up for them."""
    zeros = "0" * operands.choices.randint(100, 7000)
    digits = operands.choices.randint(1, 9999)
    if operands.sign():
        return f"{digits}{zeros}e-{len(zeros)}"
    return f"0.{zeros}{digits}e{len(zeros) + len(str(digits))}"


def near_midpoint(operands):
    """A magnitude as an integer and how often it has to be halved."""
    form, choices = operands.form, operands.choices
    if form.greatest_exponent < _LARGEST_SPAN and choices.random() < 0.3:
        amount, _ = operands.end()
        halvings = form.scale + 4
    else:
        quanta = magnitude(operands)
        amount = 2 * quanta + choices.choice([0, 1, 1]) * spacing(form, quanta)
        halvings = form.scale + 1
    zeros = min(words.trailing_zeros(amount), halvings)
    return amount >> zeros, halvings - zeros


def changed(operands, digits, exponent):
    """A decimal unchanged, cut after some digits, or changed by one unit of a lower place."""
    choices = operands.choices
    draw = choices.random()
    if draw < 0.4:
        return digits, exponent
    if draw < 0.7:
        length = len(str(digits))
        cut = length - min(length, choices.randint(1, 40))
        return digits // 10**cut + choices.randint(0, 1), exponent + cut
    places = choices.choice([1, 5, 50])
    return digits * 10**places + choices.choice([-1, 1]), exponent - places


def written(operands, digits, exponent):
    """A literal of a decimal, with the point at any place."""
    choices = operands.choices
    sign = choices.choice(["", "", "-", "+"])
    spelled = str(digits)
    if abs(exponent) < 60 and exponent <= 0 and choices.random() < 0.5:
        spelled = spelled.zfill(1 - exponent)
        whole = len(spelled) + exponent
        return f"{sign}{spelled[:whole]}.{spelled[whole:]}"
    if choices.random() < 0.5:
        point = choices.randint(0, len(spelled))
        exponent += len(spelled) - point
        spelled = f"{spelled[:point]}.{spelled[point:]}"
    return f"{sign}{spelled}{choices.choice('eE')}{exponent}"
