"""Augmented operations, and payloads of NaNs."""

from exact import augmented, words
from exact.data import number
from exact.formats import FORMATS, LATER_FORMATS, PROGRAM_FORMATS
from exact.values import VALUES
from questions.operands import Operands
from questions.operations import row, two, word_of

_AUGMENTED = ("half+ieee", "single+ieee", "double+ieee")
_FORMATS = [form.name for form in (*PROGRAM_FORMATS, *LATER_FORMATS)]


def question(choices):
    """A call without its answer."""
    if choices.random() < 0.3:
        return payload(choices)
    operands = Operands(choices, FORMATS[choices.choice(_AUGMENTED)])
    call = choices.choice(augmented.CALLS)
    drawn = two(operands) if choices.random() < 0.3 else pair(operands, call)
    return row(call, operands.form.name, "-", drawn)


def pair(operands, call):
    """Two numbers whose digits overlap in part, or whose product is near the smallest values."""
    form, choices = operands.form, operands.choices
    x = operands.signed(operands.significand(form.precision) << choices.randint(0, operands.span - 1))
    x = number(form, x.negative, min(x.quanta, form.largest))
    if call == "augmented_multiply":
        power = form.scale - x.quanta.bit_length() - form.precision + choices.randint(-4, 2 * form.precision + 3)
    else:
        power = x.quanta.bit_length() - form.precision - choices.randint(0, form.precision + 2)
    y = operands.signed(min(operands.significand(form.precision) << max(0, power), form.largest))
    return " ".join(words.word_of(VALUES[form.name], z) for z in (x, y))


def payload(choices):
    """An operation on the payload of a NaN."""
    operands = Operands(choices, FORMATS[choices.choice(_FORMATS)])
    form = operands.form
    call = choices.choice(augmented.PAYLOADS)
    if call == "get_payload":
        top = form.greatest_field << form.precision - 1 + form.writes_integer_bit
        word = f"{choices.getrandbits(form.bits) | top:0{form.hexadecimal_digits}x}"
        return row(call, form.name, "-", choices.choice([word, word, word_of(operands, operands.any())]))
    integer = choices.getrandbits(choices.randint(1, augmented.payload_bits(form) + 2))
    place = max(0, integer.bit_length() - form.precision)
    x = number(form, choices.random() < 0.1, min(integer >> place << place + form.scale, form.largest))
    return row(call, form.name, "-", word_of(operands, x))
