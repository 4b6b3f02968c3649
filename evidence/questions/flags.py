"""Results at the ends of the normal numbers, in formats with the flags of IEEE 754."""

from exact import words
from exact.data import number
from exact.formats import FORMATS
from exact.values import VALUES
from questions.operands import Operands

_FORMATS = ("half", "single", "double", "quad", "x87")
_WAYS = ("+ieee", "+ieee+before")


def question(choices):
    """A call in one of the formats with these flags, without its answer."""
    name = choices.choice(_FORMATS) + choices.choice(_WAYS)
    operands = Operands(choices, FORMATS[name])
    return choices.choice(_DRAWN)(operands)


def row(operands, call, data):
    """The question of a call on data of the format."""
    kind = VALUES[operands.form.name]
    return asked(operands, call, kind.name, " ".join(words.word_of(kind, x) for x in data))


def asked(operands, call, kinds, word, more="-"):
    """The question of a call on what a word says."""
    return f"{call}\t{kinds}\t{operands.mode().value}\t{word}\t\t\t{more}"


def result(operands):
    """The magnitude that is to be the exact result, or nearly so, and its sign."""
    return *operands.end(), operands.sign()


def factor(operands):
    """The quanta of a number near 1, mostly, so that the other operand is in the range."""
    if operands.choices.random() < 0.2:
        return operands.magnitude()
    return operands.near_one(operands.significand(operands.form.precision))


def sum_or_difference(operands):
    """A sum or a difference near the largest number. Below the normal numbers all are exact."""
    form = operands.form
    amount, parts = operands.about_the_largest()
    negative = operands.sign()
    place = operands.span - operands.choices.randint(0, 2)
    x = operands.scaled(operands.significand(form.precision), place)
    rest = amount - x * parts
    y = operands.near(abs(rest), parts)
    call = operands.choice(["add_r", "sub_r"])
    y_negative = (negative != (rest < 0)) != (call == "sub_r")
    return row(operands, call, [number(form, negative, x), number(form, y_negative, y)])


def product(operands):
    """A product."""
    form = operands.form
    amount, parts, negative = result(operands)
    x = factor(operands)
    y = operands.near(amount << form.scale, parts * x)
    call = "mul_r" if form.precision <= 64 else "wide_mul_r"
    factors = [operands.signed(x)]
    factors.append(number(form, negative != factors[0].negative, y))
    return row(operands, call, factors)


def quotient(operands):
    """A quotient."""
    form = operands.form
    amount, parts, negative = result(operands)
    y = operands.signed(factor(operands))
    x = operands.near(amount * y.quanta, parts << form.scale)
    return row(operands, "div_r", [number(form, negative != y.negative, x), y])


def fused_sum(operands):
    """A fused sum: the addend alone is near the result, or the product is."""
    form = operands.form
    amount, parts, negative = result(operands)
    x = operands.signed(factor(operands))
    z = operands.near(amount, parts)
    if operands.choice([True, False]):
        z = operands.near(amount, 2 * parts)
    z_negative = negative != (operands.choices.random() < 0.2)
    rest = (-amount if negative else amount) - (-z if z_negative else z) * parts
    y = operands.near(abs(rest) << form.scale, parts * x.quanta)
    data = [x, number(form, x.negative != (rest < 0), y), number(form, z_negative, z)]
    return row(operands, "mul_add_r" if form.precision <= 63 else "wide_mul_add_r", data)


def conversion(operands):
    """A conversion from a format with more digits, if there is one."""
    form = operands.form
    source = {"half": "single", "single": "double", "double": "x87", "x87": "quad"}.get(
        form.name.split("+")[0]
    )
    if source is None:
        return text(operands)
    amount, parts, negative = result(operands)
    there = Operands(operands.choices, FORMATS[source])
    longer = there.form.scale - form.scale
    quanta = there.nearest(amount << max(longer, 0), parts << max(-longer, 0))
    word = words.word_of(VALUES[source], number(there.form, negative, quanta))
    return asked(operands, "convert_r", f"{source}>{form.name}", word, "loses_info=")


def text(operands):
    """A hexadecimal literal."""
    amount, parts, negative = result(operands)
    exponent = 1 - parts.bit_length() - operands.form.scale
    zeros = words.trailing_zeros(amount)
    amount, exponent = amount >> zeros, exponent + zeros
    sign = "-" if negative else ""
    return asked(operands, "from_str_r", operands.form.name, f"{sign}0x{amount:x}p{exponent}")


def integer(operands):
    """An integer, past the largest number where the format has one below 2^128."""
    form = operands.form
    largest = form.largest >> form.scale
    drawn = operands.choices.getrandbits(128)
    if largest >> 128 == 0:
        rest = operands.choices.randint(-largest >> 9, largest >> 9)
        drawn = min(largest + rest, (1 << 128) - 1)
    return asked(operands, "from_u128_r", form.name, str(drawn))


_DRAWN = (
    *(sum_or_difference, product, quotient, fused_sum) * 4,
    conversion,
    text,
    text,
    integer,
)
