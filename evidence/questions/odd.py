"""Results rounded to odd, and results of an x87 with fewer digits."""

from exact import words
from exact.formats import FORMATS
from exact.odd import ARITHMETIC
from exact.values import VALUES
from questions.operands import Operands
from questions.operations import in_reach, near_an_integer, row, word_of

# The formats with a negative zero.
_FORMATS = ("half", "single", "double", "quad", "bfloat", "e5m2", "e4m3fn", "x87", "half+ieee", "single+ieee+before")
_COUNTS = {"sqrt_odd": 1, "mul_add_odd": 3, "sqrt_to": 1, "mul_add_to": 3}
_FEWER = [f"x87p{digits}{rule}" for digits in (24, 53) for rule in ("+ieee", "+ieee+before")]


def question(choices):
    """A call without its answer."""
    return choices.choice(_DRAWN)(choices)


def arithmetic(choices):
    """An operation in one format, or from one to another."""
    source = Operands(choices, FORMATS[choices.choice(_FORMATS[:8])])
    target = Operands(choices, FORMATS[choices.choice(_FORMATS)])
    call = choices.choice(list(ARITHMETIC))
    count = _COUNTS.get(call, 2)
    if choices.random() < 0.5:
        drawn = " ".join(word_of(target, target.any()) for _ in range(count))
        return row(call, target.form.name, "-", drawn)
    drawn = " ".join(word_of(source, in_reach(source, target)) for _ in range(count))
    return row(call, f"{source.form.name}>{target.form.name}", "-", drawn)


def fewer_digits(choices):
    """An operation of an x87 whose result has 24 or 53 digits."""
    source = Operands(choices, FORMATS["x87"])
    target = choices.choice(_FEWER)
    if choices.random() < 0.3:
        call, mode = choices.choice(list(ARITHMETIC)), "-"
    else:
        call = choices.choice(["add_to", "sub_to", "mul_to", "div_to", "sqrt_to", "mul_add_to"])
        mode = source.mode().value
    drawn = " ".join(words.word_of(VALUES["x87"], source.any()) for _ in range(_COUNTS.get(call, 2)))
    return row(call, f"x87>{target}", mode, drawn)


def conversion(choices):
    """A value of another format."""
    source = Operands(choices, FORMATS[choices.choice(_FORMATS[:8])])
    target = Operands(choices, FORMATS[choices.choice(_FORMATS)])
    drawn = word_of(source, in_reach(source, target))
    return row("convert_odd", f"{source.form.name}>{target.form.name}", "-", drawn)


def integer(choices):
    """A conversion from or to an integer, or an integral value."""
    operands = Operands(choices, FORMATS[choices.choice(_FORMATS)])
    call = choices.choice(["round_to_odd_integral", "from_u128_odd", "from_i128_odd", "to_u128_odd", "to_i128_odd"])
    if call.startswith("from"):
        number = choices.getrandbits(choices.choice([8, 16, 32, 64, 127]))
        if call == "from_i128_odd" and choices.random() < 0.5:
            number = -number
        return row(call, operands.form.name, "-", str(number))
    drawn = word_of(operands, near_an_integer(operands))
    if call.startswith("to"):
        drawn += f" {choices.choice([8, 16, 32, 64, 128])}"
    return row(call, operands.form.name, "-", drawn)


_DRAWN = (*(arithmetic,) * 5, *(fewer_digits,) * 3, conversion, *(integer,) * 3)
