"""Operations of IEEE 754-2019 that the trait `Float` lacks, in every format that rows name."""

from exact import operations, status, words
from exact.data import is_nonzero_number, negated, number
from exact.format_of import OPERATIONS
from exact.formats import FORMATS, PROGRAM_FORMATS
from exact.values import VALUES
from questions.operands import Operands, random_bits

_PROGRAM = [form.name for form in PROGRAM_FORMATS]
_IEEE = ("half", "single", "double", "quad", "bfloat", "e5m2", "x87")
_RULES = [name + rule for name in _IEEE for rule in ("+ieee", "+ieee+before")]
_OWN = ("fallback", "lim3", "lim3nan", "lim125", "seven", "expl14", "nan10", "halftbr")


def question(choices):
    """A call without its answer."""
    return choices.choice(_DRAWN)(choices)


def row(call, formats, mode, words_of_operands, more="-"):
    """A question."""
    return f"{call}\t{formats}\t{mode}\t{words_of_operands}\t\t\t{more}"


def operands_in(choices, names):
    """The operands of one of these formats."""
    return Operands(choices, FORMATS[choices.choice(names)])


def word_of(operands, x):
    """A datum as rows write it; sometimes any bits, in a format that has bits."""
    if operands.form.bits and operands.choices.random() < 0.15:
        return random_bits(operands.choices, operands.form)
    return words.word_of(VALUES[operands.form.name], x)


def two(operands):
    """Two data: any two, the same one, opposite ones, or neighbours."""
    x = operands.any()
    near = operands.choice(["any", "any", "same", "opposite", "near"])
    if near == "any" or near == "near" and not is_nonzero_number(x):
        y = operands.any()
    elif near == "near":
        y = number(operands.form, x.negative, operands.steps_away(x.quanta, 1))
    else:
        y = x if near == "same" else negated(operands.form, x)
    return f"{word_of(operands, x)} {word_of(operands, y)}"


def names_of_formats(choices):
    """Formats without the flags of IEEE 754, mostly."""
    return choices.choice([_PROGRAM, _PROGRAM, _RULES, _OWN])


def comparison(choices):
    """A comparison predicate."""
    operands = operands_in(choices, names_of_formats(choices))
    call = choices.choice(list(operations.COMPARISONS))
    return row(call, operands.form.name, "-", two(operands))


def extremum(choices):
    """A minimum or a maximum."""
    operands = operands_in(choices, names_of_formats(choices))
    call = choices.choice(list(operations.EXTREMA))
    return row(call, operands.form.name, "-", two(operands))


def total_order(choices):
    """A call in the total order, often of two NaNs."""
    operands = operands_in(choices, _PROGRAM)
    call = choices.choice(["total_order", "total_order_mag", "total_cmp"])
    pair = two(operands)
    if choices.random() < 0.4:
        top = operands.form.greatest_field << operands.form.precision - 1
        pair = " ".join(f"{choices.getrandbits(operands.form.bits) | top:x}" for _ in range(2))
    return row(call, operands.form.name, "-", pair)


def in_another(choices):
    """An operation whose result is of another format."""
    source = operands_in(choices, _PROGRAM)
    target = operands_in(choices, choices.choice([_PROGRAM, _PROGRAM, _RULES, _OWN]))
    call = choices.choice(list(OPERATIONS))
    count = {"sqrt_to": 1, "mul_add_to": 3}.get(call, 2)
    drawn = " ".join(word_of(source, in_reach(source, target)) for _ in range(count))
    return row(call, f"{source.form.name}>{target.form.name}", target.mode().value, drawn)


def in_reach(source, target):
    """A datum of the source, near the numbers and midpoints of the target if that has fewer digits."""
    if source.choices.random() < 0.3:
        return source.any()
    middle = target.choice([target.form.scale, target.form.scale, None])
    place = target.choices.randint(0, target.span) if middle is None else middle
    digits = min(target.form.precision + 1, source.form.precision)
    significand = source.significand(digits)
    power = place - target.form.scale + source.form.scale - digits + source.choice([0, 0, -1, 1])
    quanta = significand << power if power >= 0 else significand >> -power
    return source.signed(source.near(max(1, min(quanta, source.form.largest)), 1))


def exponent(choices):
    """logB, as a value or an integer."""
    operands = operands_in(choices, names_of_formats(choices))
    call = choices.choice(["log_b", "integer_log_b"])
    mode = operands.mode().value if call == "log_b" else "-"
    return row(call, operands.form.name, mode, word_of(operands, operands.any()))


def scaling(choices):
    """scaleB, often to the ends of the range."""
    operands = operands_in(choices, names_of_formats(choices))
    form = operands.form
    x = operands.any()
    power = choices.randint(-2 * form.precision, 2 * form.precision)
    if is_nonzero_number(x):
        to_end = choices.choice([0, operands.span + form.precision]) - x.quanta.bit_length()
        power = choices.choice([power, power + to_end])
    return row("scale_b", form.name, operands.mode().value, f"{word_of(operands, x)} {power}")


def integral(choices):
    """Rounding to an integral value without INEXACT."""
    operands = operands_in(choices, names_of_formats(choices))
    x = near_an_integer(operands)
    return row("round_to_integral_in", operands.form.name, operands.mode().value, word_of(operands, x))


def near_an_integer(operands):
    """A number near the integers and halves, mostly."""
    if operands.choices.random() < 0.3:
        return operands.any()
    significand = operands.significand(operands.choices.randint(1, operands.form.precision))
    return operands.signed(operands.near_one(significand))


def to_integer(choices):
    """A conversion to an integer, often near the ends of its range."""
    operands = operands_in(choices, names_of_formats(choices))
    call = choices.choice(["convert_to_signed", "convert_to_unsigned"])
    call += choices.choice(["", "_exact"])
    width = choices.choice([8, 16, 32, 64, 128, choices.randint(2, 128)])
    x = near_an_integer(operands)
    if choices.random() < 0.4:
        end = (1 << width - choices.choice([0, 1])) << operands.form.scale
        x = operands.signed(operands.near(end, 1))
    return row(call, operands.form.name, operands.mode().value, f"{word_of(operands, x)} {width}")


def about_one(choices):
    """A question about one value."""
    call = choices.choice(["class_of", "class_of", "radix", "is_canonical", "is_canonical_encoding"])
    names = _PROGRAM if call == "is_canonical_encoding" else names_of_formats(choices)
    operands = operands_in(choices, names)
    return row(call, operands.form.name, "-", word_of(operands, operands.any()))


def digits(choices):
    """Decimal digits, as many as the value has, or less, or more."""
    operands = operands_in(choices, _PROGRAM)
    x = operands.any() if choices.random() < 0.2 else near_an_integer(operands)
    form = operands.form
    if choices.random() < 0.2:
        return row("digit_count", form.name, "-", word_of(operands, x))
    count = choices.choice([choices.randint(1, 20), choices.randint(1, 128)])
    if is_nonzero_number(x) and choices.random() < 0.5:
        whole = operations.digit_count(form, x)
        count = max(1, min(128, whole + choices.randint(-2, 1)))
    # A word of other bits may be no number, and then has no exponent to be stated.
    return row("write_digits", form.name, operands.mode().value, f"{words.word_of(VALUES[form.name], x)} {count}", more="exponent=" if is_nonzero_number(x) else "-")


def on_flags(choices):
    """An operation on flags."""
    call = choices.choice(list(operations.ON_FLAGS))
    count = {"save_all_flags": 1, "restore_flags": 3}.get(call, 2)
    drawn = " ".join(status.names(choices.getrandbits(5)) for _ in range(count))
    return row(call, "-", "-", drawn)


_DRAWN = (
    *(in_another,) * 12,
    *(comparison,) * 5,
    *(extremum,) * 4,
    *(total_order,) * 2,
    *(to_integer,) * 3,
    *(scaling, exponent, integral, digits) * 2,
    about_one,
    on_flags,
)
