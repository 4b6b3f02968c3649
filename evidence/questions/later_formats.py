"""Calls in the built-in formats that commands do not have, and conversions from and to them."""

from exact import conversions, data, operations, words
from exact.bits import decoded
from exact.data import Finite, is_nonzero_number
from exact.decimals import spelled
from exact.formats import FORMATS, HALF, LATER_FORMATS, PROGRAM_FORMATS, SINGLE
from exact.neighbours import spacing
from exact.rounding import Mode
from exact.values import VALUES
from questions.mixed import text
from questions.operands import Operands
from questions.operations import near_an_integer, row, two, word_of

_NAMES = [form.name for form in LATER_FORMATS]
_ALL = [form.name for form in (*PROGRAM_FORMATS, *LATER_FORMATS)]

_OF_TWO = ["add_r", "sub_r", "mul_r", "wide_mul_r", "div_r"]
_OF_THREE = ["mul_add_r", "wide_mul_add_r"]
_REMAINDERS = ["ieee_rem", "c_fmod"]
_VALUES_OF_TWO = ["copy_sign", "min", "max", "minimum", "maximum", "partial_cmp", "eq", "bitwise_eq"]
_VALUES_OF_ONE = ["neg", "abs", "to_bits", "category", "debug"]
_TESTS = ["is_nan", "is_signaling", "is_infinite", "is_normal", "is_denormal", "is_negative", "is_integer", "is_largest"]
_CONSTANTS = [
    "BITS", "PRECISION", "MIN_EXP", "MAX_EXP", "MULTIPLIES", "zero", "infinity", "nan", "largest", "smallest",
    "smallest_normalized",
]


def question(choices):
    """A call without its answer."""
    return choices.choice(_DRAWN)(choices, Operands(choices, FORMATS[choices.choice(_NAMES)]))


def asked(operands, call, drawn, mode=None, more="-"):
    """The question of a call in the format of the operands, in a mode drawn unless one is given."""
    return row(call, operands.form.name, mode or operands.mode().value, drawn, more)


def words_of(operands, count):
    """So many values."""
    return " ".join(word_of(operands, operands.any()) for _ in range(count))


def of_two(choices, operands):
    """An operation on two values."""
    return asked(operands, choices.choice(_OF_TWO), two(operands))


def fused(choices, operands):
    """A fused sum, often of an addend that cancels most of the product."""
    x, y, z = (operands.any() for _ in range(3))
    if is_nonzero_number(x) and is_nonzero_number(y) and operands.sign():
        scale = 1 << operands.form.scale
        z = data.number(operands.form, x.negative == y.negative, operands.near(x.quanta * y.quanta, scale))
    return asked(operands, choices.choice(_OF_THREE), " ".join(word_of(operands, each) for each in (x, y, z)))


def root(choices, operands):
    """A square root."""
    return asked(operands, "sqrt_r", words_of(operands, 1))


def remainder(choices, operands):
    """A remainder."""
    return asked(operands, choices.choice(_REMAINDERS), two(operands), "-")


def of_one(choices, operands):
    """A call on one value, and a question about it."""
    call = choices.choice([*_VALUES_OF_ONE, *_TESTS, "next_up", "next_down", "ilogb", "class_of", "integer_log_b"])
    return asked(operands, call, words_of(operands, 1), "-")


def of_two_without_mode(choices, operands):
    """A value or an answer of two values."""
    call = choices.choice([*_VALUES_OF_TWO, *operations.COMPARISONS, *operations.EXTREMA, "total_order"])
    return asked(operands, call, two(operands), "-")


def integral(choices, operands):
    """A value rounded to an integral value, or converted to an integer."""
    call = choices.choice(["round_to_integral", "round_to_integral_in", "to_u128_r", "to_i128_r", "convert_to_signed"])
    word = words.word_of(VALUES[operands.form.name], near_an_integer(operands))
    if call.startswith("round"):
        return asked(operands, call, word)
    more = "is_exact=" if call.endswith("_r") else "-"
    return asked(operands, call, f"{word} {choices.choice([6, 8, 16, 32, choices.randint(2, 128)])}", more=more)


def integer(choices, operands):
    """The value of an integer."""
    number = choices.getrandbits(choices.randint(1, operands.form.greatest_exponent + 3))
    if choices.random() < 0.5:
        return asked(operands, "from_u128_r", str(number % (1 << 128)))
    return asked(operands, "from_i128_r", str(choices.choice([-1, 1]) * (number % (1 << 127))))


def scaling(choices, operands):
    """A value times a power of two, its logarithm, or its fraction."""
    call = choices.choice(["scalbn_r", "scalbn_r", "scale_b", "log_b", "frexp_r"])
    word = words_of(operands, 1)
    if call == "frexp_r":
        x = operands.any()
        word = words.word_of(VALUES[operands.form.name], x)
        return asked(operands, call, word, more="exponent=")
    if call == "log_b":
        return asked(operands, call, word)
    return asked(operands, call, f"{word} {choices.randint(-2 * operands.span, 2 * operands.span)}")


def constant(choices, operands):
    """A constant or a NaN."""
    call = choices.choice([*_CONSTANTS, "qnan", "snan"])
    if call in _CONSTANTS:
        return asked(operands, call, "-", "-")
    return asked(operands, call, f"{choices.getrandbits(choices.randint(1, 20)):x}", "-")


def literal(choices, operands):
    """A hexadecimal text."""
    return asked(operands, "from_str_r", text(choices, VALUES[operands.form.name]))


def decimal(choices, operands):
    """A decimal: of a value or a midpoint, or one near it, that is read; or one that is written."""
    form = operands.form
    call = choices.choice(["read_decimal", "read_decimal", "shortest", "exact", "rounded", "write_digits", "digit_count"])
    if call == "read_decimal":
        quanta = operands.magnitude()
        halves = 2 * quanta + choices.choice([0, 1, 1]) * spacing(form, quanta)
        digits = 10 * halves * 5 ** (form.scale + 1) + choices.choice([0, 0, -1, 1])
        sign = choices.choice(["", "-"])
        return asked(operands, call, f"{sign}{spelled(digits, -form.scale - 2)}")
    x = operands.any()
    word = words.word_of(VALUES[form.name], x)
    if call in ("shortest", "exact", "digit_count"):
        return asked(operands, call, word, "-")
    if call == "rounded":
        more = "is_exact=" if isinstance(x, Finite) else "-"
        return asked(operands, call, f"{word} {choices.randint(1, 12)}", more=more)
    more = "exponent=" if is_nonzero_number(x) else "-"
    return asked(operands, call, f"{word} {choices.randint(1, 20)}", more=more)


def conversion(choices, operands):
    """A conversion from the format to any other, or from any other to a value or a midpoint of the format."""
    other = FORMATS[choices.choice(_ALL)]
    mode = operands.mode().value
    if choices.random() < 0.4:
        return row("convert_r", f"{operands.form.name}>{other.name}", mode, words_of(operands, 1), "loses_info=")
    source = Operands(choices, other)
    x = source.any()
    if choices.random() < 0.8:
        quanta = operands.magnitude()
        halves = 2 * quanta + choices.choice([0, 1]) * spacing(operands.form, quanta)
        x = source.signed(source.near(halves << other.scale, 1 << operands.form.scale + 1))
    return row("convert_r", f"{other.name}>{operands.form.name}", mode, word_of(source, x), "loses_info=")


_DRAWN = (
    *(of_two,) * 6,
    *(fused,) * 4,
    *(conversion,) * 6,
    *(of_two_without_mode,) * 3,
    *(of_one, integral, integer, scaling, decimal) * 2,
    root,
    remainder,
    constant,
    literal,
)


def eight_bit_conversions(choices):
    """All values of the formats of eight bits to `half` and `single`, and back; and the midpoints between them from
    `half` in each mode, with the neighbours of these in one mode."""
    for form in LATER_FORMATS:
        if form.bits == 8:
            yield from _there_and_back(form)
            yield from _midpoints(choices, form)


def _there_and_back(form):
    """All values in wider formats, and back."""
    for wide in (HALF, SINGLE):
        for bits in range(256):
            yield row("convert_r", f"{form.name}>{wide.name}", "any", f"{bits:02x}", "loses_info=")
        for bits in range(256):
            x = conversions.convert(form, wide, decoded(form, bits), Mode.EVEN)[0]
            yield row("convert_r", f"{wide.name}>{form.name}", "any", words.word_of(VALUES[wide.name], x), "loses_info=")


def _midpoints(choices, form):
    """The midpoints of both signs, that above the largest value among them, in each mode; and those next to them."""
    quanta = 0
    kind, unit = VALUES[HALF.name], HALF.scale - form.scale - 1
    formats = f"{HALF.name}>{form.name}"
    while quanta <= form.largest:
        middle = 2 * quanta + spacing(form, quanta) << unit
        for negative in (False, True):
            word = words.word_of(kind, data.number(HALF, negative, middle))
            for mode in Mode:
                yield row("convert_r", formats, mode.value, word, "loses_info=")
        for near in (middle - spacing(HALF, middle - 1), middle + spacing(HALF, middle)):
            word = words.word_of(kind, data.number(HALF, choices.random() < 0.5, near))
            yield row("convert_r", formats, choices.choice(list(Mode)).value, word, "loses_info=")
        quanta += spacing(form, quanta)
