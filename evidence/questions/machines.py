"""What machines give, and comparisons of two formats."""

import re

from exact import operations, words
from exact.conversions import convert
from exact.data import NaN
from exact.formats import FORMATS
from exact.machines import MACHINES, RULES
from exact.values import VALUES
from questions.operands import Operands, random_bits
from questions.operations import near_an_integer, row, two

_FORMATS = ("half", "single", "single", "double", "double", "bfloat", "e5m2", "quad", "x87")
_COUNTS = {
    "add_r": 2,
    "sub_r": 2,
    "wide_mul_r": 2,
    "div_r": 2,
    "ieee_rem": 2,
    "c_fmod": 2,
    "wide_mul_add_r": 3,
    "sqrt_r": 1,
    "round_to_integral": 1,
    "round_to_integral_in": 1,
}
_WITHOUT_MODE = ("ieee_rem", "c_fmod")
# The machines that are drawn. Stored rows are drawn again, so later ones are a subject of their own. One in each has
# the registers of x87.
_MACHINES = ("x86", "x87", "arm", "arm_default_nan", "arm_alternate", "risc_v", "power", "s390x")
_LATER = ("arm_alternate_default_nan", "webassembly", "ptx", "mips_2008", "loongarch", "sparc", "m68k")
_WITHOUT_INTEGER_BIT = re.compile(r"\b(?![08]000)[0-9a-f]{4}[0-7][0-9a-f]{15}\b")
_BETWEEN = (
    ("half", "single"),
    ("single", "half"),
    ("bfloat", "half"),
    ("double", "x87"),
    ("x87", "quad"),
    ("quad", "double"),
    ("e4m3fn", "half"),
    ("half", "e4m3fnuz"),
)


def question(choices):
    """A call without its answer."""
    return choices.choice([*_DRAWN, *(between,) * 5])(choices, _MACHINES)


def later_question(choices):
    """The same on later machines; the 68881 reads patterns of x87 without the integer bit otherwise."""
    while True:
        drawn = choices.choice(_DRAWN)(choices, _LATER)
        if not _WITHOUT_INTEGER_BIT.search(drawn):
            return drawn


def unit_of(known):
    """The machine that has the registers of x87, and no fused sums."""
    return next(machine for machine in known if MACHINES[machine].order is None)


def others(known):
    """The machines that have fused sums."""
    return [machine for machine in known if MACHINES[machine].order is not None]


def machine_for(choices, name, known):
    """A machine, mostly the one of the format's registers."""
    if name == "x87" and choices.random() < 0.8:
        return unit_of(known)
    return choices.choice(others(known))


def operand(operands):
    """The word of a datum: a third are NaNs and other patterns with all bits of the exponent."""
    choices, form = operands.choices, operands.form
    if choices.random() < 0.33:
        top = form.greatest_field << form.precision - 1
        if form.writes_integer_bit:
            top = form.greatest_field << form.precision
        return f"{choices.getrandbits(form.bits) | top:0{form.hexadecimal_digits}x}"
    if choices.random() < 0.1:
        return random_bits(choices, form)
    return words.word_of(VALUES[form.name], operands.any())


def arithmetic(choices, known):
    """An operation in one format."""
    name = choices.choice(_FORMATS)
    machine = machine_for(choices, name, known)
    operands = Operands(choices, FORMATS[name])
    calls = [call for call in _COUNTS if machine != unit_of(known) or call != "wide_mul_add_r"]
    call = choices.choice(calls)
    drawn = " ".join(operand(operands) for _ in range(_COUNTS[call]))
    mode = "-" if call in _WITHOUT_MODE else operands.mode().value
    return row(call, f"{name}@{machine}", mode, drawn)


def invalid_product(choices, known):
    """An infinity times a zero, plus a NaN or any number."""
    name = choices.choice(_FORMATS[:-1])
    machine = choices.choice(others(known))
    operands = Operands(choices, FORMATS[name])
    kind = VALUES[name]
    factors = [words.word_of(kind, kind.infinity()), words.word_of(kind, kind.zero())]
    choices.shuffle(factors)
    drawn = " ".join([*factors, operand(operands)])
    return row("wide_mul_add_r", f"{name}@{machine}", operands.mode().value, drawn)


def flushed(choices, known):
    """A result near the smallest normalized number, flushed if it is tiny."""
    name = choices.choice(_FORMATS[:-1])
    machine = choices.choice([word for word in known if MACHINES[word].flushed is not None])
    # x86 does not flush half. Arm does, with FZ16, and with the flags of x86 if AH is set.
    if (name, machine) == ("half", "x86"):
        machine = "arm_alternate"
    operands = Operands(choices, FORMATS[name])
    form, kind = operands.form, VALUES[name]
    call = choices.choice(["add_r", "sub_r", "wide_mul_r", "div_r", "wide_mul_add_r"])
    near = operands.signed(operands.near(form.smallest_normalized, 2))
    one = operands.signed(operands.near(1 << form.scale, 2))
    data = [near, one, operands.signed(operands.near(1, 1))]
    if call in ("add_r", "sub_r"):
        data[1] = operands.signed(operands.near(form.smallest_normalized * choices.choice([1, 2]), 2))
    drawn = " ".join(words.word_of(kind, x) for x in data[: _COUNTS[call]])
    return row(call, f"{name}@{machine}+ftz", operands.mode().value, drawn)


def extremum(choices, known):
    """A minimum or a maximum by a rule."""
    name = choices.choice(_FORMATS)
    operands = Operands(choices, FORMATS[name])
    call = f"{choices.choice(['least', 'greatest'])}_{choices.choice(RULES)}"
    drawn = two(operands) if choices.random() < 0.5 else f"{operand(operands)} {operand(operands)}"
    return row(call, f"{name}@{machine_for(choices, name, known)}", "-", drawn)


def to_integer(choices, known):
    """A conversion to an integer, often out of range."""
    name = choices.choice(_FORMATS)
    machine = machine_for(choices, name, known)
    operands = Operands(choices, FORMATS[name])
    form = operands.form
    width = choices.choice([8, 16, 32, 32, 64, 64])
    x = near_an_integer(operands)
    if choices.random() < 0.5:
        end = (1 << width - choices.choice([0, 1])) << form.scale
        x = operands.signed(operands.near(min(end, form.largest), 1))
    call = "to_i128_r" if MACHINES[machine].unsigned_of_nan is None else choices.choice(["to_i128_r", "to_u128_r"])
    word = operand(operands) if choices.random() < 0.3 else words.word_of(VALUES[name], x)
    return row(call, f"{name}@{machine}", operands.mode().value, f"{word} {width}")


def conversion(choices, known):
    """A conversion between formats, often of a NaN."""
    source = choices.choice((*_FORMATS, "e4m3fn", "e4m3fnuz"))
    target = choices.choice(_FORMATS)
    machine = unit_of(known) if "x87" in (source, target) else machine_for(choices, target, known)
    # x86 converts single to bfloat without modes and flags.
    if (source, target, machine) == ("single", "bfloat", "x86"):
        machine = "arm"
    operands = Operands(choices, FORMATS[source])
    formats = f"{source}>{target}@{machine}"
    return row("convert_r", formats, operands.mode().value, operand(operands))


def between(choices, _):
    """A comparison of values of two formats, often of the same value or of neighbours."""
    source, target = choices.choice(_BETWEEN)
    left, right = Operands(choices, FORMATS[source]), Operands(choices, FORMATS[target])
    call = choices.choice([*operations.COMPARISONS, *operations.UNNAMED])
    x = VALUES[source].decoded(int(operand(left), 16))
    y = VALUES[target].decoded(int(operand(right), 16))
    if not isinstance(x, NaN) and choices.random() < 0.6:
        y, _, _ = convert(FORMATS[source], FORMATS[target], x, right.mode())
    drawn = [words.word_of(VALUES[name], datum) for name, datum in ((source, x), (target, y))]
    return row(call, f"{source}>{target}", "-", " ".join(drawn))


_DRAWN = (
    *(arithmetic,) * 6,
    *(invalid_product,) * 2,
    *(flushed,) * 4,
    *(extremum,) * 4,
    *(to_integer,) * 4,
    *(conversion,) * 3,
)
