"""Calls of the library by name, as rows write them.

A row has seven columns: the call, the format or both formats of a conversion, the mode, the
operands, the value, the flags, and what else the call returns. The first four are the question.
"""

from typing import NamedTuple

from exact import (
    augmented,
    conversions,
    data,
    decimals,
    format_of,
    hex_texts,
    integers,
    machines,
    odd,
    operations,
    remainders,
    status,
    stored,
    words,
)
from exact.data import Finite
from exact.formats import FEWER_DIGITS
from exact.pairs import PAIRS, joined, split
from exact.rounding import Mode
from exact.texts import ParseError
from exact.values import VALUES

_KINDS = VALUES | {PAIRS.name: PAIRS}

_ORDER = {-1: "Less", 0: "Equal", 1: "Greater", None: "None"}

# Calls on values with a mode; without the ending `_r` the mode is to nearest, ties to even.
_ROUNDED = {
    "add_r": lambda kind, mode, x, y: kind.add(x, y, mode),
    "sub_r": lambda kind, mode, x, y: kind.subtract(x, y, mode),
    "mul_r": lambda kind, mode, x, y: kind.multiply(x, y, mode),
    "div_r": lambda kind, mode, x, y: kind.divide(x, y, mode),
    "mul_add_r": lambda kind, mode, x, y, z: kind.multiply_add(x, y, z, mode),
    "wide_mul_r": lambda kind, mode, x, y: kind.multiply(x, y, mode),
    "wide_mul_add_r": lambda kind, mode, x, y, z: kind.multiply_add(x, y, z, mode),
    "sqrt_r": lambda kind, mode, x: kind.square_root(x, mode),
    "round_to_integral": lambda kind, mode, x: kind.round_to_integral(x, mode),
    "ieee_rem": lambda kind, mode, x, y: kind.nearest_remainder(x, y),
    "c_fmod": lambda kind, mode, x, y: kind.truncated_remainder(x, y),
    "next_up": lambda kind, mode, x: kind.next_up(x),
    "next_down": lambda kind, mode, x: kind.next_down(x),
}

_OPERATORS = {"+": "add_r", "-": "sub_r", "*": "mul_r", "/": "div_r", "%": "c_fmod"}

# Calls that return a value without flags.
_VALUES = {
    "neg": lambda kind, x: kind.negated(x),
    "abs": lambda kind, x: kind.absolute(x),
    "copy_sign": lambda kind, x, y: kind.copy_sign(x, y),
    "min": lambda kind, x, y: kind.minimum_number(x, y),
    "max": lambda kind, x, y: kind.maximum_number(x, y),
    "minimum": lambda kind, x, y: kind.minimum(x, y),
    "maximum": lambda kind, x, y: kind.maximum(x, y),
    "to_bits": lambda kind, x: x,
}

# Questions about values, with the text of the answer.
_TEXTS = {
    "category": lambda kind, x: kind.category(x),
    "debug": lambda kind, x: kind.shown(x),
    "ilogb": lambda kind, x: str(kind.logarithm(x)),
    "partial_cmp": lambda kind, x, y: _ORDER[kind.compared(x, y)],
    "cmp_abs_normal": lambda kind, x, y: _ORDER[kind.compared_magnitudes(x, y)],
}

# Questions that are answered by yes or no.
_TESTS = {
    "eq": lambda kind, x, y: kind.equal(x, y),
    "bitwise_eq": lambda kind, x, y: kind.same(x, y),
    "is_negative": lambda kind, x: kind.is_negative(x),
    "is_denormal": lambda kind, x: kind.is_denormal(x),
    "is_signaling": lambda kind, x: kind.is_signaling(x),
    "is_integer": lambda kind, x: kind.is_integer(x),
    "is_normal": lambda kind, x: kind.is_normal(x),
    "is_smallest": lambda kind, x: kind.is_smallest(x),
    "is_smallest_normalized": lambda kind, x: kind.is_smallest_normalized(x),
    "is_largest": lambda kind, x: kind.is_largest(x),
    "is_nan": lambda kind, x: kind.category(x) == "NaN",
    "is_infinite": lambda kind, x: kind.category(x) == "Infinity",
    "is_zero": lambda kind, x: kind.category(x) == "Zero",
    "is_non_zero": lambda kind, x: kind.category(x) != "Zero",
    "is_finite": lambda kind, x: kind.category(x) in ("Zero", "Normal"),
    "is_finite_non_zero": lambda kind, x: kind.category(x) == "Normal",
    "is_pos_zero": lambda kind, x: kind.category(x) == "Zero" and not kind.is_negative(x),
    "is_neg_zero": lambda kind, x: kind.category(x) == "Zero" and kind.is_negative(x),
    "is_pos_infinity": lambda kind, x: kind.category(x) == "Infinity" and not kind.is_negative(x),
    "is_neg_infinity": lambda kind, x: kind.category(x) == "Infinity" and kind.is_negative(x),
}

_CONSTANTS = {
    "zero": lambda kind: kind.zero(),
    "default": lambda kind: kind.zero(),
    "smallest": lambda kind: kind.smallest(),
    "smallest_normalized": lambda kind: kind.smallest_normalized(),
    "largest": lambda kind: kind.largest(),
    "infinity": lambda kind: kind.infinity(),
    "nan": lambda kind: kind.qnan(0),
}

_NUMBERS = {
    "BITS": lambda kind: str(kind.bits),
    "PRECISION": lambda kind: str(kind.precision),
    "MIN_EXP": lambda kind: str(kind.least_exponent),
    "MAX_EXP": lambda kind: str(kind.greatest_exponent),
    "MULTIPLIES": lambda kind: yes_or_no(kind.multiplies),
}


class Answer(NamedTuple):
    """The answer of a call, as rows write it."""

    value: str
    flags: str = "-"
    # What else the call returns, by name.
    more: tuple = ()


def answered(call, kind_word, mode_word, operands):
    """The answer to a question. The mode `any` asks for the one answer of all modes."""
    if mode_word == "any":
        answers = {answered_in(call, kind_word, mode, operands) for mode in Mode}
        if len(answers) != 1:
            raise ValueError(f"{call} {kind_word} {operands} depends on the mode")
        return answers.pop()
    mode = Mode.EVEN if mode_word == "-" else Mode(mode_word)
    return answered_in(call, kind_word, mode, operands)


def answered_in(call, kind_word, mode, operands):
    """The answer in a mode."""
    if "@" in kind_word:
        return answered_on_machine(call, kind_word, mode, operands)
    if stored.is_one(call, kind_word):
        return answered_of_storage(call, kind_word, mode, operands)
    if call in odd.CALLS:
        return answered_to_odd(call, kind_word, operands)
    if kind_word.startswith("x87>x87p"):
        return answered_in_fewer_digits(format_of.OPERATIONS[call], kind_word, mode, operands)
    if call in operations.COMPARISONS | operations.UNNAMED and ">" in kind_word:
        return answered_between(call, *kind_word.split(">"), operands)
    if call in ("convert", "convert_r"):
        return answered_conversion(*kind_word.split(">"), mode, operands)
    if call == "from":
        return answered_from(*kind_word.split(">"), operands)
    if call in format_of.OPERATIONS:
        return answered_in_another(call, *kind_word.split(">"), mode, operands)
    if call in operations.ON_FLAGS:
        return answered_on_flags(call, operands)
    kind = _KINDS[kind_word]
    if call == "from_str_r":
        return answered_text(kind, operands, mode)
    if call == "from_decimal_r":
        return valued(kind, decimals.read(kind.format, operands, mode))._replace(more=())
    if call == "read_decimal":
        return answered_reading(kind, operands, mode)
    if call == "from_str":
        answer = answered_text(kind, operands, mode)
        return answer if answer.flags == "ParseError" else Answer(answer.value)
    if call in _NUMBERS:
        return Answer(_NUMBERS[call](kind))
    if call in _CONSTANTS:
        return Answer(words.word_of(kind, _CONSTANTS[call](kind)))
    if call in _ON_WORDS:
        return _ON_WORDS[call](kind, mode, *operands.split(" "))
    values = [words.value_of(kind, word) for word in operands.split(" ")]
    if call in augmented.CALLS:
        head, tail, flags = augmented.computed(kind.format, call, *values)
        return Answer(" ".join(words.word_of(kind, x) for x in (head, tail)), status.names(flags))
    if call in augmented.PAYLOADS:
        return Answer(words.word_of(kind, augmented.of_payload(kind.format, call, *values)))
    if call == "write_hex":
        return Answer(hex_texts.exact_text(kind.format, *values))
    if call in _TEXTS:
        return Answer(_TEXTS[call](kind, *values))
    if call in _TESTS:
        return Answer(yes_or_no(_TESTS[call](kind, *values)))
    if call in _VALUES:
        return Answer(words.word_of(kind, _VALUES[call](kind, *values)))
    if call in _RETURNING_MORE:
        return _RETURNING_MORE[call](kind, mode, *values)
    if call in _OPERATORS:
        return rounded(kind, _OPERATORS[call], mode, values)
    if call.endswith("="):
        return Answer(rounded(kind, _OPERATORS[call[:-1]], mode, values).value)
    return rounded(kind, call if call in _ROUNDED else call + "_r", mode, values)


def rounded(kind, call, mode, data):
    """The answer of a call that returns a value and its flags."""
    return valued(kind, _ROUNDED[call](kind, mode, *data))


def valued(kind, result):
    """The answer of a value and its flags; rows may also say whether the value is signaling."""
    value, flags = result
    more = (("is_signaling", yes_or_no(kind.is_signaling(value))),)
    return Answer(words.word_of(kind, value), status.names(flags), more)


def yes_or_no(answer):
    """A truth value as rows write it."""
    return "true" if answer else "false"


def answered_conversion(source_word, target_word, mode, operand):
    """A conversion between formats."""
    source, target = _KINDS[source_word], _KINDS[target_word]
    x = words.value_of(source, operand)
    value, flags, loses = conversions.convert(source.format, target.format, x, mode)
    more = (("loses_info", yes_or_no(loses)),)
    return Answer(words.word_of(target, value), status.names(flags), more)


def answered_of_storage(call, kind_word, mode, operands):
    """A conversion with a storage format, or one that saturates."""
    word, flags, loses = stored.converted(call, kind_word, mode, operands)
    more = () if loses is None else (("loses_info", yes_or_no(loses)),)
    return Answer(word, status.names(flags), more)


def answered_from(source_word, target_word, operand):
    """A conversion between pairs of doubles and the wide format."""
    source, target = _KINDS[source_word], _KINDS[target_word]
    change = joined if source is PAIRS else split
    return Answer(words.word_of(target, change(words.value_of(source, operand))))


def answered_in_another(call, source_word, target_word, mode, operands):
    """An operation whose result is of another format."""
    source, target = _KINDS[source_word], _KINDS[target_word]
    drawn = [words.value_of(source, word) for word in operands.split(" ")]
    operation = format_of.OPERATIONS[call]
    return valued(target, format_of.computed(source.format, target.format, operation, mode, drawn))


def answered_between(call, source_word, target_word, operands):
    """A comparison of values of two formats."""
    kinds = [_KINDS[word] for word in (source_word, target_word)]
    x, y = (words.value_of(kind, word) for kind, word in zip(kinds, operands.split(" ")))
    holds, flags = operations.compared_between(kinds[0].format, kinds[1].format, call, x, y)
    return Answer(yes_or_no(holds), status.names(flags))


def answered_to_odd(call, kind_word, operands):
    """A call that rounds to odd."""
    if kind_word.startswith("x87>x87p"):
        return answered_in_fewer_digits(odd.ARITHMETIC[call], kind_word, odd.ODD, operands)
    source_word, _, target_word = kind_word.partition(">")
    source, target = _KINDS[source_word], _KINDS[target_word or source_word]
    if call.startswith("from_"):
        integer = int(operands)
        quanta = abs(integer) << target.format.scale
        return valued(target, odd.delivered_to_odd(target.format, integer < 0, quanta, 1))
    word, _, width = operands.partition(" ")
    if call.startswith("to_"):
        end = 1 << int(width)
        ends = (0, end - 1) if call == "to_u128_odd" else (-end // 2, end // 2 - 1)
        integer, flags = odd.to_integer(source.format, words.value_of(source, word), *ends)
        return Answer(str(integer), status.names(flags))
    drawn = [words.value_of(source, word) for word in operands.split(" ")]
    if call == "round_to_odd_integral":
        return valued(source, odd.integral(source.format, *drawn))
    if call == "convert_odd":
        return valued(target, converted_to_odd(source.format, target.format, *drawn))
    operation = odd.ARITHMETIC[call]
    return valued(
        target, format_of.computed(source.format, target.format, operation, odd.ODD, drawn)
    )


def converted_to_odd(source, target, x):
    """A value of another format rounded to odd."""
    if not data.is_nonzero_number(x):
        return conversions.convert(source, target, x, Mode.ZERO)[:2]
    return odd.delivered_to_odd(target, x.negative, x.quanta << target.scale, 1 << source.scale)


def answered_in_fewer_digits(operation, kind_word, mode, operands):
    """An operation on values of `x87` whose result has fewer digits, as bits of `x87`."""
    target = FEWER_DIGITS[kind_word.split(">")[1]]
    kind = _KINDS["x87" + target.name.removeprefix(target.name.split("+")[0])]
    drawn = [words.value_of(kind, word) for word in operands.split(" ")]
    value, flags = format_of.computed(kind.format, target, operation, mode, drawn)
    if data.is_nan(value):
        value, _ = format_of.computed(kind.format, kind.format, operation, Mode.EVEN, drawn)
    elif isinstance(value, Finite):
        value = Finite(value.negative, value.quanta << kind.format.scale - target.scale)
    return valued(kind, (value, flags))


def answered_on_machine(call, kind_word, mode, operands):
    """A call on a machine, as in `single@x86` and `double>single@power`."""
    source_word, _, target_word = kind_word.rpartition(">")
    if not machines.is_given(source_word, target_word):
        raise ValueError(f"no machine gives {kind_word}")
    form, machine, flushes = machines.on_machine(target_word)
    kind = _KINDS[form.name]
    if source_word:
        source = _KINDS[source_word]
        x = words.value_of(source, operands)
        return valued(kind, machines.converted(source.format, form, machine, x, mode, flushes))
    if call in ("to_u128_r", "to_i128_r"):
        word, width = operands.split(" ")
        x = words.value_of(kind, word)
        signed = call == "to_i128_r"
        integer, flags = machines.to_integer(form, machine, signed, x, int(width), mode)
        return Answer(str(integer), status.names(flags))
    drawn = [words.value_of(kind, word) for word in operands.split(" ")]
    which, _, rule = call.partition("_")
    if rule in machines.RULES:
        return valued(kind, machines.extremum(form, machine, rule, which == "least", *drawn))
    if call == "round_to_integral_in":
        result = operations.round_to_integral_in(form, *drawn, mode)
    else:
        result = _ROUNDED[call](kind, mode, *drawn)
    if flushes and len(drawn) > 1:
        result = machines.flushed(form, machine, result)
    settle = machines.settled_fused if call == "wide_mul_add_r" else machines.settled
    return valued(kind, settle(form, machine, drawn, result))


def answered_on_flags(call, operands):
    """An operation on flags."""
    flags = [operations.bits_of_flags(word) for word in operands.split(" ")]
    answer = operations.ON_FLAGS[call](*flags)
    if isinstance(answer, bool):
        return Answer(yes_or_no(answer))
    return Answer("-", status.names(answer))


def answered_text(kind, text, mode):
    """The reading of a text, or the words of its refusal."""
    try:
        value, flags = kind.read(text, mode)
    except ParseError as error:
        return Answer(str(error), "ParseError")
    return Answer(words.word_of(kind, value), status.names(flags))


def answered_reading(kind, text, mode):
    """The reading of a decimal, or of a text that `from_str_r` reads."""
    if decimals.literal(text) is None:
        return answered_text(kind, text, mode)
    value, flags = decimals.read(kind.format, text, mode)
    return Answer(words.word_of(kind, value), status.names(flags))


def answered_from_integer(kind, mode, integer):
    """The value of an integer."""
    return valued(kind, kind.from_integer(int(integer), mode))


def answered_to_unsigned(kind, mode, x, width):
    """The unsigned integer of so many bits."""
    return answered_integer(kind.to_unsigned(words.value_of(kind, x), int(width), mode))


def answered_to_signed(kind, mode, x, width):
    """The signed integer of so many bits."""
    return answered_integer(kind.to_signed(words.value_of(kind, x), int(width), mode))


def answered_integer(result):
    """An integer, its flags, and whether it is exactly the value."""
    integer, flags, exact = result
    return Answer(str(integer), status.names(flags), (("is_exact", yes_or_no(exact)),))


def answered_scaling(kind, mode, x, exponent):
    """A value times a power of two."""
    return Answer(words.word_of(kind, kind.scaled(words.value_of(kind, x), int(exponent), mode)))


def answered_qnan(kind, _mode, payload):
    """The quiet NaN of a payload."""
    return Answer(words.word_of(kind, kind.qnan(words.payload_of(payload))))


def answered_snan(kind, _mode, payload):
    """The signaling NaN of a payload."""
    return Answer(words.word_of(kind, kind.snan(words.payload_of(payload))))


def answered_shortest(kind, _mode, x):
    """A number written with the fewest decimal digits, for example -15e-1."""
    x = words.value_of(kind, x)
    digits, exponent = decimals.shortest(kind.format, x)
    return Answer(f"{'-' if x.negative else ''}{digits}e{exponent}")


def answered_decimal(kind, _mode, word):
    """The shortest decimal of a number."""
    return written(words.value_of(kind, word), lambda x: decimals.shortest(kind.format, x))


def answered_exact(kind, _mode, word):
    """The decimal that a number is."""
    return written(words.value_of(kind, word), lambda x: decimals.exact(kind.format, x))


def answered_rounded(kind, mode, word, count):
    """A number rounded to so many decimal digits."""
    x = words.value_of(kind, word)
    if not isinstance(x, Finite):
        return Answer("None")
    decimal, is_exact = decimals.rounded(kind.format, x, int(count), mode)
    return written(x, lambda _: decimal)._replace(more=(("is_exact", yes_or_no(is_exact)),))


def written(x, decimal_of):
    """The text of a decimal, or None of another value and of a number without one."""
    decimal = decimal_of(x) if isinstance(x, Finite) else None
    if decimal is None:
        return Answer("None")
    return Answer(("-" if x.negative else "") + decimals.spelled(*decimal))


def answered_comparison(name):
    """A comparison predicate."""

    def answer(kind, _mode, *operands):
        x, y = (words.value_of(kind, word) for word in operands)
        holds, flags = operations.compared(kind.format, name, x, y)
        return Answer(yes_or_no(holds), status.names(flags))

    return answer


def answered_extremum(name):
    """A minimum or a maximum."""

    def answer(kind, _mode, *operands):
        x, y = (words.value_of(kind, word) for word in operands)
        return valued(kind, operations.extremum(kind.format, name, x, y))

    return answer


def answered_order(of_total_cmp, takes_magnitudes=False):
    """A call in the total order."""

    def answer(kind, _mode, *operands):
        x, y = (words.value_of(kind, word) for word in operands)
        if takes_magnitudes:
            x, y = kind.absolute(x), kind.absolute(y)
        return Answer(of_total_cmp(operations.total_cmp(kind.format, x, y)))

    return answer


def answered_to_integer(name):
    """An integer with its flags."""

    def answer(kind, mode, word, width):
        x = words.value_of(kind, word)
        integer, flags = operations.to_integer(kind.format, name, x, int(width), mode)
        return Answer(str(integer), status.names(flags))

    return answer


def answered_scale_b(kind, mode, word, power):
    """A value times a power of two, with its flags."""
    x = words.value_of(kind, word)
    return valued(kind, operations.scale_b(kind.format, x, int(power), mode))


def answered_log_b(kind, mode, word):
    """The exponent of a value, as a value."""
    return valued(kind, operations.log_b(kind.format, words.value_of(kind, word), mode))


def answered_integer_log_b(kind, _mode, word):
    """The exponent of a value, as an integer with its flags."""
    exponent, flags = operations.integer_log_b(kind.format, words.value_of(kind, word))
    return Answer(str(exponent), status.names(flags))


def answered_integral(kind, mode, word):
    """A value rounded to an integral value, without INEXACT."""
    x = words.value_of(kind, word)
    return valued(kind, operations.round_to_integral_in(kind.format, x, mode))


def answered_digits(kind, mode, word, count):
    """So many decimal digits of a number, or None of another value."""
    x = words.value_of(kind, word)
    if not data.is_nonzero_number(x):
        return Answer("None")
    digits, exponent, flags = operations.digits_of(kind.format, x, int(count), mode)
    return Answer(digits, status.names(flags), (("exponent", exponent),))


def answered_hex(kind, mode, word, count):
    """A value with so many hexadecimal digits after the dot."""
    x = words.value_of(kind, word)
    text, flags = hex_texts.rounded_text(kind.format, mode, int(count), x)
    return Answer(text, status.names(flags))


def answered_digit_count(kind, _mode, word):
    """How many decimal digits a number has, or None of another value."""
    x = words.value_of(kind, word)
    if not data.is_nonzero_number(x):
        return Answer("None")
    return Answer(str(operations.digit_count(kind.format, x)))


# Calls with operands that are not all values.
_ON_WORDS = {
    **{name: answered_comparison(name) for name in operations.COMPARISONS | operations.UNNAMED},
    **{name: answered_extremum(name) for name in operations.EXTREMA},
    **{
        name: answered_to_integer(name)
        for name in (
            "convert_to_signed",
            "convert_to_signed_exact",
            "convert_to_unsigned",
            "convert_to_unsigned_exact",
        )
    },
    "total_order": answered_order(lambda order: yes_or_no(order <= 0)),
    "total_order_mag": answered_order(lambda order: yes_or_no(order <= 0), True),
    "total_cmp": answered_order(lambda order: _ORDER[order]),
    "class_of": lambda kind, _mode, word: Answer(
        operations.class_of(kind.format, words.value_of(kind, word))
    ),
    "radix": lambda kind, _mode, word: Answer("2"),
    "is_canonical": lambda kind, _mode, word: Answer("true"),
    "is_canonical_encoding": lambda kind, _mode, word: Answer(
        yes_or_no(operations.is_canonical_encoding(kind.format, int(word, 16)))
    ),
    "log_b": answered_log_b,
    "integer_log_b": answered_integer_log_b,
    "scale_b": answered_scale_b,
    "round_to_integral_in": answered_integral,
    "write_digits": answered_digits,
    "digit_count": answered_digit_count,
    "write_hex_rounded": answered_hex,
    "from_u128_r": answered_from_integer,
    "from_u128": answered_from_integer,
    "from_i128_r": answered_from_integer,
    "from_i128": answered_from_integer,
    "to_u128_r": answered_to_unsigned,
    "to_u128": lambda kind, _mode, x, width: answered_to_unsigned(kind, Mode.ZERO, x, width),
    "to_i128_r": answered_to_signed,
    "to_i128": lambda kind, _mode, x, width: answered_to_signed(kind, Mode.ZERO, x, width),
    "scalbn_r": answered_scaling,
    "scalbn": answered_scaling,
    "qnan": answered_qnan,
    "snan": answered_snan,
    "shortest_decimal": answered_shortest,
    "shortest": answered_decimal,
    "exact": answered_exact,
    "rounded": answered_rounded,
}


def answered_fraction(kind, mode, x):
    """A fraction and its exponent."""
    value, exponent = kind.fraction(x, mode)
    return Answer(words.word_of(kind, value), more=(("exponent", exponent),))


def answered_inverse(kind, _mode, x):
    """An exact inverse, or None."""
    inverse = kind.exact_inverse(x)
    return Answer("None" if inverse is None else words.word_of(kind, inverse))


def answered_round_trip(kind, _mode, x):
    """A value converted to a signed integer of 128 bits, and back."""
    integer = kind.to_signed(x, 128, Mode.ZERO)[0]
    return Answer(words.word_of(kind, kind.from_integer(integer, Mode.EVEN)[0]))


def answered_steps(kind, mode, x, y):
    """A truncated remainder, how many subtractions it takes, and at most how many."""
    answer = rounded(kind, "c_fmod", mode, (x, y))
    bound = max(0, kind.logarithm(x) - kind.logarithm(y) + 1)
    return answer._replace(
        more=(("steps", remainders.ones_of_quotient(x, y)), ("bound", bound))
    )


_RETURNING_MORE = {
    "frexp_r": answered_fraction,
    "frexp": answered_fraction,
    "get_exact_inverse": answered_inverse,
    "through_i128": answered_round_trip,
    "c_fmod_steps": answered_steps,
}
