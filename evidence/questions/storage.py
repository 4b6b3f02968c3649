"""Conversions with storage formats, and conversions that saturate or round with random digits."""

from fractions import Fraction

from exact.formats import FORMATS, LATER_FORMATS, PROGRAM_FORMATS, SINGLE
from exact.rounding import Mode
from exact.stored import ELEMENTS, FORMS, LARGEST, SATURATING, SIGN
from exact.values import VALUES
from questions.operands import Operands
from questions.operations import in_reach, row, word_of
from storage_formats import single_bits

_MODES = [mode.value for mode in Mode]
_BUILT_IN = [form.name for form in (*PROGRAM_FORMATS, *LATER_FORMATS)]
_OF_EIGHT_BITS = [name for name in _BUILT_IN if FORMATS[name].bits == 8]
_FLAGGED = [*_BUILT_IN, "half+ieee", "bfloat+ieee+before", "e5m2+ieee"]

# Digits and random numbers: the least, the greatest, and some between.
_RANDOM = ((1, 0), (1, 1), (2, 1), (3, 2), (3, 5), (8, 77), (8, 255), (31, 1), (32, 0x9E3779B9), (32, 0xFFFFFFFF))


def code_word(name, code):
    """The word of a code."""
    return f"{code:0{-(-FORMS[name].bits // 4)}x}"


def numbers_of(name):
    """The numbers without a sign, in order, and two past the largest."""
    return FORMS[name].points[: LARGEST[name] + 3]


def asked(call, source, target, mode, operands):
    """A question, which asks whether information is lost where the call tells."""
    storing = source in FORMS or target in FORMS
    more = "-" if call in SATURATING and storing else "loses_info="
    return row(call, f"{source}>{target}", mode, operands, more)


def question(choices):
    """A call without its answer."""
    return choices.choice((to_storage, to_storage, to_storage, from_storage, between))(choices)


def to_storage(choices):
    """A value or a midpoint of a storage format, or what is beside it, of a built-in format."""
    name = choices.choice(list(FORMS))
    source = Operands(choices, FORMATS[choices.choice(_BUILT_IN)])
    form = source.form
    x = source.any()
    if choices.random() < 0.8:
        numbers = numbers_of(name)
        place = choices.randrange(len(numbers) - 1)
        share = Fraction(choices.choice([0, 0, 2, 2, choices.randrange(4)]), 4)
        exact = numbers[place] + (numbers[place + 1] - numbers[place]) * share
        quanta = exact * (1 << form.scale)
        x = source.signed(source.near(quanta.numerator, quanta.denominator))
    word = word_of(source, x)
    if name in ELEMENTS and choices.random() < 0.5:
        if choices.random() < 0.3:
            return asked("convert_odd", form.name, name, "-", word)
        digits = choices.choice([1, 2, 3, 8, 16, 32])
        random = choices.choice([0, (1 << digits) - 1, choices.getrandbits(digits)])
        return asked("convert_stochastic", form.name, name, "-", f"{word} {digits} {random}")
    call = choices.choice(["convert_r", "convert_r", "convert_r", *SATURATING])
    return asked(call, form.name, name, choices.choice(_MODES), word)


def from_storage(choices):
    """A code, converted to a built-in format."""
    name = choices.choice(list(FORMS))
    target = choices.choice([*_FLAGGED, *_OF_EIGHT_BITS * 3])
    call = choices.choice(["convert_r", "convert_r", *SATURATING])
    word = code_word(name, choices.getrandbits(FORMS[name].bits))
    return asked(call, name, target, choices.choice(_MODES), word)


def between(choices):
    """A conversion between built-in formats that saturates."""
    source = Operands(choices, FORMATS[choices.choice(_BUILT_IN)])
    target = Operands(choices, FORMATS[choices.choice([*_FLAGGED, *_OF_EIGHT_BITS * 3])])
    form = target.form
    x = source.any() if choices.random() < 0.3 else in_reach(source, target)
    if choices.random() < 0.4:
        above = form.largest + (1 << form.largest.bit_length() - form.precision - 1) * choices.randrange(4)
        x = source.signed(source.near(above << source.form.scale, 1 << form.scale))
    call = choices.choice(list(SATURATING))
    return asked(call, source.form.name, form.name, choices.choice(_MODES), word_of(source, x))


def all_questions(_choices):
    """All values of the formats of at most 8 bits to each other, where one is a built-in format; and singles at and
    beside each value of a storage format, and the quarters between two."""
    for name, form in FORMS.items():
        for other in _OF_EIGHT_BITS:
            yield from _all_codes(name, form.bits, other)
            yield from _all_codes(other, 8, name)
        yield from _all_codes(name, form.bits, "half+ieee")
        yield from _singles(name)
    for source in _OF_EIGHT_BITS:
        for target in _OF_EIGHT_BITS:
            if source != target:
                yield from _all_codes(source, 8, target, SATURATING)


def _all_codes(source, bits, target, calls=("convert_r", *SATURATING)):
    """All codes of a format in each mode, and to odd."""
    for code in range(1 << bits):
        word = f"{code:0{-(-bits // 4)}x}"
        for call in calls:
            for mode in _MODES:
                yield asked(call, source, target, mode, word)
        if target in ELEMENTS:
            yield asked("convert_odd", source, target, "-", word)


def _singles(name):
    """Singles at and beside each value and each quarter between two, in each mode, to odd and with random digits."""
    numbers = numbers_of(name)
    wanted = {low + (high - low) * Fraction(part, 4) for low, high in zip(numbers, numbers[1:]) for part in range(4)}
    wanted = {exact for exact in wanted if exact < Fraction(2) ** 128}
    around = {bits + step for exact in wanted if exact for bits in (single_bits(exact),) for step in (-1, 0, 1)}
    around |= {0, 1, 0x00400000, 0x7F7FFFFF, 0x7F800000, 0x7F800001, 0x7FC00000, 0x7FF80000}
    for bits in sorted(around):
        for sign in (0, 1) if name in SIGN or bits % 16 == 0 else (0,):
            yield from _of_single(name, f"{sign << 31 | bits:08x}")


def _of_single(name, word):
    """All conversions of a single."""
    for call in ("convert_r", *SATURATING):
        for mode in _MODES:
            yield asked(call, SINGLE.name, name, mode, word)
    if name in ELEMENTS:
        yield asked("convert_odd", SINGLE.name, name, "-", word)
        for digits, random in _RANDOM:
            yield asked("convert_stochastic", SINGLE.name, name, "-", f"{word} {digits} {random}")
