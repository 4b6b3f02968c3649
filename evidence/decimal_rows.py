#!/usr/bin/env python3
"""Computes the rows of tests/c/decimals: decimals that the library for C reads and writes.

    python3 evidence/decimal_rows.py > tests/c/decimals

Texts and numbers are drawn from a fixed seed, and some are chosen.
"""

import random
import sys

from exact import bits, decimals, status, texts
from exact.data import Infinite, is_nan, number
from exact.formats import BFLOAT, E4M3FN, E4M3FNUZ, E5M2, FALLBACK, FORMATS, HALF, PROGRAM_FORMATS
from exact.neighbours import spacing
from exact.pairs import PairValues, split_result
from exact.rounding import Mode
from exact.values import VALUES
from exact.words import checksum, word_of
from questions.decimals import magnitude, text
from questions.operands import Operands
from questions.readings import readings
from questions.short_forms import spelled_out

_SEED = 7
_LONGEST = 600

_KINDS = {**VALUES, "dd": PairValues()}

_TEXTS = (
    "0", "-0", "0.0", "-0e999999999999999999999", "00.", ".0", "1", "-1.5", "0.1", "1e-7", "+2.5E+3", "1e400", "-1e400",
    "1e-400", "4.9406564584124654e-324", "2.4703282292062327208e-324", "2.4703282292062328e-324",
    "1.7976931348623159e308",
    "179769313486231580793728971405301e276", "0.1e99999999999999999999", "1e-99999999999999999999", "65519.99", "65520",
    "3.4028235677973366e38", "0x1.8p-1", "-0x.8p1", "inf", "-INFINITY", "+Inf", "nan", "-nan", "snan", "nan(0x7)",
    "", "-", "+", ".", "e5", "1e", "1e+", "1.2.3", "1x", "0x", "0x1", "infinity", "Infinity", " 1", "1 ", "1_0", "1,5",
    "--1", "1e5.5", "0x1.8p", "1p3", "1e-", "\x7f",
)


def main():
    """Prints all rows."""
    sys.set_int_max_str_digits(0)
    choices = random.Random(_SEED)
    for literal in _TEXTS:
        for name in ("half", "double", "quad", "e4m3fnuz", "dd"):
            for mode in (Mode.EVEN, choices.choice(list(Mode))):
                print(reading(name, mode, literal))
    drawn = 0
    while drawn < 1200:
        known = choices.choice(PROGRAM_FORMATS)
        literal = text(Operands(choices, known))
        if len(literal) > _LONGEST:
            continue
        drawn += 1
        name = "dd" if known.name == "double" and choices.random() < 0.4 else known.name
        print(reading(name, choices.choice(list(Mode)), literal))
    for known in PROGRAM_FORMATS:
        for pattern in patterns(choices, known):
            print(writing(choices, known, pattern))
    for name, mode, form in readings(random.Random(_SEED)):
        print(reading(name, mode, form))
    for known in PROGRAM_FORMATS:
        for pattern in [*wholes(choices, known), *list(patterns(choices, known))[::4]]:
            print(person(known, pattern))
    for known in (HALF, BFLOAT, E5M2, E4M3FN, E4M3FNUZ):
        print(all_values(known))
    for known in (HALF, E5M2, E4M3FN, E4M3FNUZ):
        print(all_midpoints(known))


def reading(name, mode, form):
    """A row of a text that is read, in its short form."""
    try:
        value, flags = value_of(name, spelled_out(form), mode)
    except texts.ParseError:
        return f"read\t{name}\t{mode.value}\t{form}\tParseError\t-"
    return f"read\t{name}\t{mode.value}\t{form}\t{word_of(_KINDS[name], value)}\t{status.names(flags)}"


def value_of(name, literal, mode):
    """The value of any text, and the flags."""
    if name == "dd":
        return split_result(read(FALLBACK, literal, mode))
    return read(FORMATS[name], literal, mode)


def read(known, literal, mode):
    """The value of any text in a format, and the flags."""
    if decimals.literal(literal) is None:
        return texts.read(known, literal, mode)
    return decimals.read(known, literal, mode)


def patterns(choices, known):
    """Bits of special values, of numbers at the ends of the range and of any number."""
    width = known.bits
    for pattern in range(3):
        yield pattern
        yield pattern | 1 << width - 1
    for _ in range(8):
        yield choices.getrandbits(width)
    operands = Operands(choices, known)
    for _ in range(40):
        yield bits.encoded(known, operands.signed(magnitude(operands)))
    for quanta in (known.largest, known.smallest_normalized, known.smallest_normalized - 1):
        yield bits.encoded(known, operands.signed(quanta))
    for special in (known.greatest_field << known.precision - 1, (1 << width) - 1):
        yield special & (1 << width) - 1


def writing(choices, known, pattern):
    """A row of the shortest decimal of a value."""
    rules = ("", "+ieee", "+ieee+before") if known.has_infinity else ("",)
    x = bits.decoded(known, pattern)
    digits = known.hexadecimal_digits
    return f"shortest\t{known.name}{choices.choice(rules)}\t{pattern:0{digits}x}\t{shown(known, x)}"


def wholes(choices, known):
    """Bits of whole numbers, those beside 10^16 among them."""
    drawn = choices.getrandbits(30), choices.getrandbits(60)
    for whole in (1, 448, 65504, 10**15, 10**16 - 1, 10**16, 10**16 + 2, *drawn):
        value, _ = decimals.read(known, f"-{whole}", Mode.ZERO)
        yield bits.encoded(known, value)
        yield bits.encoded(known, value) + 1


def person(known, pattern):
    """A row of the text of a value for a person."""
    x = bits.decoded(known, pattern)
    line = shown(known, x)
    if not is_nan(x) and not isinstance(x, Infinite) and x.quanta % (1 << known.scale) == 0:
        whole = x.quanta >> known.scale
        if whole < 10**16:
            line = f"{'-' if x.negative else ''}{whole}.0"
    return f"to_text\t{known.name}\t{pattern:0{known.hexadecimal_digits}x}\t{line}"


def all_values(known):
    """A row with checksums of all values: of their texts, and of what these are read as."""
    lines = [shown(known, bits.decoded(known, pattern)) for pattern in range(1 << known.bits)]
    letters = "".join(f"{line}\n" for line in lines).encode()
    return f"each\t{known.name}\t{known.bits}\t{checksum(letters):016x}\t{checksum(words_read(known, lines)):016x}"


def all_midpoints(known):
    """A row with a checksum of what is read at, just below and just above the midpoint after each magnitude."""
    trailing, halvings = bits.significand_bits(known), known.scale + 1
    last = bits.encoded(known, number(known, False, known.largest))
    lines = []
    for pattern in range(last + 1):
        quanta = bits.decoded(known, pattern).quanta
        digits = (2 * quanta + spacing(known, quanta)) * 5**halvings
        sign = "-" if pattern % 2 else ""
        lines += [f"{sign}{digits + change}e-{halvings}" for change in (-1, 0, 1)]
    return f"ties\t{known.name}\t{trailing}\t{halvings}\t{last:x}\t{checksum(words_read(known, lines)):016x}"


def words_read(known, lines):
    """The flags and the bits of texts in each mode."""
    for line in lines:
        for mode in Mode:
            value, flags = read(known, line, mode)
            yield from (flags, bits.encoded(known, value))


def shown(known, x):
    """The text of a value."""
    if is_nan(x):
        return "nan"
    sign = "-" if x.negative else ""
    if isinstance(x, Infinite):
        return f"{sign}inf"
    return sign + decimals.spelled(*decimals.shortest(known, x))


if __name__ == "__main__":
    main()
