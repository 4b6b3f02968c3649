#!/usr/bin/env python3
"""Computes the rows of tests/c/texts: digits, decimals with flags and formats, as the library for C has them.

    python3 evidence/text_rows.py > tests/c/texts

Numbers are drawn from a fixed seed.
"""

import random
import sys

from decimal_rows import patterns, read, reading as row_of_text
from exact import bits, decimals, hex_texts, status
from exact.data import Finite, NaN, number
from exact.formats import FORMATS, LATER_FORMATS, PROGRAM_FORMATS, NonFinite
from exact.rounding import Mode
from exact.status import INEXACT, OK
from exact.texts import ParseError
from questions.decimals import text
from questions.operands import Operands

_SEED = 11
_LONGEST = 400
_FORMATS = (*PROGRAM_FORMATS, *LATER_FORMATS)
_PLACES = (0, 1, 2, 3, 5, 13, 27, 28, 31)


def main():
    """Prints all rows."""
    sys.set_int_max_str_digits(0)
    choices = random.Random(_SEED)
    for known in _FORMATS:
        print(facts(known))
        for rule in ("+ieee", "+ieee+before") if known.name in _WITH_RULES else ():
            for _ in range(40):
                print(reading(choices, FORMATS[known.name + rule]))
        for pattern in patterns(choices, known):
            x = bits.decoded(known, pattern)
            print(counted(known, pattern, x))
            print(written(known, choices.choice(list(Mode)), pattern, x, length(choices, known)))
            print(f"hex\t{known.name}\t{word(known, pattern)}\t{full_text(known, x)}")
            places, mode = choices.choice(_PLACES), choices.choice(list(Mode))
            rounded, flags = hex_texts.rounded_text(known, mode, places, x)
            print(f"hex_rounded\t{known.name}\t{mode.value}\t{places}\t{word(known, pattern)}\t{rounded}\t"
                  f"{status.names(flags)}")
    for name in ("half+ieee", "double", "e4m3fn", "e4m3fnuz", "dd"):
        print(*special_readings(name), sep="\n")


# What an infinity or a NaN may be spelled as, with any sign (IEEE 754-2019 5.12.1), by the spelling that is read as it.
_SPELLINGS = {
    "inf": ("inf", "Inf", "INF", "inF", "infinity", "Infinity", "INFINITY"),
    "nan": ("nan", "NaN", "NAN", "Nan"),
    "snan": ("snan", "sNaN", "SNAN"),
}
_NO_SPELLINGS = ("infinit", "INFINITYY", "na", "nann", "s", "--inf", "+-nan", "inf ", "1inf")


# The formats whose codes have a rule of flags.
_WITH_RULES = {"half", "single", "double", "quad", "bfloat", "e5m2", "x87"}


def word(known, pattern):
    """Bits in hexadecimal digits."""
    return f"{pattern:0{known.hexadecimal_digits}x}"


def facts(known):
    """A row of what a format is."""
    numbers = (known.largest, known.smallest_normalized, 1)
    words = (word(known, bits.encoded(known, number(known, False, quanta))) for quanta in numbers)
    size = {3: 4}.get(-(-known.bits // 8), -(-known.bits // 8))
    # More decimals of so many digits than numbers of the precision, however the powers of ten and two lie.
    digits = next(count for count in range(2, 99) if 10**(count - 1) > 2**known.precision)
    return "\t".join(map(str, (
        "facts", known.name, *words, known.bits, size, known.precision, known.least_exponent,
        known.greatest_exponent, digits, int(known.has_infinity), list(NonFinite).index(known.non_finite))))


def reading(choices, known):
    """A row of a decimal that is read under a rule of flags."""
    while True:
        literal, mode = text(Operands(choices, known)), choices.choice(list(Mode))
        if len(literal) <= _LONGEST:
            break
    try:
        value, flags = read(known, literal, mode)
    except ParseError:
        return f"read\t{known.name}\t{mode.value}\t{literal}\tParseError\t-"
    pattern = bits.encoded(known, value)
    return f"read\t{known.name}\t{mode.value}\t{literal}\t{word(known, pattern)}\t{status.names(flags)}"


def special_readings(name):
    """Rows of infinities and NaNs that are read, and of texts that are nearly so."""
    for sign in ("", "+", "-"):
        for known, spellings in _SPELLINGS.items():
            *_, value, flags = row_of_text(name, Mode.EVEN, sign.strip("+") + known).split("\t")
            for spelling in spellings:
                yield f"read\t{name}\teven\t{sign}{spelling}\t{value}\t{flags}"
    for refused in _NO_SPELLINGS:
        yield f"read\t{name}\teven\t{refused}\tParseError\t-"


def has_digits(x):
    """Whether a value has a first digit."""
    return isinstance(x, Finite) and x.quanta > 0


def counted(known, pattern, x):
    """A row of how many digits a value has."""
    count = 0
    if has_digits(x):
        count = len(str(x.quanta * 5**known.scale).rstrip("0"))
    return f"count\t{known.name}\t{word(known, pattern)}\t{count}"


def length(choices, known):
    """How many digits are asked for."""
    return choices.choice((1, 2, 3, 5, 8, 17, 21, 36, 40, 99, choices.randrange(1, 300)))


def written(known, mode, pattern, x, count):
    """A row of the digits of a value, the exponent of the first one, and the flags."""
    row = f"digits\t{known.name}\t{mode.value}\t{count}\t{word(known, pattern)}"
    if not has_digits(x):
        return f"{row}\t-\t0\tOK"
    (digits, place), is_exact = decimals.rounded(known, x, count, mode)
    flags = status.names(OK if is_exact else INEXACT)
    return f"{row}\t{digits}\t{place + count - 1}\t{flags}"


def full_text(known, x):
    """The hexadecimal text of a value, with the payload of a NaN."""
    shown = hex_texts.exact_text(known, x)
    payload = 0
    if isinstance(x, NaN) and known.has_infinity:
        payload = x.significand % (1 << known.precision - 2)
    return shown + (f"{payload:#x}" if payload else "")


if __name__ == "__main__":
    main()
