#!/usr/bin/env python3
"""Compares the decimals of the library for C with those of CPython.

    APFLOAT_LIBRARY=PREFIX/lib/libapfloat.so python3 evidence/decimal_peers/cpython.py SEED COUNT

`packaging/install` makes the shared library. Draws COUNT doubles and COUNT texts. The shortest
decimal of a double has to be the number that `repr` writes, and a text has to be read as `float`
reads it. Prints what differs, and how much was compared.
"""

import random
import struct
import sys
from pathlib import Path

_TOP = Path(__file__).resolve().parents[2]
sys.path += [str(_TOP / "evidence"), str(_TOP / "python")]

import apfloat  # noqa: E402
from exact.decimals import literal, without_zeros  # noqa: E402


def main():
    """Compares what is drawn from the seed."""
    choices = random.Random(int(sys.argv[1]))
    count = int(sys.argv[2])
    different = 0
    for _ in range(count):
        x = double_of(choices.getrandbits(64))
        written = shortest(x)
        if number(written) != number(repr(x)):
            different += 1
            print(f"shortest: {repr(x)}: {written}")
        text = drawn_text(choices, x)
        if bits_of(float(text)) != parsed(text):
            different += 1
            print(f"read: {text}")
    print(f"{count} doubles and {count} texts compared, {different} differ")
    return 1 if different else 0


def drawn_text(choices, x):
    """A text near a double, or of any digits."""
    draw = choices.random()
    if x != x or draw < 0.4:
        digits = str(choices.getrandbits(choices.randint(1, 130)))
        point = choices.randint(0, len(digits))
        return f"{choices.choice(['', '-', '+'])}{digits[:point]}.{digits[point:]}e{choices.randint(-370, 340)}"
    if draw < 0.6:
        return repr(x)
    return f"{x:.{choices.randint(5, 60)}e}"


def double_of(pattern):
    """The double of a bit pattern."""
    return struct.unpack("<d", pattern.to_bytes(8, "little"))[0]


def bits_of(x):
    """The bit pattern of a double."""
    return struct.unpack("<Q", struct.pack("<d", x))[0]


def number(text):
    """The sign, the digits and the exponent of a decimal text, or the text of another value."""
    if literal(text) is None:
        return text
    negative, digits, exponent = literal(text)
    return (negative, *without_zeros(digits, exponent)) if digits else (negative, 0, 0)


def shortest(x):
    """The text that the library writes of a double."""
    return str(apfloat.double.from_bits(bits_of(x)))


def parsed(text):
    """The bits of the double that the library reads."""
    return apfloat.double(text).bits


if __name__ == "__main__":
    sys.exit(main())
