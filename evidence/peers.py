#!/usr/bin/env python3
"""Compares the decimals of the model with those of CPython and of the C library.

    python3 evidence/peers.py SEED COUNT

The shortest decimals of doubles have to be those of `repr`. Texts have to be read as doubles and as
singles like `float` of CPython reads them, and in four modes like `strtod` and `strtof` of the C
library, which has to be that of Linux on x86-64. Prints what differs, and how much was compared.
"""

import ctypes
import random
import struct
import sys

from exact import bits, decimals
from exact.data import Finite
from exact.formats import DOUBLE, SINGLE
from exact.rounding import Mode
from questions.decimals import text
from questions.operands import Operands

_LIBRARY = ctypes.CDLL("libm.so.6")
_LIBRARY.strtod.restype = ctypes.c_double
_LIBRARY.strtof.restype = ctypes.c_float

# The rounding control of the processor, as fesetround takes it.
_CONTROL = {Mode.EVEN: 0, Mode.DOWN: 0x400, Mode.UP: 0x800, Mode.ZERO: 0xC00}


def main():
    """Compares what is drawn from the seed."""
    choices = random.Random(int(sys.argv[1]))
    different = []
    for _ in range(int(sys.argv[2])):
        x = choices.getrandbits(choices.choice([12, 53, 63])) % (0x7FF << 52)
        form = choices.choice([SINGLE, DOUBLE])
        mode = choices.choice(list(_CONTROL))
        literal = text(Operands(choices, form))
        if not is_shortest(x):
            different.append(f"shortest of {x:016x}")
        if not is_read_alike(form, mode, literal):
            different.append(f"{form.name} {mode.value} {literal}")
    print(*different, sep="\n", end="\n" if different else "")
    print(f"{sys.argv[2]} numbers and {sys.argv[2]} texts compared, {len(different)} differ")
    return 1 if different else 0


def is_shortest(pattern):
    """Whether `repr` writes a double as the model does."""
    negative, digits, exponent = decimals.literal(repr(double_of(pattern)))
    written = decimals.without_zeros(digits, exponent) if digits else (0, 0)
    x = bits.decoded(DOUBLE, pattern)
    return decimals.shortest(DOUBLE, Finite(negative, x.quanta)) == written


def is_read_alike(form, mode, literal):
    """Whether a text is read as the model reads it."""
    expected = bits.encoded(form, decimals.read(form, literal, mode)[0])
    read = _LIBRARY.strtod if form is DOUBLE else _LIBRARY.strtof
    _LIBRARY.fesetround(_CONTROL[mode])
    number = read(literal.encode(), None)
    _LIBRARY.fesetround(0)
    of_python = float(literal) if form is DOUBLE and mode is Mode.EVEN else number
    return pattern_of(form, number) == pattern_of(form, of_python) == expected


def double_of(pattern):
    """The double of a bit pattern."""
    return struct.unpack("<d", pattern.to_bytes(8, "little"))[0]


def pattern_of(form, number):
    """The bit pattern of a number of this computer."""
    return int.from_bytes(struct.pack("<d" if form is DOUBLE else "<f", number), "little")


if __name__ == "__main__":
    sys.exit(main())
