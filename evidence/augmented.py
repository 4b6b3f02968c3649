#!/usr/bin/env python3
"""Computes tests/rows/augmented.tsv: augmented operations (IEEE 754-2019 9.5).

    python3 evidence/augmented.py | diff - tests/rows/augmented.tsv

Operands are bits, and the exact result is a fraction. Nothing here is shared with the model in `exact`.
"""

import random
from fractions import Fraction

# The flags of a result: none, of a head past the largest value, of a tail with digits below the quantum.
FLAGS = {"Exact": "OK", "Past": "OVERFLOW|INEXACT", "Tiny": "UNDERFLOW|INEXACT"}

CALLS = {"add": "augmented_add", "sub": "augmented_subtract", "mul": "augmented_multiply"}


class Format:
    def __init__(self, name, precision, least, greatest, exponent_bits, kind="ieee"):
        self.name, self.precision, self.exponent_bits, self.kind = name, precision, exponent_bits, kind
        self.least, self.greatest = least, greatest
        self.trailing = precision - 1
        self.bits = exponent_bits + precision
        self.bias = 1 - least

    def value(self, bits):
        """("nan", sign), ("inf", sign) or ("number", sign, fraction)."""
        sign = bits >> self.bits - 1
        exponent = bits >> self.trailing & (1 << self.exponent_bits) - 1
        trailing = bits & (1 << self.trailing) - 1
        ones = (1 << self.exponent_bits) - 1
        if self.kind == "ieee" and exponent == ones:
            return ("nan", sign) if trailing else ("inf", sign)
        if self.kind == "nan_only" and exponent == ones and trailing == (1 << self.trailing) - 1:
            return ("nan", sign)
        if self.kind == "nan_negative_zero" and bits == 1 << self.bits - 1:
            return ("nan", 0)
        if exponent:
            trailing += 1 << self.trailing
        number = Fraction(trailing) * Fraction(2) ** (max(exponent, 1) - self.bias - self.trailing)
        return ("number", sign, -number if sign else number)

    def bits_of(self, sign, magnitude):
        """The bits of a number of the format."""
        if magnitude == 0:
            return 0 if self.kind == "nan_negative_zero" else sign << self.bits - 1
        exponent = self.least
        while magnitude >= Fraction(2) ** (exponent + 1):
            exponent += 1
        significand = magnitude / Fraction(2) ** (exponent - self.trailing)
        assert significand.denominator == 1 and significand < 1 << self.precision
        if significand < 1 << self.trailing:
            field = int(significand)
        else:
            field = (exponent + self.bias << self.trailing) + int(significand) - (1 << self.trailing)
        return sign << self.bits - 1 | field

    def past(self, sign):
        if self.kind == "ieee":
            return sign << self.bits - 1 | ((1 << self.exponent_bits) - 1) << self.trailing
        if self.kind == "nan_only":
            return sign << self.bits - 1 | (1 << self.bits - 1) - 1
        return 1 << self.bits - 1

    def largest(self):
        significand = (1 << self.precision) - (2 if self.kind == "nan_only" else 1)
        return significand * Fraction(2) ** (self.greatest - self.trailing)

    def nearest(self, magnitude):
        """The nearest magnitude with an unbounded exponent above; of two as near, the lower."""
        exponent = self.least
        while magnitude >= Fraction(2) ** (exponent + 1):
            exponent += 1
        unit = Fraction(2) ** (exponent - self.trailing)
        low = magnitude // unit * unit
        return low if magnitude - low <= low + unit - magnitude else low + unit


def augmented(f, exact, of_zero):
    """The bits of head and tail, and the flags, of a fraction; a tail with digits below the quantum is rounded too."""
    sign = int(exact < 0) if exact else of_zero
    head = f.nearest(abs(exact))
    if head > f.largest():
        return f.past(sign), f.past(sign), "Past"
    rest = exact - (-head if sign else head)
    tail_sign = int(rest < 0) if rest else sign
    tail = f.nearest(abs(rest))
    return f.bits_of(sign, head), f.bits_of(tail_sign, tail), "Exact" if tail == abs(rest) else "Tiny"


def row(f, operation, a, b):
    x, y = f.value(a), f.value(b)
    if operation == "mul":
        return augmented(f, x[2] * y[2], x[1] ^ y[1])
    if operation == "sub":
        y = (y[0], 1 - y[1], -y[2])
    exact = x[2] + y[2]
    of_zero = x[1] if x[1] == y[1] else 0
    return augmented(f, exact, of_zero)


HALF = Format("half", 11, -14, 15, 5)
E5M2 = Format("e5m2", 3, -14, 15, 5)
E4M3FN = Format("e4m3fn", 4, -6, 8, 4, "nan_only")
E4M3FNUZ = Format("e4m3fnuz", 4, -7, 7, 4, "nan_negative_zero")
SINGLE = Format("single", 24, -126, 127, 8)

# ties in both directions of evenness, ties past the largest value, zeros, denormal values, cancellation
BY_HAND = {
    "half": [
        (0x3C00, 0x1000), (0x3C01, 0x1000), (0xBC01, 0x9000), (0x3C00, 0x1001), (0x3C01, 0x0FFF),
        (0x7BFF, 0x4C00), (0xFBFF, 0xCC00), (0x7BFF, 0x4C01), (0x7BFF, 0x4BFF), (0x4C00, 0x7BFF),
        (0x7BFF, 0x7BFF), (0x7800, 0x7801), (0x0000, 0x8000), (0x8000, 0x8000), (0x3C00, 0xBC00),
        (0xBC00, 0x3C00), (0x0001, 0x0001), (0x03FF, 0x0001), (0x8001, 0x0002), (0x7BFF, 0x0001),
        (0x3C00, 0x8001), (0x6400, 0x3800), (0x6401, 0x3800), (0x6401, 0xB800), (0x3555, 0x3C00),
    ],
    "e5m2": [(0x7B, 0x6C), (0x7B, 0x6D), (0xFB, 0xEC), (0x3C, 0x30), (0x3D, 0x30), (0x7A, 0x68)],
    "e4m3fn": [(0x7E, 0x58), (0x7E, 0x50), (0x7E, 0x51), (0xFE, 0xD0), (0x38, 0xB8), (0x80, 0x80), (0x39, 0x18)],
    "e4m3fnuz": [(0x7F, 0x58), (0x7F, 0x50), (0x7F, 0x51), (0xFF, 0xD0), (0x38, 0xB8), (0x00, 0xC0), (0x41, 0x20)],
    "single": [
        (0x3F800000, 0x33800000), (0x3F800001, 0x33800000), (0x7F7FFFFF, 0x73000000), (0x7F7FFFFF, 0x73000001),
        (0x3F800001, 0xB3800000), (0x7F7FFFFF, 0x00000001), (0x00000001, 0x80000001),
    ],
}
# Products: ties of the head in both directions of evenness, also in the lowest binade; ties of the tail; a tie past the
# largest value, where the format has one; half a quantum, less, more, and 3 and 5 halves; normal heads with inexact
# tails; zeros
PRODUCTS = {
    "half": [
        (0x3C00, 0x3C00), (0x3C01, 0x3C01), (0x3C01, 0x3E00), (0x3C03, 0x3E00), (0xBC01, 0x3E00), (0x7BFF, 0x3C01),
        (0x7BFF, 0xC000), (0x7BFF, 0x7BFF), (0x63E0, 0x5410), (0xE3E0, 0x5410), (0x63E1, 0x5410), (0x0001, 0x0001),
        (0x8001, 0x0001), (0x0001, 0x3800), (0x8001, 0x3800), (0x0001, 0x3801), (0x0001, 0x37FF), (0x0003, 0x3800),
        (0x0005, 0x3800), (0x8003, 0x3800), (0x03FF, 0x3C01), (0x0401, 0x3801), (0x0801, 0x3A00), (0x0803, 0x3A00),
        (0x0C01, 0x3900), (0x0C01, 0x3B00), (0x3001, 0x3403), (0xB001, 0x3403), (0x3003, 0x3403), (0x3003, 0x3405),
        (0x8000, 0x3C00), (0x0000, 0x8000), (0x8000, 0x8000), (0x7BFF, 0x0001),
    ],
    "e5m2": [
        (0x3D, 0x3D), (0x3D, 0x3E), (0x3F, 0x3F), (0x7B, 0x3D), (0x3D, 0x7A), (0xBD, 0x7A), (0x01, 0x01), (0x01, 0x38),
        (0x81, 0x38), (0x03, 0x38), (0x05, 0x38), (0x05, 0x3A), (0x0D, 0x3D), (0x0D, 0x39), (0x11, 0x35), (0x7B, 0x01),
        (0x80, 0x3C),
    ],
    "e4m3fn": [
        (0x39, 0x39), (0x39, 0x3C), (0x3B, 0x3C), (0x7E, 0x39), (0x7E, 0x38), (0x7E, 0xB9), (0x01, 0x01), (0x01, 0x30),
        (0x81, 0x30), (0x03, 0x30), (0x05, 0x30), (0x11, 0x34), (0x11, 0x35), (0x1B, 0x2B), (0x80, 0x38), (0x7E, 0x01),
    ],
    "e4m3fnuz": [
        (0x41, 0x41), (0x41, 0x44), (0x43, 0x44), (0x7F, 0x41), (0x7F, 0xC1), (0x01, 0x01), (0x81, 0x01), (0x01, 0x38),
        (0x81, 0x38), (0x03, 0x38), (0x05, 0x38), (0x12, 0x3C), (0x13, 0x3D), (0x1B, 0x33), (0x00, 0xC0), (0x7F, 0x01),
    ],
    "single": [
        (0x3F800001, 0x3F800001), (0x3F800001, 0x3FC00000), (0x3F800003, 0x3FC00000), (0x7F7FFFFF, 0x3F800001),
        (0x46918E00, 0x78612000), (0xC6918E00, 0x78612000), (0x46918E01, 0x78612000), (0x00000001, 0x3F000000),
        (0x80000001, 0x3F000000), (0x00000003, 0x3F000000), (0x00800001, 0x3F400000), (0x01000001, 0x3F400000),
        (0x00000001, 0x00000001), (0x1A000001, 0x26000003), (0x80000000, 0x3F800000),
    ],
}
FORMATS = [HALF, E5M2, E4M3FN, E4M3FNUZ, SINGLE]


def rows(f):
    drawn = random.Random(9500 + f.bits)
    pairs = list(BY_HAND[f.name])
    while len(pairs) < len(BY_HAND[f.name]) + 12:
        a, b = drawn.getrandbits(f.bits), drawn.getrandbits(f.bits)
        if drawn.random() < 0.5:
            close = (a >> f.trailing & (1 << f.exponent_bits) - 1) - drawn.randrange(f.precision + 2)
            b = b & ~((1 << f.exponent_bits) - 1 << f.trailing) | max(close, 0) << f.trailing
        if f.value(a)[0] == f.value(b)[0] == "number":
            pairs.append((a, b))
    for a, b in pairs:
        for operation in ("add", "sub"):
            yield (operation, a, b) + row(f, operation, a, b)
    for a, b in products(f):
        yield ("mul", a, b) + row(f, "mul", a, b)


def products(f):
    """Pairs of factors; most of those that are drawn have products near the smallest values."""
    drawn = random.Random(9600 + f.bits)
    pairs = list(PRODUCTS[f.name])
    ones = (1 << f.exponent_bits) - 1
    while len(pairs) < len(PRODUCTS[f.name]) + 16:
        a, b = drawn.getrandbits(f.bits), drawn.getrandbits(f.bits)
        if drawn.random() < 0.75:
            other = f.bias - (a >> f.trailing & ones) + drawn.randrange(-1 - f.trailing, f.precision + 3)
            b = b & ~(ones << f.trailing) | min(max(other, 0), ones - 1) << f.trailing
        if f.value(a)[0] == f.value(b)[0] == "number":
            pairs.append((a, b))
    return pairs


def text():
    yield "# Augmented sums, differences and products: head and tail. Computed by evidence/augmented.py."
    for f in FORMATS:
        digits = f.bits // 4
        for operation, a, b, head, tail, flagging in rows(f):
            operands, result = (" ".join(f"{n:0{digits}x}" for n in pair) for pair in ((a, b), (head, tail)))
            kind = f"{f.name}+ieee" if f.kind == "ieee" else f.name
            yield "\t".join((CALLS[operation], kind, "-", operands, result, FLAGS[flagging], "-"))


if __name__ == "__main__":
    print("\n".join(text()))
