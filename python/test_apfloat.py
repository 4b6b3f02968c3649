"""Tests of the module apfloat. Expected values come from Python's fractions, struct, math and floats.

Those with numpy are skipped where it is missing. python/test runs them all.
"""

import array
import base64
import collections
import copy
import decimal
import fractions
import functools
import hashlib
import io
import itertools
import math
import operator
import os
import pickle
import random
import re
import shutil
import struct
import subprocess
import sys
import tempfile
import unittest
import zipfile

import apfloat
from apfloat import Array, Context, Flags, Mask, Rounding

try:
    import numpy
except ImportError:
    numpy = None
try:
    import ml_dtypes
except ImportError:
    ml_dtypes = None

HERE = os.path.dirname(os.path.abspath(__file__))
Fraction = fractions.Fraction
MODES = list(Rounding)
SMALL = [apfloat.e5m2, apfloat.e4m3fn, apfloat.e4m3fnuz, apfloat.e4m3, apfloat.e5m2fnuz, apfloat.e4m3b11fnuz]
# Precision, least and greatest exponent of the integer bit.
LIMITS = {
    'half': (11, -14, 15), 'single': (24, -126, 127), 'double': (53, -1022, 1023), 'quad': (113, -16382, 16383),
    'bfloat': (8, -126, 127), 'e5m2': (3, -14, 15), 'e4m3fn': (4, -6, 8), 'e4m3fnuz': (4, -7, 7),
    'x87': (64, -16382, 16383), 'e4m3': (4, -6, 7), 'e5m2fnuz': (3, -15, 15), 'e4m3b11fnuz': (4, -10, 4),
    'tf32': (11, -126, 127),
}
# The formats without -0, whose NaN is there, and those without infinities.
UNSIGNED_ZERO = {apfloat.e4m3fnuz, apfloat.e5m2fnuz, apfloat.e4m3b11fnuz}
NO_INFINITY = UNSIGNED_ZERO | {apfloat.e4m3fn}
FORMATS = [getattr(apfloat, name) for name in LIMITS]


# ---- a model on fractions

def name_of(format):
    return format.name.split('.')[0]


def largest_of(format):
    """The largest number."""
    digits, _, greatest = LIMITS[name_of(format)]
    top = 2 * Fraction(2)**greatest - Fraction(2)**(greatest + 1 - digits)
    return top - Fraction(2)**(greatest + 1 - digits) if name_of(format) == 'e4m3fn' else top


def picked(amount, mode, negative):
    """The integer that a mode picks for a magnitude."""
    below = math.floor(amount)
    rest = amount - below
    up = {
        Rounding.NEAREST_EVEN: rest > Fraction(1, 2) or rest == Fraction(1, 2) and below % 2 == 1,
        Rounding.NEAREST_AWAY: rest >= Fraction(1, 2),
        Rounding.UPWARD: rest > 0 and not negative,
        Rounding.DOWNWARD: rest > 0 and negative,
        Rounding.TOWARD_ZERO: False,
    }[mode]
    return below + up


def exponent_of(number):
    """The exponent of the highest binary digit of a positive fraction."""
    guess = number.numerator.bit_length() - number.denominator.bit_length()
    return guess if number >= Fraction(2)**guess else guess - 1


def rounded(format, number, mode):
    """What rounding a fraction once gives: a fraction or None for what overflows, and the flags."""
    digits, least, _ = LIMITS[name_of(format)]
    size, negative = abs(number), number < 0
    if not size:
        return Fraction(0), Flags.OK
    exponent = exponent_of(size)
    # The format's spacing there, and the one that an unbounded exponent would have.
    quantum, free = Fraction(2)**(max(exponent, least) + 1 - digits), Fraction(2)**(exponent + 1 - digits)
    result = picked(size / quantum, mode, negative) * quantum
    unbounded = picked(size / free, mode, negative) * free
    flags = Flags.INEXACT if result != size else Flags.OK
    limit, smallest_normal = largest_of(format), Fraction(2)**least
    overflows = result > limit
    if overflows:
        # Toward zero, what is past the largest number gives that one; all else is an infinity or a NaN.
        towards = {Rounding.TOWARD_ZERO: True, Rounding.UPWARD: negative, Rounding.DOWNWARD: not negative}
        stays = towards.get(mode, False)
        result = limit if stays else None
        flags = Flags.INEXACT if stays else Flags.INEXACT | Flags.OVERFLOW
    if format.code & 0x100:
        if unbounded > limit:
            flags |= Flags.OVERFLOW
        tiny = (size if format.code & 0x200 else unbounded) < smallest_normal
    else:
        tiny = result is not None and result < smallest_normal
    if flags and tiny:
        flags |= Flags.UNDERFLOW
    return (result if result is None or not negative else -result), flags


def number_of(value):
    """The number of a value by its bits: a fraction, or None if it is an infinity or a NaN."""
    return number_of_bits(value.format, value.bits)


@functools.lru_cache(maxsize=None)
def number_of_bits(format, bits):
    name = name_of(format)
    digits, least, greatest = LIMITS[name]
    stored = digits if name == 'x87' else digits - 1
    sign = -1 if bits >> format.width - 1 else 1
    field, significand = bits >> stored & (1 << format.width - 1 - stored) - 1, bits & (1 << stored) - 1
    if format in UNSIGNED_ZERO and bits == 0x80 or name == 'e4m3fn' and bits & 0x7f == 0x7f:
        return None
    if format not in NO_INFINITY and field == (1 << format.width - 1 - stored) - 1:
        return None
    if field and name != 'x87':
        significand |= 1 << stored
    return sign * significand * Fraction(2)**(max(field, 1) - 1 + least + 1 - digits)


def drawn(format, random, count):
    """Bits at random, half of them of exponents near those of 1."""
    stored = LIMITS[name_of(format)][0] - 1
    for _ in range(count):
        if random.random() < 0.5:
            yield random.getrandbits(format.width)
        else:
            near = format(1).bits + (random.randint(-4, 4) << stored) + random.getrandbits(stored)
            yield near | random.getrandbits(1) << format.width - 1


def as_double(number):
    """The bits of a Python float."""
    return struct.unpack('<Q', struct.pack('<d', number))[0]


class RoundingTests(unittest.TestCase):
    """Values and flags of arrays, against the model."""

    def check(self, format, results, expected):
        """Compares an array, with its counts, with numbers and their flags."""
        counts = dict.fromkeys(results.counts, 0) | {'values': len(expected)}
        for value, (wanted, flags) in zip(results, expected):
            for flag in flags:
                counts[flag.name.lower()] += 1
            counts['nans'] += wanted is None and format in NO_INFINITY
            self.assertEqual(number_of(value), wanted)
        self.assertEqual(results.counts, counts)

    def test_conversions(self):
        draw = random.Random(1)
        for format in SMALL + [apfloat.half, apfloat.bfloat]:
            # All values of 8 bits, and of those of 16 bits runs of 8.
            chosen = [bits for bits in range(1 << format.width - 1) if format.width == 8 or bits >> 3 & 255 == 0]
            positive = [number_of_bits(format, bits) for bits in chosen]
            positive = sorted(number for number in positive if number is not None)
            # Values, midpoints, and singles next to them.
            numbers = {float(number) for number in positive}
            numbers |= {float((low + high) / 2) for low, high in itertools.pairwise(positive)}
            bits = {struct.unpack('<I', struct.pack('<f', number))[0] for number in numbers}
            bits |= {near for each in bits for near in (each - 1, each + 1) if near > 0}
            bits |= {draw.getrandbits(31) for _ in range(200)}
            bits = sorted(each for each in bits if each < 0x7f800000)
            # -0 becomes +0 in a format without it, which fractions do not show.
            bits += [each | 1 << 31 for each in bits if each]
            source = apfloat.single.from_bits(bits)
            numbers = [number_of_bits(apfloat.single, each) for each in bits]
            for mode in MODES:
                expected = [rounded(format, number, mode) for number in numbers]
                with Context(mode) as context:
                    self.check(format, source.to(format), expected)
                self.assertEqual(context.flags, functools.reduce(operator.or_, [flags for _, flags in expected]))
                for at, (wanted, flags) in enumerate(expected):
                    if wanted is None:
                        expected[at] = (1 if numbers[at] > 0 else -1) * largest_of(format), flags
                with Context(mode):
                    self.check(format, source.to(format, saturate=True), expected)
                    self.check(format, source.to(format, saturate='finite'), expected)
                    self.check(format, source.to(format, saturate='all'), expected)

    def test_finite_values(self):
        inf, nan = float('inf'), float('nan')
        of_numpy = apfloat.single.from_bits([0x7f800000, 0xff800000, 0x7fc00000, 0xffc00001, 0x3f800000])
        for format in SMALL + [apfloat.half, apfloat.bfloat]:
            largest = format.largest
            for items in ([inf, -inf, nan, -nan, 1.0], ['inf', '-inf', 'nan', '-nan', '1'],
                          [apfloat.quad('inf'), apfloat.half('-inf'), apfloat.x87('nan'), nan, 1], of_numpy):
                for mode in MODES:
                    with Context(mode) as context:
                        made = format.array(items, saturate='finite')
                    self.assertEqual([*made[:2], made[4]], [largest, -largest, 1])
                    self.assertTrue(made[2].is_nan and made[3].is_nan)
                    self.assertEqual(context.flags, apfloat.Flags.INEXACT)
                    self.assertEqual((made.counts['inexact'], made.counts['nans']), (2, 2))
                    with Context(mode) as context:
                        made = format.array(items, saturate='all')
                    self.assertEqual(list(made), [largest, -largest, largest, largest, 1])
                    self.assertEqual(context.flags, apfloat.Flags.INEXACT | apfloat.Flags.INVALID_OP)
                    counts = made.counts
                    self.assertEqual((counts['inexact'], counts['invalid_op'], counts['nans']), (2, 2, 0))
            with self.assertRaises(ValueError):
                format.array([1.0], saturate='most')
            with self.assertRaises(ValueError):
                format.array(['1'], saturate='most')

    def test_operations(self):
        draw = random.Random(2)
        operations = [operator.add, operator.sub, operator.mul, operator.truediv]
        for format in FORMATS:
            triples = []
            while len(triples) < 40:
                numbers = [number_of_bits(format, bits) for bits in drawn(format, draw, 3)]
                if None not in numbers and 0 not in numbers:
                    triples.append(numbers)
            if format is apfloat.x87:
                # Bits at random are seldom numbers that a processor writes.
                triples = [[number_of(apfloat.x87.from_bits(draw.randint(16300, 16500) << 64 | 1 << 63
                                                            | draw.getrandbits(63))) for _ in range(3)]
                           for _ in range(40)]
            xs, ys, zs = [format.array([f'{each.numerator:#x}p{1 - each.denominator.bit_length()}' for each in column])
                          for column in zip(*triples)]
            self.assertEqual([number_of(x) for x in xs], [triple[0] for triple in triples])
            for mode in MODES:
                with Context(mode):
                    for operation in operations:
                        exact = [operation(x, y) for x, y, _ in triples]
                        self.check(format, operation(xs, ys), [rounded(format, each, mode) for each in exact])
                    exact = [x * y + z for x, y, z in triples]
                    self.check(format, xs.fma(ys, zs), [rounded(format, each, mode) for each in exact])
                    self.check_floored(format, xs % ys, triples, mode)

    def check_floored(self, format, results, triples, mode):
        for value, (x, y, _) in zip(results, triples):
            exact = x - y * math.floor(x / y)
            self.assertEqual(number_of(value), rounded(format, exact, mode)[0], (x, y, mode))
            self.assertEqual(value.is_negative, y < 0 and format not in UNSIGNED_ZERO or exact < 0)
        exact = [x - y * math.floor(x / y) for x, y, _ in triples]
        self.assertEqual(results.counts['inexact'], sum(bool(rounded(format, each, mode)[1]) for each in exact))
        self.assertEqual(results.counts['values'], len(triples))

    def test_roots(self):
        draw = random.Random(3)
        for format in FORMATS:
            numbers = [number for number in map(functools.partial(number_of_bits, format), drawn(format, draw, 80))
                       if number and number > 0]
            if format is apfloat.x87:
                numbers = [Fraction(draw.getrandbits(64) | 1 << 63, 1 << draw.randint(0, 120)) for _ in range(40)]
            digits = LIMITS[name_of(format)][0]
            texts = [f'{each.numerator:#x}p{1 - each.denominator.bit_length()}' for each in numbers]
            for mode in MODES:
                with Context(mode):
                    roots = format.array(texts).sqrt()
                for root, number in zip(roots, numbers):
                    # A root has enough digits if its square differs from the number by less than it has to.
                    shift = 2 * (digits + 3) + number.denominator.bit_length()
                    shift += shift % 2
                    scaled = (number.numerator << shift) // number.denominator
                    found = math.isqrt(scaled)
                    exact = Fraction(found * found * number.denominator, 1) == number.numerator << shift
                    near = Fraction(2 * found + (not exact), 1 << 1 + shift // 2)
                    self.assertEqual(number_of(root), rounded(format, near, mode)[0])

    def test_doubles_are_those_of_python(self):
        draw = random.Random(4)
        pairs = [[struct.unpack('<d', struct.pack('<Q', bits))[0] for bits in drawn(apfloat.double, draw, 2)]
                 for _ in range(1000)]
        pairs = [pair for pair in pairs if all(map(math.isfinite, pair)) and pair[1]]
        pairs += [[0.0, -3.0], [-0.0, 3.0], [3.0, -3.0], [-5.0, math.inf], [5.0, -math.inf], [5.0, math.inf]]
        xs, ys = [apfloat.double.array(list(column)) for column in zip(*pairs)]
        for operation in operator.add, operator.sub, operator.mul, operator.truediv, operator.mod:
            expected = [as_double(operation(x, y)) for x, y in pairs]
            self.assertEqual([value.bits for value in operation(xs, ys)], expected)
            self.assertEqual([operation(x, y).bits for x, y in zip(xs, ys)], expected)
        positive = [abs(x) for x, _ in pairs]
        self.assertEqual([value.bits for value in abs(xs).sqrt()], [as_double(math.sqrt(x)) for x in positive])
        self.assertEqual([value.bits for value in xs.fmod(ys)], [as_double(math.fmod(x, y)) for x, y in pairs])


class TextTests(unittest.TestCase):
    """Texts in and out."""

    def test_decimals_with_the_flags_of_ieee(self):
        draw = random.Random(5)
        # So far out, all numbers have the same result.
        far = {'1e99999999999999999999999': '1e6000', '-1e-99999999999999999999999': '-1e-6000',
               '9' * 6000 + '.5': '1e6000', '-0.' + '0' * 6000 + '1': '-1e-6000'}
        for plain in [format for format in FORMATS if format.code < 7 or format is apfloat.x87]:
            digits, least, greatest = LIMITS[plain.name]
            edges = [Fraction(2)**least, Fraction(2)**(least + 1 - digits), largest_of(plain),
                     Fraction(2)**(greatest + 1)]
            texts = ['0', '-0.0', '1', '0.1', '-2.5', '1e5000', '-1e-5000', '.5', '5.', '+7e-1', '-1E+3', *far]
            for edge in edges:
                with decimal.localcontext(decimal.Context(prec=60)):
                    near = decimal.Decimal(edge.numerator) / decimal.Decimal(edge.denominator)
                    quantum = near * decimal.Decimal(2)**-digits
                    texts += [str(near + quantum * draw.randint(-12, 12) / 8) for _ in range(5)]
            texts += [f'{draw.choice("+- ").strip()}{draw.random()!r}' for _ in range(5)]
            for format in plain.ieee, plain.ieee.before:
                for text, mode in itertools.product(texts, MODES):
                    with Context(mode) as context:
                        value = format(text)
                    wanted, flags = rounded(format, Fraction(far.get(text, text)), mode)
                    self.assertEqual((number_of(value), context.flags), (wanted, flags), (format, text, mode))
                    with Context(mode):
                        self.assertEqual(value.bits, plain(text).bits)

    def test_long_decimals_with_the_flags_of_ieee(self):
        # Halfway between 1 and the next quad, and a digit above it and below it, after the 12,000th.
        with decimal.localcontext(decimal.Context(prec=200)):
            half_way = decimal.Decimal(1) + decimal.Decimal(2)**-113
        text = str(half_way) + '0' * 13_000
        next_up = apfloat.quad(1).next_up().bits
        for suffix, bits in ('', apfloat.quad(1).bits), ('0', apfloat.quad(1).bits), ('1', next_up):
            with Context() as context:
                value = apfloat.quad.ieee(text + suffix)
            self.assertEqual((value.bits, context.flags), (bits, Flags.INEXACT))
        for text in 'one', '', '1e', '1_000', '0.5.5', '--1', 'é':
            for format in apfloat.half.ieee, apfloat.half:
                with self.assertRaises(apfloat.Refused):
                    format(text)
        self.assertTrue(apfloat.half.ieee('nan').is_nan)
        self.assertEqual(apfloat.half.ieee('-inf').bits, 0xfc00)
        self.assertEqual(apfloat.half.ieee('0x1.8p0').bits, 0x3e00)

    def test_digits(self):
        draw = random.Random(8)
        for format in FORMATS:
            if format is apfloat.double_pair:
                continue
            for _ in range(40):
                value = format.from_bits(draw.getrandbits(format.width))
                number = number_of(value)
                if not value.is_finite or not number:
                    self.assertEqual(value.digits(), ('', 0))
                    continue
                with decimal.localcontext(decimal.Context(prec=12_000, Emax=20_000, Emin=-20_000)):
                    exact = decimal.Decimal(abs(number).numerator) / decimal.Decimal(abs(number).denominator)
                text, exponent = value.digits()
                self.assertEqual((text, exponent), (''.join(map(str, exact.normalize(
                    decimal.Context(prec=12_000, Emax=20_000, Emin=-20_000)).as_tuple().digits)), exact.adjusted()))
                count = draw.randint(1, 40)
                with Context(apfloat.TOWARD_ZERO) as context:
                    cut = value.digits(count)
                self.assertEqual(cut, (text[:count].ljust(count, '0'), exponent))
                self.assertEqual(context.flags, Flags.INEXACT if text[count:] else Flags.OK)
        with self.assertRaises(ValueError):
            apfloat.half(1).digits(0)

    def test_pairs_and_formats(self):
        draw = random.Random(10)
        for _ in range(100):
            high = draw.uniform(-1, 1) * 2.0**draw.randint(-100, 100)
            pair = apfloat.double_pair(high) + apfloat.double_pair(math.ulp(high) * draw.randint(-100, 100) / 256)
            number = Fraction(*pair.as_integer_ratio())
            for format in apfloat.half, apfloat.single, apfloat.quad, apfloat.x87.ieee:
                for mode in MODES:
                    with Context(mode) as context:
                        value = format.from_pair(pair)
                    wanted, flags = rounded(format, number, mode)
                    self.assertEqual((number_of(value), context.flags), (wanted, flags))
            self.assertEqual(apfloat.quad.from_pair(pair).as_pair().bits, pair.bits)
            self.assertEqual(apfloat.double_pair(pair.shortest_of_pair()).bits, pair.bits)
        with self.assertRaises(ValueError):
            apfloat.half.from_pair(apfloat.half(1))

    def test_hexadecimal_places(self):
        draw = random.Random(9)
        for _ in range(100):
            number = draw.uniform(-1, 1) * 2.0**draw.randint(-900, 900)
            value = apfloat.double(number)
            with Context() as context:
                self.assertEqual(float.fromhex(value.hex(13)), number)
            self.assertEqual(context.flags, Flags.OK)
        with self.assertRaises(apfloat.Refused):
            apfloat.half(1).hex(32)

    def test_whole_numbers_are_shown_in_full(self):
        draw = random.Random(6)
        for format in FORMATS:
            top = largest_of(format)
            for _ in range(100):
                number = rounded(format, Fraction(draw.randint(0, min(int(top), 2 * 10**16)) >> draw.randint(0, 50)),
                                 Rounding.NEAREST_EVEN)[0]
                value = format(int(number))
                self.assertEqual(number_of(value), number)
                if number < 10**16:
                    self.assertEqual(str(value), f'{number}.0')
                    if number:
                        self.assertEqual(str(-value), f'-{number}.0')
                self.assertEqual(format(str(value)).bits, value.bits)
        self.assertEqual(str(apfloat.e4m3fn(448)), '448.0')
        self.assertEqual(repr(apfloat.half(65504)), "half('65504.0')")
        self.assertEqual(str(apfloat.single(10**16)), '10000000000000000.0')
        self.assertEqual(str(apfloat.half('-0')), '-0.0')

    def test_doubles_are_shown_as_by_python(self):
        draw = random.Random(7)
        for bits in drawn(apfloat.double, draw, 1000):
            number = struct.unpack('<d', struct.pack('<Q', bits))[0]
            if math.isfinite(number):
                value = apfloat.double.from_bits(bits)
                self.assertEqual(decimal.Decimal(str(value)), decimal.Decimal(repr(number)))
                self.assertEqual(float(value), number)

    def read_back(self, shown):
        return eval(shown, {name: getattr(apfloat, name) for name in apfloat.__all__})

    def test_repr_reads_back(self):
        draw = random.Random(8)
        for format in FORMATS + [apfloat.double_pair, apfloat.half.ieee, apfloat.double.ieee.before]:
            if format.width == 8:
                patterns = list(range(256))
            else:
                patterns = [draw.getrandbits(format.width) for _ in range(300)]
                top = (1 << format.width - 1) - (1 << format.width - 6)
                patterns += [top | draw.getrandbits(format.width - 6) for _ in range(50)]
                patterns += [0, 1 << format.width - 1, 1 << 63 & (1 << format.width) - 1]
            if format is apfloat.double_pair:
                patterns += [apfloat.double_pair(n).bits | low << 64 for n in (1, -1) for low in (0, 1 << 63, 1)]
            for bits in patterns:
                value = format.from_bits(bits)
                again = self.read_back(repr(value))
                self.assertEqual((again.format, again.bits), (format, bits))
            values = format.from_bits([patterns[:20], patterns[20:40]])
            again = self.read_back(repr(values))
            self.assertEqual((bytes(again), again.shape), (bytes(values), (2, 20)))

    def test_repr_of_arrays(self):
        for shape in (), (0,), (3,), (0, 3), (3, 0), (2, 0, 3), (2, 3, 1), (1, 1, 1, 6):
            xs = apfloat.half.array([0.5 * n for n in range(math.prod(shape))]).reshape(shape)
            again = self.read_back(repr(xs))
            self.assertEqual((bytes(again), again.shape), (bytes(xs), shape), repr(xs))
        self.assertEqual(repr(apfloat.e4m3fn.array([[448, -1], [0.5, 2]])),
                         "e4m3fn.array([['448.0', '-1.0'], ['0.5', '2.0']])")


    def test_widths(self):
        for text, bits in ('0.1', 0x2e66), ('-0.1', 0xae66), ('1e-7', 0x0002), ('inf', 0x7c00), ('448.0', 0x5f00):
            value = apfloat.half.from_bits(bits)
            self.assertEqual(str(value), text)
            for width in '', '1', '8', '12':
                for alignment in '', '<', '>', '^', '*<', '=>', '0^', '{<':
                    # A number that is aligned as nothing else is asked for is on the right, as Python's floats are.
                    wanted = format(text, (alignment or '>') + width)
                    self.assertEqual(format(value, alignment + width), wanted, (text, alignment, width))
            if 'e' not in text:
                # The texts of these numbers are those of Python's floats.
                for spec in '+', ' ', '-', '+8', ' >8', '08', '+08', '=8', '*=+8', '<08', '*<08', '-08', '0', '=':
                    self.assertEqual(format(value, spec), format(float(text), spec), (text, spec))
        self.assertEqual(f'{apfloat.half("1e-7"):+}|{apfloat.half("1e-7"):06}', '+1e-7|001e-7')
        self.assertEqual(f'{apfloat.half(0.1):>8}', '     0.1')
        self.assertEqual(f'{apfloat.half(0.1):8}', '     0.1')
        self.assertEqual(f'{apfloat.double_pair(1) / 3:>45}', '  0.3333333333333333 + 1.8503717077085944e-17')
        # With a precision or a type, the digits are those of the value.
        self.assertEqual(f'{apfloat.half(0.1):10.4f}|{apfloat.half(0.1):f}', '    0.1000|0.0999755859375')
        for wrong in '>8s', '8x', '>>>8':
            with self.assertRaises(ValueError):
                format(apfloat.half(1), wrong)

    def test_infinities(self):
        for text in 'inf', 'INFINITY', '+Inf', '-inf', '-INFINITY', '-Inf', 'Infinity', '+infinity', '-iNF':
            self.assertEqual(apfloat.half(text).bits, 0xfc00 if text[0] == '-' else 0x7c00)
            self.assertEqual(apfloat.half.ieee(text).bits, 0xfc00 if text[0] == '-' else 0x7c00)
        for text, bits in ('+nan', 0x7e00), ('-NaN', 0xfe00), ('SNAN', 0x7d00), ('+NAN(0X7)', 0x7e07):
            self.assertEqual(apfloat.half(text).bits, bits)
        for text in 'Infinit', '+-inf', 'na', '', 'ınf':
            with self.assertRaises(apfloat.Refused):
                apfloat.half(text)


class SignTests(unittest.TestCase):
    """Signs of all values, minima, maxima, and NaNs with a payload, which raise no flag."""

    def patterns(self, format):
        """Bits of zeros, numbers, infinities and quiet and signaling NaNs of each sign."""
        if format.width == 8:
            return list(range(0, 256, 3)) + [0x7c, 0x7d, 0x7f, 0x80, 0xfc, 0xfd, 0xff]
        draw = random.Random(format.code)
        with Context():
            texts = '0', '1', '1.5', 'inf', 'nan', 'nan(0x5)', 'snan(0x3)', '1e-40'
            positive = [format(text).bits for text in texts] + [format.from_bits(1).bits]
        drawn_ones = list(drawn(format, draw, 20)) if format is not apfloat.x87 else []
        return positive + [bits | 1 << format.width - 1 for bits in positive] + drawn_ones

    def is_minus(self, format, bits):
        return bool(bits >> format.width - 1) and not (format in UNSIGNED_ZERO and bits == 0x80)

    def test_signs_of_values(self):
        for format in FORMATS + [apfloat.half.ieee, apfloat.double.ieee.before]:
            patterns, top = self.patterns(format), 1 << format.width - 1
            with Context() as context:
                for bits in patterns:
                    value = format.from_bits(bits)
                    self.assertIs(value.is_negative, self.is_minus(format, bits), value)
                    for sign in patterns[::5]:
                        wanted = bits & ~top | sign & top
                        if format in UNSIGNED_ZERO:
                            # Zero and the NaN have no sign.
                            minus = self.is_minus(format, sign)
                            wanted = bits if bits in (0, 0x80) else bits & 0x7f | minus << 7
                        self.assertEqual(value.copy_sign(format.from_bits(sign)).bits, wanted, (value, sign))
                array, signs = format.from_bits(patterns), format.from_bits(patterns[::-1])
                self.assertEqual([value.bits for value in array.copy_sign(signs)],
                                 [x.copy_sign(y).bits for x, y in zip(array, signs)])
                self.assertEqual([value.bits for value in array.copy_sign(-1)],
                                 [x.copy_sign(-1.0).bits for x in array])
            self.assertEqual(context.flags, Flags.OK)
        stretched = apfloat.half.array([[1], [-2]]).copy_sign([1, -1, 0])
        self.assertEqual(integers(stretched), [[1, -1, 1], [2, -2, 2]])
        pair = apfloat.double_pair(1) / 3
        self.assertEqual(pair.copy_sign(-1).bits, (-pair).bits)
        self.assertEqual(apfloat.double_pair.array([pair, -pair]).copy_sign(1).tolist(), [pair, pair])
        self.assertTrue(apfloat.double_pair('-nan').is_negative)
        for wrong in apfloat.single(1), '1', None, apfloat.half.array([1]):
            with self.assertRaises(TypeError):
                apfloat.half(1).copy_sign(wrong)

    def test_minima_and_maxima(self):
        for format in FORMATS + [apfloat.single.ieee]:
            patterns = self.patterns(format)
            infinite = {format(text).bits: float(text) for text in ('inf', '-inf') if format(text).is_infinite}
            numbers = [infinite.get(bits, number_of_bits(format, bits)) for bits in patterns]
            with Context() as context:
                for (x, left), (y, right) in itertools.product(zip(patterns, numbers), repeat=2):
                    first, second = format.from_bits(x), format.from_bits(y)
                    if left is None or right is None:
                        number = y if left is None else x
                        lesser, greater, nan = number, number, x if left is None else y
                        lowest = highest = nan
                    elif left == right:
                        # Zeros of opposite signs are equal: minimum and maximum have an order for them.
                        lesser = greater = x
                        lowest, highest = (max(x, y), min(x, y)) if left == 0 else (x, x)
                    else:
                        lesser, greater = (x, y) if left < right else (y, x)
                        lowest, highest = lesser, greater
                    found = first.fmin(second), first.fmax(second), first.minimum(second), first.maximum(second)
                    self.assertEqual([value.bits for value in found], [lesser, greater, lowest, highest], (x, y))
            self.assertEqual(context.flags, Flags.OK)
        self.assertEqual(apfloat.half(1).fmin(0.5), 0.5)
        pair = apfloat.double_pair
        above = pair('1.0 + 1e-20')
        for greater in pair(1).maximum(above), pair(1).fmax(above), above.maximum(1), above.fmax(1):
            self.assertEqual(greater.bits, above.bits)
        for lesser in pair(1).minimum(above), pair(1).fmin(above), above.minimum(1), above.fmin(1):
            self.assertEqual(lesser, 1)
        with self.assertRaises(ValueError):
            apfloat.half(1).maximum(0.1)
        with self.assertRaises(TypeError):
            apfloat.half(1).minimum(apfloat.single(1))

    def test_payloads(self):
        for format in FORMATS + [apfloat.half.ieee, apfloat.quad.ieee.before]:
            name, (digits, _, _) = name_of(format), LIMITS[name_of(format)]
            for payload, negative, signaling in itertools.product((0, 1, 0x12, 1 << 40, -1 % (1 << 128)), (False, True),
                                                                  (False, True)):
                with Context() as context:
                    value = format.nan(payload, negative=negative, signaling=signaling)
                self.assertEqual(context.flags, Flags.OK)
                if format in UNSIGNED_ZERO:
                    wanted = 0x80
                elif name == 'e4m3fn':
                    wanted = 0x7f | negative << 7
                else:
                    # Below the quiet bit there is room for so many bits.
                    room = digits - 2
                    fitting = payload & (1 << room) - 1
                    if signaling and not fitting:
                        fitting = 1 << room - 1
                    quiet = 0 if signaling else 1 << room
                    top = (1 << format.width - 1) - (1 << (digits if name == 'x87' else digits - 1))
                    integer_bit = 1 << 63 if name == 'x87' else 0
                    wanted = negative << format.width - 1 | top | integer_bit | quiet | fitting
                self.assertEqual(value.bits, wanted, (format, payload, negative, signaling))
        self.assertEqual(apfloat.double_pair.nan(5, negative=True).bits, 0xfff8000000000005)
        self.assertEqual(apfloat.half.nan().bits, apfloat.half('nan').bits)
        with self.assertRaises(ValueError):
            apfloat.half.nan(-1)
        with self.assertRaises(TypeError):
            apfloat.half.nan(0.5)

    def test_rows(self):
        # The stored rows of these calls (docs/PROGRAMS.md), in the formats that have bits.
        methods = {'copy_sign': 'copy_sign', 'min': 'fmin', 'max': 'fmax', 'minimum': 'minimum', 'maximum': 'maximum'}
        compared = collections.Counter()
        with open(os.path.join(HERE, '..', 'tests', 'rows', 'stored'), encoding='utf-8') as file:
            rows = [line.rstrip('\n').split('\t') for line in file if '\t-\t' in line]
        for call, word, _, operands, wanted, *_ in (row for row in rows if len(row) == 7):
            name, *rules = word.split('+')
            format = getattr(apfloat, {'dd': 'double_pair'}.get(name, name), None)
            if not isinstance(format, apfloat.Format):
                continue
            for rule in rules:
                format = getattr(format, rule)
            with Context() as context:
                if call in methods:
                    left, right = [format.from_bits(int(bits, 16)) for bits in operands.split()]
                    found = getattr(left, methods[call])(right).bits
                    wanted = int(wanted, 16)
                elif call in ('qnan', 'snan'):
                    payload = 0 if operands == 'None' else int(operands, 16)
                    found, wanted = format.nan(payload, signaling=call == 'snan').bits, int(wanted, 16)
                elif call == 'is_negative':
                    found, wanted = format.from_bits(int(operands, 16)).is_negative, wanted == 'true'
                else:
                    continue
            self.assertEqual((found, context.flags), (wanted, Flags.OK), (call, word, operands))
            compared[call] += 1
        self.assertEqual(set(compared), {*methods, 'qnan', 'snan', 'is_negative'})
        self.assertTrue(all(count > 50 for count in compared.values()), compared)

    def test_machines(self):
        # The NaNs of two operands as the manuals have them, and the integers of invalid conversions (docs/MACHINES.md).
        quiet, signaling = apfloat.single.from_bits(0x7fc00001), apfloat.single.from_bits(0xffa00002)
        sums = {'x86': 0x7fc00001, 'x87': 0x7fc00001, 'arm': 0xffe00002, 'arm_default_nan': 0x7fc00000,
                'arm_alternate': 0x7fc00001, 'risc_v': 0x7fc00000, 'power': 0x7fc00001, 's390x': 0xffe00002,
                'arm_alternate_default_nan': 0xffc00000, 'webassembly': 0x7fc00000, 'ptx': 0x7fffffff,
                'mips_2008': 0xffe00002, 'loongarch': 0xffe00002, 'sparc': 0xffe00002, 'm68k': 0x7fc00001}
        invalid = {'x86': (-1 << 31, (1 << 32) - 1), 'arm': ((1 << 31) - 1, (1 << 32) - 1),
                   'risc_v': ((1 << 31) - 1, (1 << 32) - 1), 's390x': ((1 << 31) - 1, (1 << 32) - 1)}
        infinity = apfloat.single('inf')
        for name, bits in sums.items():
            with Context() as context:
                self.assertEqual(apfloat.machine(name).delivers('add', quiet, signaling).bits, bits, name)
            self.assertEqual(context.flags, Flags.INVALID_OP, name)
        for name, integers in invalid.items():
            machine = apfloat.machine(name)
            with Context() as context:
                found = machine.to_integer(infinity, 32), machine.to_integer(infinity, 32, signed=False)
            self.assertEqual(found, integers, name)
            self.assertEqual(context.inexact, name == 's390x', name)
        # (1 - 2^-10) * (1 + 2^-10) * 2^-14 is 2^-14 - 2^-34: tiny, and no more when it is rounded to 11 digits.
        for name, is_tiny in (('arm', True), ('x86', False)):
            with Context() as context:
                product = apfloat.machine(name).delivers('mul', apfloat.half.from_bits(0x3bfe),
                                                         apfloat.half.from_bits(0x0401))
            self.assertEqual((product.bits, context.underflow, context.inexact), (0x0400, is_tiny, True), name)
        with self.assertRaises(apfloat.Refused) as caught:
            apfloat.machine('x87').to_integer(infinity, 32, signed=False)
        self.assertEqual(caught.exception.code, 10)
        with self.assertRaises(apfloat.Refused):
            apfloat.machine('arm').delivers('add', apfloat.e4m3fn(1), apfloat.e4m3fn(1))
        for name in 'arm default nan', 'arm-default-nan', 'risc-v', 'riscv':
            self.assertIn(repr(apfloat.machine(name)), ("machine('arm_default_nan')", "machine('risc_v')"))
        with self.assertRaises(ValueError):
            apfloat.machine('mips')
        with self.assertRaises(ValueError):
            apfloat.machine('arm').delivers('sqrt', infinity, infinity)

    def test_rows_of_machines(self):
        # The stored rows of what machines give (docs/PROGRAMS.md) that are not flushed, in the formats that the library
        # for C has there.
        offered = {'half', 'single', 'double', 'quad', 'bfloat', 'e5m2', 'x87'}
        modes = {'even': apfloat.NEAREST_EVEN, 'up': apfloat.UPWARD, 'down': apfloat.DOWNWARD,
                 'zero': apfloat.TOWARD_ZERO, 'away': apfloat.NEAREST_AWAY, '-': apfloat.NEAREST_EVEN}
        operations = {'add_r': 'add', 'sub_r': 'sub', 'wide_mul_r': 'mul', 'div_r': 'div', 'ieee_rem': 'remainder',
                      'c_fmod': 'fmod', 'wide_mul_add_r': 'fma', 'sqrt_r': 'sqrt',
                      'round_to_integral': 'round_to_integral', 'round_to_integral_in': 'integral'}
        compared = collections.Counter()

        def found_in(machine, call, formats, operands):
            values = [formats[0].from_bits(int(bits, 16)) for bits in operands.split(' ')]
            if call in operations:
                return machine.delivers(operations[call], *values).bits
            if call == 'convert_r':
                return machine.convert(*values, formats[1]).bits
            which, _, rule = call.partition('_')
            return getattr(machine, which)(rule, *values).bits

        with open(os.path.join(HERE, '..', 'tests', 'rows', 'stored'), encoding='utf-8') as file:
            rows = [line.rstrip('\n').split('\t') for line in file if '@' in line and not line.startswith('#')]
        for call, words, mode, operands, wanted, flags, _ in rows:
            words, _, name = words.partition('@')
            if name.endswith('+ftz') or not offered.issuperset(words.split('>')):
                continue
            machine, formats = apfloat.machine(name), [getattr(apfloat, word) for word in words.split('>')]
            with Context(mode=modes[mode]) as context:
                if call in ('to_u128_r', 'to_i128_r'):
                    bits, width = operands.split(' ')
                    x, signed = formats[0].from_bits(int(bits, 16)), call == 'to_i128_r'
                    found, wanted = machine.to_integer(x, int(width), signed), int(wanted)
                else:
                    found, wanted = found_in(machine, call, formats, operands), int(wanted, 16)
            raised = sum(Flags[flag] for flag in flags.split('|'))
            self.assertEqual((found, context.flags), (wanted, raised), (call, words, name, mode, operands))
            compared[name] += 1
        self.assertEqual(len(compared), 8)
        self.assertGreater(sum(compared.values()), 500)

    def test_rows_of_operations(self):
        # The stored rows of the operations of IEEE 754-2019 (docs/PROGRAMS.md), in the formats that have bits.
        modes = {'even': apfloat.NEAREST_EVEN, 'up': apfloat.UPWARD, 'down': apfloat.DOWNWARD,
                 'zero': apfloat.TOWARD_ZERO, 'away': apfloat.NEAREST_AWAY, '-': apfloat.NEAREST_EVEN}
        orders = {'Less': -1, 'Equal': 0, 'Greater': 1}
        compared = collections.Counter()

        def format_of(word):
            name, *rules = word.split('+')
            format = getattr(apfloat, name, None)
            if not isinstance(format, apfloat.Format):
                return None
            for rule in rules:
                format = getattr(format, rule)
            return format

        def found_and_wanted(call, x, others, target, wanted):
            kind, _, predicate = call.removeprefix('compare_').partition('_')
            of, name = call.removesuffix('_number_of').removesuffix('_of'), call.replace('_', ' ')
            if call.startswith('compare_'):
                return x.holds(predicate.replace('_', ' '), *others, signaling=kind == 'signaling'), wanted == 'true'
            if call == 'total_cmp':
                return x.total_order(*others), orders[wanted]
            if call.endswith('_of') and call != 'class_of':
                return x.extremum(of.replace('_', ' '), *others, 'number' in name).bits, int(wanted, 16)
            if call.endswith('_to'):
                operation = {'mul_add_to': 'fma'}.get(call, call.removesuffix('_to'))
                return x.to_format(operation, target, *others).bits, int(wanted, 16)
            return getattr(x, {'round_to_integral_in': 'integral'}.get(call, call))().bits, int(wanted, 16)

        with open(os.path.join(HERE, '..', 'tests', 'rows', 'stored'), encoding='utf-8') as file:
            rows = [line.rstrip('\n').split('\t') for line in file]
        for call, words, mode, operands, wanted, flags, _ in (row for row in rows if len(row) == 7):
            if not (call.startswith('compare_') or call.endswith(('_of', '_to')) and call != 'class_of'
                    or call in ('total_cmp', 'log_b', 'scale_b', 'round_to_integral_in')):
                continue
            source, *targets = [format_of(word) for word in words.split('>')]
            if source is None or None in targets or targets and call.startswith('compare_'):
                continue
            with Context(mode=modes[mode]) as context:
                if call == 'scale_b':
                    bits, power = operands.split()
                    found, wanted = source.from_bits(int(bits, 16)).scale_b(int(power)).bits, int(wanted, 16)
                else:
                    x, *others = [source.from_bits(int(bits, 16)) for bits in operands.split()]
                    found, wanted = found_and_wanted(call, x, others, targets[0] if targets else None, wanted)
            raised = sum(Flags[flag] for flag in flags.split('|')) if flags != '-' else 0
            self.assertEqual((found, context.flags), (wanted, raised), (call, words, mode, operands))
            compared[call] += 1
        self.assertEqual(len(compared), 22 + 8 + 6 + 4)
        with self.assertRaises(ValueError):
            apfloat.half(1).holds('lesser', 2)
        with self.assertRaises(ValueError):
            apfloat.half(1).to_format('sqrt', apfloat.single, 1)
        with self.assertRaises(apfloat.Refused):
            apfloat.double_pair(1).log_b()

    def test_powers(self):
        self.assertEqual(apfloat.half(3).ldexp(True), 6)
        self.assertEqual(apfloat.half(3).ldexp(-10**30).bits, 0)
        for wrong in 1.5, '1', None, apfloat.half(1), Fraction(1):
            with self.assertRaisesRegex(TypeError, 'ldexp takes an integer'):
                apfloat.half(3).ldexp(wrong)


class ArrayTests(unittest.TestCase):
    """Shapes, signs, orders."""

    def test_long_arrays_of_8_bits(self):
        """They are computed by a table of all results, and so are those of each half without."""
        for format in SMALL:
            lefts = format.from_bits([place >> 8 & 0xff for place in range(1 << 17)])
            rights = format.from_bits([place & 0xff for place in range(1 << 17)])
            for operation in operator.add, operator.sub, operator.mul, operator.truediv:
                whole = operation(lefts, rights)
                half = operation(lefts[:1 << 16], rights[:1 << 16])
                self.assertEqual(bytes(whole), 2 * bytes(half))
                self.assertEqual(whole.counts, {name: 2 * count for name, count in half.counts.items()})

    def test_long_arrays_of_16_bits(self):
        """They are converted by a table of all results, and each half of them without."""
        for source in apfloat.half, apfloat.bfloat:
            values = source.from_bits([place & 0xffff for place in range(1 << 17)])
            for target in SMALL + [apfloat.half, apfloat.bfloat, apfloat.single, apfloat.double]:
                for saturate in False, 'all':
                    whole, half = values.to(target, saturate), values[:1 << 16].to(target, saturate)
                    self.assertEqual(bytes(whole), 2 * bytes(half))
                    self.assertEqual(whole.counts, {name: 2 * count for name, count in half.counts.items()})

    def test_parts(self):
        nested = [[[n * 12 + m * 4 + k for k in range(4)] for m in range(3)] for n in range(2)]
        xs = apfloat.single.array(nested)
        self.assertEqual((xs.shape, xs.ndim, xs.size, len(xs)), ((2, 3, 4), 3, 24, 2))
        self.assertEqual([[[int(k) for k in m] for m in n] for n in xs], nested)
        self.assertEqual(int(xs[1, 2, 3]), 23)
        self.assertEqual(int(xs[-1][-1][-1]), 23)
        for part, wanted in [
                (xs[1], nested[1]),
                (xs[:, 1], [n[1] for n in nested]),
                (xs[..., 2], [[m[2] for m in n] for n in nested]),
                (xs[0, ::-1], nested[0][::-1]),
                (xs[:, 1:, ::2], [[m[::2] for m in n[1:]] for n in nested]),
                (xs[1:0], []),
                (xs[0, None, 2, ...], [nested[0][2]]),
                (xs[-1:, ..., 3:0:-2], [[m[3:0:-2] for m in nested[-1]]])]:
            self.assertEqual(integers(part), wanted)
        self.assertEqual(xs[1:0].shape, (0, 3, 4))
        self.assertEqual(xs[..., None].shape, (2, 3, 4, 1))
        for index in 2, -3, (0, 0, 0, 0), (0, 3), 'a', 1.5:
            with self.assertRaises((IndexError, TypeError)):
                xs[index]
        self.assertEqual(integers(xs.reshape(4, -1)[3]), list(range(18, 24)))
        self.assertEqual(integers(xs.reshape((24,))), list(range(24)))
        for shape in (5, -1), (23,), (-1, -1), (-24, -1):
            with self.assertRaises(ValueError):
                xs.reshape(shape)
        with self.assertRaises(ValueError):
            apfloat.half.array([[1, 2], [3]])

    def test_any_width(self):
        for format in FORMATS + [apfloat.double_pair]:
            xs = format.array([[1, 2, 3], [4, 5, 6]])
            self.assertEqual(integers(xs[:, ::-1]), [[3, 2, 1], [6, 5, 4]])
            self.assertEqual(integers(xs[1] - xs[0]), [3, 3, 3])
            self.assertEqual(integers(xs[:, :1] + xs[0]), [[2, 3, 4], [5, 6, 7]])
            self.assertEqual(integers(-xs), [[-1, -2, -3], [-4, -5, -6]])
            self.assertEqual(integers(abs(-xs)), integers(xs))
            self.assertEqual(integers(xs % -4), [[-3, -2, -1], [0, -3, -2]])
            self.assertEqual((xs > 3).tolist(), [[False] * 3, [True] * 3])
            again = pickle.loads(pickle.dumps(xs))
            self.assertEqual((bytes(again), again.format, again.shape), (bytes(xs), format, (2, 3)))
            self.assertEqual(bytes(copy.deepcopy(xs)), bytes(xs))
            self.assertEqual(bytes(format.from_bits(xs.bits)), bytes(xs))

    def test_elements_are_those_of_values(self):
        draw = random.Random(10)
        for format in FORMATS + [apfloat.double_pair, apfloat.single.ieee.before]:
            top = 1 << format.width - 1
            special = [0, top, top - 1, 2 * top - 1] + [format(text).bits for text in ('1', '-1', 'nan')]
            pairs = [[draw.choice([draw.getrandbits(format.width), draw.choice(special)]) for _ in range(2)]
                     for _ in range(200)]
            xs, ys = [format.from_bits(list(column)) for column in zip(*pairs)]
            for mode, operation in itertools.product(MODES[:3], [operator.add, operator.truediv, operator.mod]):
                counts = collections.Counter(values=len(pairs))
                with Context(mode) as context:
                    found = operation(xs, ys)
                for x, y, result in zip(xs, ys, found):
                    with Context(mode) as one:
                        self.assertEqual(operation(x, y).bits, result.bits, (mode, x, y))
                    counts.update(flag.name.lower() for flag in one.flags)
                    counts['nans'] += result.is_nan
                    self.assertIn(one.flags, context.flags)
                self.assertEqual(found.counts, {name: counts[name] for name in found.counts})

    def test_stretching(self):
        row, column = apfloat.half.array([1, 2, 3]), apfloat.half.array([[10], [20]])
        self.assertEqual(integers(row + column), [[11, 12, 13], [21, 22, 23]])
        self.assertEqual(integers(column.fma(row, 1)), [[11, 21, 31], [21, 41, 61]])
        self.assertEqual(integers(row + apfloat.half.array(5)), [6, 7, 8])
        self.assertEqual(integers([[1], [2]] + row * [0, apfloat.half(1), -1.0]), [[1, 3, -2], [2, 4, -1]])
        self.assertEqual((row + apfloat.half.array([])[:, None]).shape, (0, 3))
        with self.assertRaises(apfloat.Refused) as refused:
            row + apfloat.half.array([1, 2])
        self.assertEqual(refused.exception.code, 6)
        self.assertEqual(str(refused.exception), 'wrong length of an array: shapes (3,) and (2,)')
        with self.assertRaises(TypeError):
            row + apfloat.single.array([1, 2, 3])
        for wrong in 0.1, [1, 0.1, 2]:
            with self.assertRaises(ValueError):
                row + wrong
        for wrong in '1', ['1', '2', '3'], None:
            with self.assertRaises(TypeError):
                row + wrong

    def test_signs(self):
        for format in SMALL + [apfloat.half]:
            top = 1 << format.width - 1
            patterns = range(0, 2 * top, 1 if format.width == 8 else 51)
            every = format.from_bits(patterns)
            kept = {0, 0x80} if format in UNSIGNED_ZERO else set()
            negated = [bits if bits in kept else bits ^ top for bits in patterns]
            without = [bits if bits in kept else bits & top - 1 for bits in patterns]
            self.assertEqual([value.bits for value in -every], negated)
            self.assertEqual([value.bits for value in abs(every)], without)
            self.assertEqual([(-value).bits for value in every], negated)
            self.assertEqual([abs(value).bits for value in every], without)

    def test_signs_of_pairs(self):
        # A low double that is no number but zero keeps its bits.
        lows = [0.0, -0.0, 5e-324, -1e-20, math.inf, -math.inf, math.nan]
        for high, low in itertools.product((1.5, -1.5, 0.0, -0.0, math.inf, math.nan), lows):
            first, second = [apfloat.double(part).bits for part in (high, low)]
            value = apfloat.double_pair.from_bits(first | second << 64)
            if low and math.isfinite(low):
                second ^= 1 << 63
            negated = apfloat.double_pair.from_bits(first ^ 1 << 63 | second << 64)
            without = negated if first >> 63 else value
            self.assertEqual((-value).bits, negated.bits)
            self.assertEqual(abs(value).bits, without.bits)
            array = apfloat.double_pair.from_bits([value.bits])
            self.assertEqual([(-array)[0].bits, abs(array)[0].bits], [negated.bits, without.bits])

    def test_orders(self):
        comparisons = [operator.eq, operator.ne, operator.lt, operator.le, operator.gt, operator.ge]
        for format in SMALL:
            # Zeros, numbers, infinities and NaNs of each sign.
            patterns = [*range(0, 256, 13), 0x7c, 0x7e, 0x7f, 0x80, 0xfc, 0xff]
            every = format.from_bits(patterns)
            infinite = {0x7c: math.inf, 0xfc: -math.inf} if format is apfloat.e5m2 else {}
            numbers = [number_of(value) for value in every]
            numbers = [infinite.get(bits, math.nan) if each is None else each for bits, each in zip(patterns, numbers)]
            for compare in comparisons:
                found = compare(every[:, None], every)
                self.assertEqual(found.shape, (len(patterns), len(patterns)))
                self.assertEqual(found.tolist(), [[compare(x, y) for y in numbers] for x in numbers])
                for other in 1, 0.1, Fraction(1, 3), -math.inf, math.nan, 10**40, apfloat.double(0.5), apfloat.quad(1):
                    exact = number_of(other) if isinstance(other, apfloat.Value) else other
                    self.assertEqual(compare(every, other).tolist(), [compare(x, exact) for x in numbers])
                    self.assertEqual(compare(other, every).tolist(), [compare(exact, x) for x in numbers])
        xs = apfloat.half.array([0.1, 0.5, 2])
        self.assertEqual((xs == apfloat.double.array([0.1, 0.5, 2])).tolist(), [False, True, True])
        self.assertEqual((xs == apfloat.half.ieee.array([0.1, 0.5, 2])).tolist(), [True, True, True])
        self.assertEqual((xs >= apfloat.double_pair(0.5)).tolist(), [False, True, True])
        self.assertEqual((apfloat.double_pair.array([1, 2]) < apfloat.half(2)).tolist(), [True, False])
        self.assertEqual((xs == [0.1, 0.5, 2]).tolist(), [False, True, True])
        self.assertEqual((xs == [apfloat.half(0.1), apfloat.double(0.5), math.nan]).tolist(), [True, True, False])
        with self.assertRaises(ValueError):
            xs == [10**40 + 1, 1, 2]
        self.assertEqual((xs < [[1], [0.25]]).tolist(), [[True, True, False], [True, False, False]])
        self.assertIs(xs == 'text', False)
        self.assertIs(xs == ['a', 'b', 'c'], False)
        self.assertIs(xs != None, True)  # noqa: E711
        with self.assertRaises(TypeError):
            xs < 'text'
        with self.assertRaises(TypeError):
            hash(xs)

    def test_masks(self):
        xs = apfloat.half.array([[1, 2], [3, 4]])
        mask = xs > 2
        self.assertEqual((mask.any(), mask.all(), mask.sum(), mask.shape), (True, False, 2, (2, 2)))
        self.assertEqual((mask.any(axis=1), mask.all(axis=1), mask.sum(axis=0)), ([False, True], [False, True], [1, 1]))
        self.assertEqual((mask[:0].any(), mask[:0].all(), mask[:0].sum(axis=0)), (False, True, [0, 0]))
        self.assertEqual((mask & (xs < 4)).tolist(), [[False, False], [True, False]])
        self.assertEqual((mask | True).all(), True)
        self.assertEqual((~mask == (xs <= 2)).all(), True)
        self.assertEqual((mask ^ mask).any(), False)
        self.assertEqual(integers(xs[mask]), [3, 4])
        self.assertEqual(xs[xs > 9].shape, (0,))
        self.assertEqual((mask[0].tolist(), mask[1, 1]), ([False, False], True))
        self.assertTrue(bool((xs == xs[0, 0])[0, :1]))
        self.assertEqual(eval(repr(mask), {'Mask': Mask}).tolist(), mask.tolist())
        with self.assertRaises(ValueError):
            bool(mask)
        with self.assertRaises(IndexError):
            xs[0][mask]

    def test_counts_of_lists(self):
        with Context() as context:
            xs = apfloat.e4m3fn.array([1 / 3, '1e9', -10**9, 2, 'nan', apfloat.double(-500)], saturate=True)
        self.assertEqual([number_of(x) for x in xs[1:4]], [448, -448, 2])
        self.assertEqual(number_of(xs[5]), -448)
        self.assertEqual(xs.counts, {'values': 6, 'inexact': 4, 'underflow': 0, 'overflow': 3, 'div_by_zero': 0,
                                     'invalid_op': 0, 'nans': 1})
        self.assertEqual(context.flags, Flags.INEXACT | Flags.OVERFLOW)
        floats = apfloat.e4m3fn.array([1 / 3, 1e9, -1e9, 2.0])
        self.assertEqual((floats.counts['overflow'], floats.counts['nans'], floats.counts['inexact']), (2, 2, 3))

    def test_refusals(self):
        for wrong in -1, 1 << 16, [1, 1 << 16]:
            with self.assertRaises(ValueError):
                apfloat.half.from_bits(wrong)
        with self.assertRaises(TypeError):
            apfloat.half.from_bits(1.5)
        with self.assertRaises(ValueError):
            apfloat.half.from_bits(b'abc')
        for codes in b'ab', bytearray(b'ab'), memoryview(b'ab'):
            for format in apfloat.half, apfloat.e4m3fn, apfloat.float4_e2m1fn:
                with self.assertRaisesRegex(TypeError, 'from_bits'):
                    format.array(codes)
        with self.assertRaises(TypeError):
            apfloat.half.array([None])
        with self.assertRaises(TypeError):
            apfloat.half.array([1]).to('single')
        with self.assertRaises(ValueError):
            Context(mode=7)
        with self.assertRaises(apfloat.Refused):
            apfloat.double_pair.array([1]).to(apfloat.half)
        # The texts that include/apfloat.h has for the codes.
        texts = ['unknown format', 'unknown rounding mode', 'the format does not have the operation',
                 'an integer cannot have this width', 'the text was refused', 'wrong length of an array',
                 'unknown error code', 'unknown machine', 'an operand is wider than its format',
                 'the machine does not have the operation', 'arrays overlap', 'wrong control word', 'code 13']
        self.assertEqual([str(apfloat.Refused(code)) for code in range(1, 14)], texts)
        again = pickle.loads(pickle.dumps(apfloat.Refused(5)))
        self.assertEqual((str(again), again.code), ('the text was refused', 5))

    def test_names_of_ml_dtypes(self):
        self.assertIs(apfloat.bfloat16, apfloat.bfloat)
        self.assertIs(apfloat.float8_e5m2, apfloat.e5m2)
        self.assertIs(apfloat.float8_e4m3fn, apfloat.e4m3fn)
        self.assertIs(apfloat.float8_e4m3fnuz, apfloat.e4m3fnuz)
        self.assertIs(apfloat.float8_e4m3, apfloat.e4m3)
        self.assertIs(apfloat.float8_e5m2fnuz, apfloat.e5m2fnuz)
        self.assertIs(apfloat.float8_e4m3b11fnuz, apfloat.e4m3b11fnuz)


class TensorTests(unittest.TestCase):
    """What long arrays are made of, asked and changed by."""

    def test_integers(self):
        draw = random.Random(11)
        for code in 'bBhHiIlLqQ':
            bits = 8 * array.array(code).itemsize
            least, past = (-1 << bits - 1, 1 << bits - 1) if code.islower() else (0, 1 << bits)
            numbers = [least, past - 1, 0, 1, past // 2, past // 3]
            numbers += [draw.randrange(least, past) >> draw.randrange(bits) for _ in range(40)]
            for items in numbers, [number for number in numbers if abs(number) <= 1 << 53]:
                made = array.array(code, items)
                for format in FORMATS:
                    for mode in MODES[:2] if code in 'bHiq' else MODES[:1]:
                        with Context(mode) as context:
                            found = format.array(made)
                        expected = [rounded(format, Fraction(item), mode) for item in items]
                        wanted = [number for number, _ in expected]
                        self.assertEqual([number_of(value) for value in found], wanted, (code, format, mode))
                        self.assertEqual(found.counts['inexact'], sum(bool(flags) for _, flags in expected))
                        self.assertEqual(context.flags, functools.reduce(operator.or_, [each for _, each in expected]))
                        self.assertFalse(any(value.is_negative for value, item in zip(found, items) if item == 0))
                if bits < 64:
                    view = memoryview(array.array(code, items[:6])).cast('B').cast(code, [2, 3])
                    if code != 'B':
                        self.assertEqual(integers(apfloat.double.array(view)), [items[:3], items[3:6]])
                self.assertEqual(integers(apfloat.quad.array(list(items))), items)
                self.assertEqual(integers(apfloat.quad.array([items, items])), [items, items])
        self.assertEqual(integers(apfloat.quad.array([1 << 64, -1 << 100])), [1 << 64, -1 << 100])
        self.assertEqual(apfloat.double.array([0.5, 1 << 60, True]).tolist(), [0.5, 1 << 60, 1])
        self.assertEqual(apfloat.half.array([0.5, 3, True]).tolist(), [0.5, 3, 1])
        self.assertEqual(apfloat.float4_e2m1fn.array(array.array('h', [1, -6, 100])).tolist(), [1, -6, 6])
        self.assertEqual(apfloat.half.array(array.array('f', [0.1, 2])).tolist(), [apfloat.half(0.1), 2])
        self.assertIsNone(apfloat.double.array(array.array('d', [0.1])).counts)
        self.assertEqual(apfloat.half(Fraction(-1, 3)), apfloat.half(-1) / 3)
        with self.assertRaises(TypeError):
            apfloat.half.array(array.array('u', 'ab'))

    def test_operands_of_integers(self):
        xs = apfloat.e4m3fn.array([1, 2, 3])
        self.assertEqual(integers(xs + [1, 2, 3]), [2, 4, 6])
        with self.assertRaisesRegex(ValueError, '1 of 3 values are no values of e4m3fn'):
            xs + [1, 2, 17]

    def test_codes(self):
        for format in FORMATS + StoredTests.STORED_FORMATS:
            length = format._bytes
            codes = [code & (1 << format.width) - 1 for code in (0, 1, 2, 5, 0x31, (1 << format.width) - 1)]
            data = b''.join(code.to_bytes(length, 'little') for code in codes)
            for given in codes, tuple(codes), data, bytearray(data), memoryview(data):
                self.assertEqual(bytes(format.from_bits(given)), data)
            self.assertEqual(format.from_bits([codes[:3], codes[3:]]).shape, (2, 3))
            for wrong in [1 << format.width], [-1], [0.5], ['1']:
                with self.assertRaises((ValueError, TypeError)):
                    format.from_bits(wrong)
            if format.width < 8 * length:
                with self.assertRaisesRegex(ValueError, 'bits'):
                    format.from_bits((1 << format.width).to_bytes(length, 'little'))
        view = memoryview(array.array('H', [0x3c00, 0x4000])).cast('B').cast('H', [2, 1])
        self.assertEqual(integers(apfloat.half.from_bits(view)), [[1], [2]])

    def test_orders_of_all_formats(self):
        draw = random.Random(12)
        comparisons = [operator.eq, operator.ne, operator.lt, operator.le, operator.gt, operator.ge]
        for left, right in [(format, format) for format in FORMATS] + [
                (apfloat.half, apfloat.bfloat), (apfloat.tf32, apfloat.e4m3fn), (apfloat.double, apfloat.x87),
                (apfloat.single, apfloat.double), (apfloat.half.ieee, apfloat.half), (apfloat.x87, apfloat.quad)]:
            texts = ['0', '-0', '1', '-1', '1.5', 'inf', '-inf', 'nan', '0.001', '-0.001']
            with Context():
                xs, ys = [format.array(texts + [str(draw.uniform(-3, 3)) for _ in range(10)])
                          for format in (left, right)]
                lows = [format.from_bits([1, format(-1).bits - format(1).bits | 1]) for format in (left, right)]
            columns = [list(array) + list(low) for array, low in zip((xs, ys), lows)]
            xs, ys = [format.from_bits([value.bits for value in column])
                      for format, column in zip((left, right), columns)]
            for compare in comparisons:
                found = compare(xs[:, None], ys).tolist()
                self.assertEqual(found, [[compare(x, y) for y in columns[1]] for x in columns[0]], (left, right))
        for format in FORMATS + [apfloat.double_pair]:
            with Context():
                xs = format.array(['0', '-0', '1', '-1', '1.5', 'inf', '-inf', 'nan', '0.001', '3'])
                below = format(1).next_down()
            near = Fraction(*below.as_integer_ratio()) / 2 + Fraction(1, 2)
            for compare, other in itertools.product(comparisons, [
                    0, 1, near, -near, 10**6000, -10**6000, math.inf, math.nan, Fraction(1, 10**6000), 0.001]):
                self.assertEqual(compare(xs, other).tolist(), [compare(x, other) for x in xs], (format, other))
        # Longer than what is taken at once.
        xs = apfloat.half.from_bits([place & 0xffff for place in range(70_000)])
        wanted = [number is not None and number > Fraction(1, 3) for number in
                  (number_of_bits(apfloat.half, bits) for bits in range(1 << 16))]
        wanted[0x7c00] = True
        self.assertEqual((xs > Fraction(1, 3)).tolist(), wanted + wanted[:70_000 - 65536])

    def test_order_of_axes(self):
        for format in apfloat.half, apfloat.x87, apfloat.quad, apfloat.e4m3fn:
            numbers = [[[n * 6 + m * 3 + k for k in range(3)] for m in range(2)] for n in range(2)]
            xs = format.array(numbers)
            self.assertEqual(integers(xs.T),
                             [[[numbers[n][m][k] for n in range(2)] for m in range(2)] for k in range(3)])
            for given in (1, 2, 0), ((1, 2, 0),), (-2, -1, 0):
                self.assertEqual(integers(xs.transpose(*given)),
                                 [[[numbers[n][m][k] for n in range(2)] for k in range(3)] for m in range(2)])
        self.assertEqual(apfloat.half.array([]).reshape(0, 3).T.shape, (3, 0))
        self.assertEqual((xs > 3).T.shape, (3, 2, 2))
        for wrong in (0,), (0, 0, 1), (0, 1, 3), ('a', 1, 2):
            with self.assertRaises((ValueError, TypeError)):
                xs.transpose(*wrong)

    def test_lists_of_indices(self):
        numbers = [[n * 4 + k for k in range(4)] for n in range(3)]
        for format in apfloat.half, apfloat.x87, apfloat.e4m3fn, apfloat.quad:
            xs = format.array(numbers)
            self.assertEqual(integers(xs[[2, 0, 2]]), [numbers[2], numbers[0], numbers[2]])
            self.assertEqual(integers(xs[:, [3, -4]]), [[row[3], row[0]] for row in numbers])
            self.assertEqual(integers(xs[1, [3, 1]]), [7, 5])
            self.assertEqual(integers(xs[[0, 1], ::2]), [row[::2] for row in numbers[:2]])
            self.assertEqual(integers(xs[..., range(2)]), [row[:2] for row in numbers])
            self.assertEqual(integers(xs[:, [True, False, True, False]]), [row[::2] for row in numbers])
            self.assertEqual(xs[[]].shape, (0, 4))
            mask = [[(n + k) % 2 == 0 for k in range(4)] for n in range(3)]
            self.assertEqual(integers(xs[mask]), [numbers[n][k] for n in range(3) for k in range(4) if mask[n][k]])
            self.assertEqual(integers(xs[Mask(mask)]), integers(xs[mask]))
        for wrong in [3], [-4], [0.5], ['a'], [[0, 1]], [0, True], ([0], [1]), (0, [4]), [[True], [False]]:
            with self.assertRaises((IndexError, TypeError)):
                xs[wrong]

    def test_assignment(self):
        for format in apfloat.half, apfloat.x87, apfloat.e4m3fn, apfloat.quad, apfloat.double_pair:
            xs = format.array([[1, 2, 3], [4, 5, 6]])
            kept, part = xs.reshape(-1), xs[0]
            xs[0, 0] = 7
            xs[1] = [8, 9, 10]
            xs[:, -1] = format(11)
            self.assertEqual(integers(xs), [[7, 2, 11], [8, 9, 11]])
            xs[:, ::-2] = [[1, 2]]
            self.assertEqual(integers(xs), [[2, 2, 1], [2, 9, 1]])
            xs[xs == 2] = [3, 4, 5]
            self.assertEqual(integers(xs), [[3, 4, 1], [5, 9, 1]])
            xs[xs > 4] = 0
            xs[:, [2, 0]] = xs[:, [0, 2]]
            self.assertEqual(integers(xs), [[1, 4, 3], [1, 0, 0]])
            xs[...] = xs[0]
            xs[[1, 1]] = [[1, 1, 1], [2, 2, 2]]
            self.assertEqual(integers(xs), [[1, 4, 3], [2, 2, 2]])
            self.assertEqual((integers(kept), integers(part)), ([1, 2, 3, 4, 5, 6], [1, 2, 3]))
            before = bytes(xs)
            for index, wrong in [(0, [1, 2]), ((0, 5), 1), (0, apfloat.single(1)), (0, 'text'), ([0, 2], 1),
                                 (xs == 2, [1, 2]), ((0, 0), 10**50 + 1), (0, [1, 2, 10**50 + 1]), (5, 1), (0, None)]:
                with self.assertRaises((ValueError, TypeError, IndexError)):
                    xs[index] = wrong
                self.assertEqual(bytes(xs), before)
        mask = Mask([False, False, True])
        mask[0] = True
        mask[1:] = [False, True]
        self.assertEqual(mask.tolist(), [True, False, True])
        codes = apfloat.float4_e2m1fn.array([1, 2, 3])
        codes[0], codes[1:] = codes[2], apfloat.single.array([0.5, -6])
        self.assertEqual(codes.tolist(), [3, 0.5, -6])
        for wrong in 7, 0.1, math.nan, 'a', [1, 2], apfloat.single(5):
            with self.assertRaises((ValueError, TypeError)):
                codes[0] = wrong
        self.assertEqual(codes.tolist(), [3, 0.5, -6])

    def test_extremes(self):
        draw = random.Random(13)
        for format in FORMATS + [apfloat.double_pair]:
            with Context():
                xs = format.array([[draw.randint(-30, 30) / 8 for _ in range(5)] for _ in range(4)])
            rows = [list(row) for row in xs]
            for name, pick in ('max', max), ('min', min):
                place = [row.index(pick(row)) for row in rows]
                flat = [value for row in rows for value in row]
                self.assertEqual(getattr(xs, name)(), pick(flat))
                self.assertEqual(getattr(xs, 'arg' + name)(), flat.index(pick(flat)))
                for axis in 1, -1:
                    self.assertEqual(getattr(xs, name)(axis=axis).tolist(), list(map(pick, rows)))
                    self.assertEqual(getattr(xs, 'arg' + name)(axis), place)
                self.assertEqual(getattr(xs, name)(0).tolist(), [pick(column) for column in zip(*rows)])
                self.assertEqual(getattr(xs[0], name)(0), pick(rows[0]))
            with Context():
                xs = format.array(['1', 'nan', '2'])
            self.assertTrue(xs.max().is_nan and xs.min().is_nan)
            self.assertEqual((xs.argmax(), xs.argmin()), (1, 1))
        zeros = apfloat.half.array([0.0, -0.0, 0.0])
        self.assertEqual((zeros.argmax(), zeros.argmin(), zeros.min().is_negative), (0, 1, True))
        codes = apfloat.float4_e2m1fn.array([[1, -6], [0.5, 4]])
        self.assertEqual((codes.max(), codes.argmin(), codes.max(0).tolist()), (4, 1, [1, 4]))
        for wrong in apfloat.half.array([]), apfloat.half.array([]).reshape(2, 0):
            with self.assertRaisesRegex(ValueError, 'of none'):
                wrong.max()
        for axis in 2, -3:
            with self.assertRaisesRegex(ValueError, 'no axis of 2'):
                codes.max(axis)

    def test_sums(self):
        # The rows that evidence/reductions.py computes, in the formats that have names.
        compared = collections.Counter()
        with open(os.path.join(HERE, '..', 'tests', 'rows', 'by_crate', 'reductions.tsv'), encoding='utf-8') as file:
            rows = [line.rstrip('\n').split('\t') for line in file if not line.startswith('#')]
        modes = dict(zip(('even', 'up', 'down', 'zero', 'away', 'any', '-'), MODES + MODES[:2]))
        for call, word, mode, operands, wanted, flags, _ in rows:
            name, *rules = word.split('+')
            format = getattr(apfloat, name, None)
            if not format:
                continue
            try:
                for rule in rules:
                    format = getattr(format, rule)
            except ValueError:  # It has no choice of flags.
                continue
            xs, *others = [format.from_bits([int(bits, 16) for bits in words.split() if bits != '-'])
                           for words in operands.split(' / ')]
            with Context(modes[mode]) as context:
                if wanted == 'LengthsDiffer':
                    with self.assertRaisesRegex(ValueError, 'have no product'):
                        xs @ others[0]
                    continue
                found = xs @ others[0] if others else getattr(xs, call)()
            raised = str(context.flags.name or 'OK')
            self.assertEqual((found.bits, raised), (int(wanted, 16), flags), (call, word, operands))
            compared[call] += 1
        self.assertTrue(min(compared.values()) > 150 and len(compared) == 4, compared)

    def test_sums_along_axes(self):
        draw = random.Random(17)
        for format in apfloat.half, apfloat.e5m2, apfloat.double.ieee, apfloat.x87:
            xs = format.array([[draw.randint(-9, 9) / 4 for _ in range(4)] for _ in range(3)])
            ys = format.array([[draw.randint(-9, 9) / 4 for _ in range(2)] for _ in range(4)])
            rows = [list(map(float, row)) for row in xs.tolist()]
            for axis, parts in (0, zip(*rows)), (-1, rows):
                for part, total, square in zip(list(parts), xs.sum(axis), xs.sum_square(axis)):
                    self.assertEqual((total, square), (format(sum(part)), format(sum(each * each for each in part))))
            self.assertEqual(xs.sum(), format(sum(map(sum, rows))))
            product = xs @ ys
            self.assertEqual(product.shape, (3, 2))
            self.assertTrue((product[:, 1] == xs @ ys[:, 1]).all() and (product[2] == xs[2].dot(ys)).all())
            self.assertEqual(product[1, 0], xs[1] @ ys[:, 0])
        empty = apfloat.half.array([]).reshape(2, 0)
        self.assertEqual((empty.sum(), empty.sum(1).tolist()), (0, [0, 0]))
        self.assertEqual((empty @ empty.T).tolist(), [[0, 0], [0, 0]])
        for wrong in ([1, 2], [[1, 2]], 2, 'text'):
            with self.assertRaises((ValueError, TypeError)):
                apfloat.half.array([1, 2, 3]) @ wrong
        for call in 'sum', 'sum_abs', 'sum_square', 'mean':
            with self.assertRaises(apfloat.Refused):
                getattr(apfloat.double_pair.array([1, 2]), call)()

    def test_means(self):
        draw = random.Random(19)
        for format in apfloat.half, apfloat.bfloat, apfloat.e4m3fn, apfloat.single, apfloat.double.ieee, apfloat.quad:
            for mode in MODES:
                xs = format.array([draw.uniform(-8, 8) * 2.0 ** draw.randint(-3, 3) for _ in range(draw.randint(1, 9))])
                exact = sum((value._fraction() for value in xs), Fraction()) / len(xs)
                with Context(mode) as context:
                    found = xs.mean()
                with Context(mode) as wanted:
                    self.assertEqual(found, format(exact))
                self.assertEqual(context.flags, wanted.flags)
        largest = apfloat.double.largest
        self.assertEqual(apfloat.double.array([largest, largest, largest]).mean(), largest)
        self.assertTrue(apfloat.half.array([1, math.nan]).mean().is_nan)
        self.assertEqual(apfloat.half.array([1, -math.inf]).mean(), -math.inf)
        with Context(apfloat.DOWNWARD):
            self.assertTrue(apfloat.half.array([1, -1]).mean().is_negative)
        for wrong in {'axis': 2}, {'dtype': float}, {'out': []}:
            with self.assertRaises((ValueError, TypeError)):
                apfloat.half.array([1, 2]).mean(**wrong)
        with self.assertRaisesRegex(ValueError, 'no mean'):
            apfloat.half.array([]).mean()

    def test_names(self):
        xs = apfloat.half.array([[1, 2, 3], [4, 5, 6]])
        self.assertEqual((xs.dtype, xs.nbytes), (apfloat.half, 12))
        self.assertEqual((apfloat.float4_e2m1fn.array([1, 2]).nbytes, (xs > 1).nbytes), (2, 6))
        self.assertEqual(xs.numbers().tolist(), [[1, 2, 3], [4, 5, 6]])
        self.assertEqual((xs.numbers().format, apfloat.double.array([0.1]).numbers().tolist()), ('f', [0.1]))
        self.assertEqual(apfloat.float4_e2m1fn.array([0.5, -6]).numbers().tolist(), [0.5, -6])
        with self.assertRaisesRegex(ValueError, 'double'):
            apfloat.quad.array(['0.1']).numbers()
        with open(os.path.join(HERE, '..', 'include', 'apfloat.h'), encoding='utf-8') as header, \
                open(os.path.join(HERE, 'pyproject.toml'), encoding='utf-8') as project:
            self.assertIn(f'#define APFLOAT_VERSION "{apfloat.__version__}"', header.read())
            self.assertIn(f'version = "{apfloat.__version__}"', project.read())
        self.assertIn(apfloat.made_by, ('rt', 'rustc'))

    def test_limits(self):
        for format in FORMATS:
            digits, least, _ = LIMITS[format.name]
            limits = apfloat.finfo(format)
            wanted = [largest_of(format), -largest_of(format), Fraction(2)**least, Fraction(2)**least,
                      Fraction(2)**(least + 1 - digits), Fraction(2)**(1 - digits)]
            found = [limits.max, limits.min, limits.smallest_normal, limits.tiny, limits.smallest_subnormal, limits.eps]
            self.assertEqual(list(map(number_of, found)), wanted)
            self.assertEqual((limits.bits, limits.dtype), (format.width, format))
        self.assertEqual([apfloat.finfo(name).resolution for name in ('half', 'single', 'double', 'bfloat16', 'e5m2')],
                         [apfloat.half('0.001'), apfloat.single('1e-6'), 1e-15, apfloat.bfloat('0.01'), 1])
        stored = {'float4_e2m1fn': (4, 6, -6, 1, 0.5, 0.5), 'float6_e2m3fn': (6, 7.5, -7.5, 1, 0.125, 0.125),
                  'float6_e3m2fn': (6, 28, -28, 0.25, 0.0625, 0.25),
                  'float8_e3m4': (8, 15.5, -15.5, 0.25, 2**-6, 2**-4),
                  'float8_e8m0fnu': (8, 2.0**127, 2**-127, 2**-127, 2**-127, 1),
                  'ue4m3': (7, 448, 0, 2**-6, 2**-9, 0.125)}
        for name, wanted in stored.items():
            limits = apfloat.finfo(getattr(apfloat, name).from_bits([0]))
            self.assertEqual((limits.bits, limits.max, limits.min, limits.smallest_normal, limits.smallest_subnormal,
                              limits.eps), wanted)
        for wrong in 'float', 'Context', 1, None:
            with self.assertRaisesRegex(TypeError, 'no format'):
                apfloat.finfo(wrong)

    def test_long_arrays_are_cut(self):
        xs = apfloat.half.array(list(range(1000)))
        self.assertEqual(integers(eval(repr(xs), vars(apfloat))), list(range(1000)))
        xs = apfloat.half.array(list(range(1001)))
        self.assertEqual(repr(xs), "half.array(['0.0', '1.0', '2.0', ..., '998.0', '999.0', '1000.0'])")
        with self.assertRaises(TypeError):
            eval(repr(xs), vars(apfloat))
        self.assertEqual(repr(xs > 1), 'Mask([False, False, True, ..., True, True, True])')
        wide = apfloat.e5m2.array([n % 4 for n in range(2000)]).reshape(2, 1000)
        self.assertEqual(repr(wide), "e5m2.array([['0.0', '1.0', '2.0', ..., '1.0', '2.0', '3.0'], "
                                     "['0.0', '1.0', '2.0', ..., '1.0', '2.0', '3.0']])")
        codes = apfloat.float4_e2m1fn.from_bits([[1] * 2] * 700)
        self.assertEqual(repr(codes), 'float4_e2m1fn.array([[0.5, 0.5], [0.5, 0.5], [0.5, 0.5], ..., [0.5, 0.5], '
                                      '[0.5, 0.5], [0.5, 0.5]])')


class StoredTests(unittest.TestCase):
    """Arrays of storage formats."""

    STORED = (apfloat.float4_e2m1fn, apfloat.float6_e2m3fn, apfloat.float6_e3m2fn, apfloat.float8_e3m4,
              apfloat.float8_e8m0fnu, apfloat.ue4m3)
    STORED_FORMATS = list(STORED)

    def test_each_code_comes_back(self):
        for format in self.STORED:
            every = format.from_bits(range(1 << format.width))
            with Context() as context:
                for wide in apfloat.single, apfloat.bfloat, apfloat.double, apfloat.quad:
                    back = format.array(every.to(wide))
                    lost = [code for code, other in enumerate(bytes(back)) if code != other]
                    # Signaling NaNs become quiet.
                    self.assertEqual(lost, [0x71 + n + sign for sign in (0, 0x80) for n in range(7)]
                                     if format is apfloat.float8_e3m4 else [])
            self.assertEqual(context.inexact, False)

    def test_numbers(self):
        numbers = [[0.7, -5.0], [1000.0, -0.0]]
        codes = apfloat.float4_e2m1fn.array(numbers)
        self.assertEqual(bytes(codes), bytes([1, 14, 7, 8]))
        self.assertEqual((codes.shape, codes.counts['inexact'], codes.counts['overflow']), ((2, 2), 3, 1))
        self.assertEqual(repr(codes), 'float4_e2m1fn.array([[0.5, -4.0], [6.0, -0.0]])')
        self.assertEqual(bytes(eval(repr(codes), vars(apfloat))), bytes(codes))
        self.assertEqual(bytes(codes[1]), bytes([7, 8]))
        self.assertEqual((codes[0, 0].format, codes[0, 0]), (apfloat.single, 0.5))
        self.assertEqual(codes.reshape(-1).tolist(), [0.5, -4, 6, 0])
        self.assertEqual(bytes(pickle.loads(pickle.dumps(codes))), bytes(codes))
        with Context(mode=apfloat.UPWARD) as context:
            self.assertEqual(bytes(apfloat.float4_e2m1fn.array([apfloat.half(0.7), 1, 0.25])), bytes([2, 2, 1]))
        self.assertEqual(context.flags, apfloat.Flags.INEXACT | apfloat.Flags.UNDERFLOW)
        self.assertEqual(bytes(apfloat.float8_e8m0fnu.array(codes.to(apfloat.half) * 2)), bytes([127, 255, 130, 0]))
        self.assertEqual(bytes(apfloat.float6_e3m2fn.array(codes)), bytes([8, 52, 22, 32]))

    def test_saturation(self):
        beyond = [1000.0, math.inf, -math.inf, math.nan]
        for saturate, codes in (False, [0x70, 0x70, 0xf0, 0x78]), (True, [0x6f, 0x70, 0xf0, 0x78]), \
                ('finite', [0x6f, 0x6f, 0xef, 0x78]), ('all', [0x6f, 0x6f, 0xef, 0x6f]):
            self.assertEqual(list(bytes(apfloat.float8_e3m4.array(beyond, saturate))), codes)
            self.assertEqual(list(bytes(apfloat.double.array(beyond).to(apfloat.float8_e3m4, saturate))), codes)
        made = apfloat.float8_e3m4.array(beyond)
        self.assertEqual(repr(made), 'float8_e3m4.from_bits([112, 112, 240, 120])')
        self.assertEqual(made.to(apfloat.e4m3fn, saturate='finite').counts['nans'], 1)
        self.assertEqual(apfloat.e4m3fn.array(made).counts['nans'], 4)

    def test_refused(self):
        with self.assertRaises(ValueError):
            apfloat.float4_e2m1fn.from_bits([16])
        with self.assertRaises(TypeError):
            apfloat.float4_e2m1fn.array(['0.1'])
        with self.assertRaises(TypeError):
            apfloat.single.array([1]).to(32)
        with self.assertRaises(ValueError):
            apfloat.float4_e2m1fn.array([1.0], saturate='some')
        with self.assertRaises(apfloat.Refused):
            apfloat.float4_e2m1fn.from_bits([1]).to(apfloat.ue4m3)

    @unittest.skipUnless(numpy, 'there is no numpy')
    def test_numpy(self):
        tensor = numpy.array([[0.7, -5], [1000, -0.0]], numpy.float32)
        codes = apfloat.float4_e2m1fn.array(tensor, saturate=True)
        self.assertEqual(codes.bits.dtype, numpy.uint8)
        self.assertEqual(codes.bits.tolist(), [[1, 14], [7, 8]])
        self.assertEqual(numpy.asarray(codes).dtype, numpy.float16)
        for dtype in None, numpy.float32:
            self.assertEqual(numpy.asarray(codes, dtype).tolist(), [[0.5, -4], [6, 0]])
        self.assertEqual(numpy.sum(codes), 2.5)
        self.assertEqual(bytes(apfloat.float4_e2m1fn.from_bits(codes.bits)), bytes(codes))
        with self.assertRaises(ValueError):
            apfloat.float4_e2m1fn.from_bits(numpy.array([16], numpy.uint8))
        for dtype in numpy.uint8, numpy.uint16, numpy.int64:
            self.assertEqual(bytes(apfloat.float4_e2m1fn.array(numpy.array([1, 6, 16], dtype))), bytes([2, 7, 7]))
        self.assertEqual(bytes(apfloat.float8_e8m0fnu.array(numpy.arange(1, 5))), bytes([127, 128, 128, 129]))

    @unittest.skipUnless(numpy, 'there is no numpy')
    def test_every_code_in_numpy(self):
        for format in self.STORED:
            every = format.from_bits(range(1 << format.width))
            numbers = numpy.asarray(every)
            self.assertEqual(numbers.dtype, numpy.float32 if format is apfloat.float8_e8m0fnu else numpy.float16)
            for number, wanted in zip(numbers.tolist(), every.to(apfloat.single)):
                self.assertEqual(str(number), str(float(wanted)))

    @unittest.skipUnless(numpy and ml_dtypes, 'there is no ml_dtypes')
    def test_ml_dtypes(self):
        for format in self.STORED[:-1]:
            dtype = numpy.dtype(getattr(ml_dtypes, format.name))
            made = numpy.array([[1, 2], [4, 0.5]], numpy.float32).astype(dtype)
            codes = format.array(made)
            self.assertEqual(codes.to(apfloat.single).tolist(), [[1, 2], [4, 0.5]])
            self.assertEqual(numpy.asarray(codes, dtype).astype(float).tolist(), [[1, 2], [4, 0.5]])
            self.assertEqual(apfloat.half.array(made).tolist(), [[1, 2], [4, 0.5]])
            self.assertEqual(apfloat.half.array([1, 2]).astype(dtype).astype(float).tolist(), [1, 2])
            with self.assertRaises(ValueError):
                numpy.asarray(apfloat.single.array([0.1]), dtype)


class StorageRowTests(unittest.TestCase):
    """Single values of storage formats and of P3109, by the rows of tests/c/storage, which evidence/storage_calls.py
    computes, and of tests/c/p3109, by evidence/p3109_calls.py."""

    MODES = {'even': apfloat.NEAREST_EVEN, 'up': apfloat.UPWARD, 'down': apfloat.DOWNWARD, 'zero': apfloat.TOWARD_ZERO,
             'away': apfloat.NEAREST_AWAY}
    SATURATIONS = {'': False, 'saturate': True, 'finite': 'finite', 'all': 'all'}
    NAMES = {format.name.rpartition('_')[2]: format for format in StoredTests.STORED}

    def format_of(self, name):
        constants = re.fullmatch(r'binary(\d+)p(\d+)([su])([ef])', name)
        if constants:
            width, precision, sign, ends = constants.groups()
            return apfloat.p3109(int(width), int(precision), sign == 's', ends == 'e')
        format, *rule = name.split('+')
        return functools.reduce(getattr, rule, self.NAMES.get(format) or getattr(apfloat, format))

    def made(self, call, source, target, mode, bits):
        """The bits that a row's call gives."""
        mode, _, saturation = mode.partition('+')
        if call == 'storage_operation':
            operation, *codes = bits.replace('mul_add', 'fma').split()
            count = {'fma': 3, 'sqrt': 1}.get(operation, 2)
            return source.operate(operation, *(int(code, 16) for code in codes[:count]))
        bits = int(bits, 16)
        if call == 'between_storage':
            return target.encode(source.decode(bits), self.SATURATIONS[saturation])
        if call == 'from_p3109':
            return source.decode(bits, target).bits
        if call == 'from_storage':
            return source.decode(bits, target, self.SATURATIONS[saturation]).bits
        x = source.from_bits(bits)
        if call == 'to_p3109':
            encode = target.encode_to_odd if mode == 'odd' else target.encode
            return encode(x, self.SATURATIONS[saturation])
        if call == 'to_p3109_by':
            way, digits, random = mode.split()
            return target.encode_randomly(x, int(random, 16), int(digits), way, self.SATURATIONS[saturation])
        if call == 'to_storage':
            return target.encode(x, self.SATURATIONS[saturation])
        if mode == 'odd':
            one, array = target.encode_to_odd(x), target.array_to_odd(source.array([x, x]))
        else:
            digits, random = int(mode.split()[1]), int(mode.split()[2], 16)
            one = target.encode_randomly(x, random, digits)
            array = target.array_randomly(source.array([x, x]), [random, random], digits)
        self.assertEqual(list(bytes(array)), [one, one])
        return one

    def test_rows(self):
        count = 0
        for name in 'storage', 'p3109':
            with open(os.path.join(HERE, '..', 'tests', 'c', name), encoding='utf-8') as file:
                rows = [row for row in file if not row.startswith('#')]
            for row in rows:
                call, kind, mode, given, result, status, _ = row.rstrip('\n').split('\t')
                source, target = map(self.format_of, (kind if '>' in kind else f'{kind}>{kind}').split('>'))
                with Context(mode=self.MODES.get(mode.split('+')[0], apfloat.NEAREST_EVEN)) as context:
                    made = self.made(call, source, target, mode, given)
                flags = functools.reduce(operator.or_, (Flags[name] for name in status.split('|') if name != 'OK'),
                                         Flags(0))
                self.assertEqual((made, context.flags), (int(result, 16), flags), row)
                count += 1
        self.assertGreater(count, 10000)

    def test_formats_of_p3109(self):
        form = apfloat.p3109(8, 4)
        self.assertEqual(form, pickle.loads(pickle.dumps(form)))
        self.assertNotEqual(form, apfloat.p3109(8, 4, extended=False))
        with self.assertRaises(ValueError):
            form.encode(1, saturate='all')
        for constants in ((2, 1), (16, 3), (8, 0), (8, 8), (8, 9, False), (-8, 3), (8 + (1 << 32), 3)):
            with self.subTest(constants), self.assertRaises(ValueError):
                apfloat.p3109(*constants)
        for code in -1, 256:
            with self.subTest(code), self.assertRaises(ValueError):
                form.decode(code)
        with self.assertRaises(TypeError):
            form.encode(b'1')
        with self.assertRaises(apfloat.Refused):
            form.encode(apfloat.double_pair(1))

    def test_refused(self):
        with self.assertRaises(ValueError):
            apfloat.float4_e2m1fn.decode(16)
        with self.assertRaises(TypeError):
            apfloat.float4_e2m1fn.encode(b'1')
        with self.assertRaises(ValueError):
            apfloat.float4_e2m1fn.encode(2**200 + 1)
        with self.assertRaises(apfloat.Refused):
            apfloat.float4_e2m1fn.encode_randomly(1.25, 0, digits=33)
        with self.assertRaises(apfloat.Refused):
            apfloat.p3109(8, 4).encode_randomly(1.25, 0, digits=0)
        with self.assertRaises(apfloat.Refused):
            apfloat.float8_e3m4.operate('add', 1, 2)
        for operands in ('add', 1), ('rem', 1, 2), ('add', 16, 0):
            with self.subTest(operands), self.assertRaises(ValueError):
                apfloat.float4_e2m1fn.operate(*operands)
        with self.assertRaises(ValueError):
            apfloat.p3109(8, 4).encode_randomly(1.25, 0, way='d')
        with self.assertRaises(apfloat.Refused):
            apfloat.float4_e2m1fn.array_randomly([1.25, 2], [0])

    def test_randoms(self):
        xs = apfloat.float4_e2m1fn.array_randomly([[1.25, 1.25], [3.5, 3.5]], bytes([0, 0, 0, 0x80] * 4))
        self.assertEqual(xs.tolist(), [[1.5, 1.5], [4, 4]])
        self.assertEqual((xs.counts['inexact'], xs.shape), (4, (2, 2)))
        every = apfloat.float4_e2m1fn.array_randomly([1.25] * 16, range(16), digits=4)
        self.assertEqual(every.tolist(), [1.0] * 8 + [1.5] * 8)


class BlockTests(unittest.TestCase):
    """Blocks of elements with a common scale."""

    # Digits, exponent of the largest number, greatest code without a sign, and exponent of the quantum.
    ELEMENTS = {
        'e5m2': (3, 15, 0x7b, -16), 'e4m3': (4, 8, 0x7e, -9), 'e3m2': (3, 4, 0x1f, -4), 'e2m3': (4, 2, 0x1f, -3),
        'e2m1': (2, 2, 0x7, -1),
    }

    def numbers(self, element):
        """The numbers of an element format that are not below zero, by their codes."""
        digits, _, greatest, quantum = self.ELEMENTS[element]
        lead = 1 << digits - 1
        return [(code % lead + (lead if code >= lead else 0)) * Fraction(2) ** (quantum + max(code // lead - 1, 0))
                for code in range(greatest + 1)]

    def quantized(self, element, values, rule):
        """The scale of a block of fractions and its codes, to nearest with ties to even."""
        numbers, digits = self.numbers(element), self.ELEMENTS[element]
        greatest = max(map(abs, values))
        exponents = [e for e in range(digits[1] - 127, 200) if Fraction(2) ** e <= greatest]
        exponent = max(exponents, default=digits[1] - 127)
        if rule == 'even' and exponents:
            last = Fraction(2) ** (exponent - digits[0] + 1)
            exponent += round(greatest / last) * last >= Fraction(2) ** (exponent + 1)
        scale = exponent - digits[1]
        scale = min(scale + (rule == 'ceil' and greatest > numbers[-1] * Fraction(2) ** scale), 127)
        codes = []
        for value in values:
            exact = abs(value) / Fraction(2) ** scale
            near = min(range(len(numbers)), key=lambda code: (abs(numbers[code] - exact), code % 2))
            codes.append(near + (len(numbers) if len(numbers) in (8, 32) else 128) * (value < 0))
        return scale + 127, codes

    def test_numbers(self):
        drawn = random.Random(7)
        for element, rule in itertools.product(self.ELEMENTS, ('floor', 'ceil', 'even')):
            values = [drawn.uniform(-2, 2) * 2.0 ** drawn.randrange(-12, 12) for _ in range(192)]
            values[32:64] = [0.0] * 32
            made = apfloat.mx.quantize(apfloat.double.array(values).reshape(2, 96), element, scale=rule)
            exact = [Fraction(x) for x in values]
            wanted = [self.quantized(element, exact[at:at + 32], rule) for at in range(0, 192, 32)]
            self.assertEqual((made.scales.shape, made.codes.shape, made.block), ((2, 3), (2, 96), 32))
            self.assertEqual(list(bytes(made.scales)), [scale for scale, _ in wanted])
            self.assertEqual(list(bytes(made.codes)), [code for _, codes in wanted for code in codes])
            numbers = self.numbers(element)
            mask = len(numbers) - 1 if len(numbers) in (8, 32) else 127
            back = [(-1 if code > mask else 1) * numbers[code & mask] * Fraction(2) ** (scale - 127)
                    for scale, codes in wanted for code in codes]
            with Context() as context:
                self.assertEqual(made.dequantize(apfloat.double).reshape(-1).tolist(), back)
            self.assertEqual(context.flags, Flags.OK)
            packed = made.packed()
            self.assertEqual(len(packed), 192 * made.codes.format.width // 8)
            self.assertEqual(bytes(apfloat.mx.unpack(packed, element)), bytes(made.codes))

    def test_rules_of_scales(self):
        # The greatest significands after which scales differ, and the last one of `floor`, in units of 2^-6.
        for element, after, rounded in ('e5m2', 112, 120), ('e4m3', 112, 124), ('e3m2', 112, 120), ('e2m3', 120, 124), \
                ('e2m1', 96, 112):
            for significand in range(64, 128):
                found = [bytes(apfloat.mx.quantize([significand * 2.0 ** 20, 1.0], element, 2, scale=rule).scales)[0]
                         for rule in ('floor', 'ceil', 'even')]
                more = [0, significand > after, significand >= rounded]
                self.assertEqual([scale - found[0] for scale in found], more)
        for value, scales in (2.0 ** -140, [0] * 3), (1.99 * 2.0 ** 500, [254] * 3), (-1.99 * 2.0 ** -125, [0, 1, 1]):
            self.assertEqual([bytes(apfloat.mx.quantize([value], 'e2m1', 1, scale=rule).scales)[0]
                              for rule in ('floor', 'ceil', 'even')], scales)
        # Where the scales are the same, so are codes, counts and flags.
        drawn = random.Random(28)
        for element, mode in itertools.product(self.ELEMENTS, apfloat.Rounding):
            values = [[drawn.choice([drawn.uniform(-5, 5), 0.0, -0.0, 1e-9, 2.0 ** -1074]) for _ in range(15)] + [5.0]
                      for _ in range(8)] + [[1.0] * 15 + [math.nan], [0.0] * 16]
            results = []
            for rule in 'floor', 'ceil', 'even':
                with Context(mode) as context:
                    made = apfloat.mx.quantize(values, element, 16, scale=rule)
                results.append((bytes(made.scales), bytes(made.codes), made.counts, context.flags))
            self.assertEqual(results, results[:1] * 3)

    def test_names(self):
        for names in ('e5m2', 'float8_e5m2', apfloat.e5m2), ('e4m3', 'e4m3fn', 'float8_e4m3fn', apfloat.e4m3fn), \
                ('e3m2', 'float6_e3m2fn', apfloat.float6_e3m2fn), ('e2m3', 'float6_e2m3fn', apfloat.float6_e2m3fn), \
                ('e2m1', 'e2m1fn', 'float4_e2m1fn', apfloat.float4_e2m1fn):
            for name in names:
                self.assertIs(apfloat.mx.quantize([1.0], name, 1).codes.format, names[-1])
        # What is meant by the word is meant by the format of this name.
        self.assertIs(apfloat.mx.quantize([1.0], apfloat.e4m3, 1).codes.format, apfloat.e4m3fn)

    def test_axes(self):
        drawn = random.Random(14)
        xs = apfloat.single.array([[[drawn.uniform(-9, 9) for _ in range(8)] for _ in range(4)] for _ in range(6)])
        for axis, block in (0, 3), (1, 2), (2, 4), (-1, 4), (-3, 2):
            place = axis % 3
            made = apfloat.mx.quantize(xs, 'e2m1', block, axis)
            order = [other for other in range(3) if other != place] + [place]
            last = apfloat.mx.quantize(xs.transpose(order), 'e2m1', block)
            self.assertEqual(bytes(made.codes.transpose(order)), bytes(last.codes))
            self.assertEqual(bytes(made.scales.transpose(order)), bytes(last.scales))
            self.assertEqual((made.codes.shape, made.counts), (xs.shape, last.counts))
            back = made.dequantize(apfloat.half)
            self.assertEqual(bytes(back.transpose(order)), bytes(last.dequantize(apfloat.half)))
            again = apfloat.mx.dequantize(bytes(made.scales), made.codes, block, apfloat.half, axis)
            self.assertEqual((bytes(again), again.shape), (bytes(back), xs.shape))
        with self.assertRaisesRegex(ValueError, '3 is no axis of 3'):
            apfloat.mx.quantize(xs, 'e2m1', 2, 3)

    def test_padding(self):
        numbers = [[1.0, 2, 3, 4, 5], [8, 16, 32, 64, math.inf]]
        for axis in 1, 0:
            given = numbers if axis else [list(column) for column in zip(*numbers)]
            with self.assertRaisesRegex(ValueError, 'pad=True'):
                apfloat.mx.quantize(given, 'e5m2', 4, axis)
            made = apfloat.mx.quantize(given, 'e5m2', 4, axis, pad=True)
            filled = apfloat.mx.quantize([row + [0.0] * 3 for row in numbers], 'e5m2', 4)
            codes, scales = (made.codes, made.scales) if axis else (made.codes.T, made.scales.T)
            self.assertEqual((bytes(codes), bytes(scales)), (bytes(filled.codes), bytes(filled.scales)))
            self.assertEqual(made.counts, filled.counts | {'values': 10, 'nans': 1})
            back = made.dequantize() if axis else made.dequantize().T
            self.assertEqual((back.shape, back[0].tolist(), back[1, 4].is_nan), ((2, 5), numbers[0], True))
        # With nothing to fill, it is the same as without.
        made = apfloat.mx.quantize([1.0] * 32, 'e4m3', pad=True)
        self.assertEqual((made.shape, made.codes.shape, made.counts['values']), ((32,), (32,), 32))
        for block in 0, -1:
            with self.assertRaises(ValueError):
                apfloat.mx.quantize([1.0], 'e4m3', block, pad=True)

    def test_nans(self):
        with Context() as context:
            made = apfloat.mx.quantize([1.0, math.inf, 1.0, 0.0], 'e2m3', 2)
        self.assertEqual((bytes(made.scales), bytes(made.codes)), (bytes([255, 125]), bytes([0, 0, 24, 0])))
        self.assertEqual((made.counts['values'], made.counts['nans'], context.flags), (4, 2, Flags.OK))
        self.assertEqual([math.isnan(x) for x in made.dequantize().tolist()], [True, True, False, False])

    def test_refused(self):
        with self.assertRaises(ValueError):
            apfloat.mx.quantize([1.0] * 31, 'e2m1')
        with self.assertRaises(ValueError):
            apfloat.mx.quantize([1.0], 'e2m1', 0)
        with self.assertRaises(ValueError):
            apfloat.mx.quantize([1.0], 'e3m4', 1)
        with self.assertRaises(ValueError):
            apfloat.mx.dequantize(b'1', apfloat.float4_e2m1fn.from_bits([1, 2]), 1)
        with self.assertRaises(apfloat.Refused):
            apfloat.mx.quantize(apfloat.double_pair.array([1]), 'e2m1', 1)
        with self.assertRaises(apfloat.Refused):
            apfloat.mx.pack(apfloat.float4_e2m1fn.from_bits([1]))
        for codes in apfloat.e4m3.array([1, 2]), apfloat.single.array([1, 2]), [1, 2], b'12':
            with self.assertRaisesRegex(TypeError, 'element format'):
                apfloat.mx.dequantize(b'1', codes, 2)


def integers(xs):
    """An array's values as nested lists of integers."""
    if isinstance(xs, list):
        return [integers(each) for each in xs]
    return integers(xs.tolist()) if isinstance(xs, Array) else int(xs)


class ReportTests(unittest.TestCase):
    """What a conversion does to values."""

    # The digits of a target, and the exponent of its least digit.
    DIGITS = {apfloat.e4m3fn: (4, -9), apfloat.float4_e2m1fn: (2, -1), apfloat.bfloat: (8, -133),
              apfloat.float8_e8m0fnu: (1, -127)}

    def test_measures(self):
        draw = random.Random(21)
        for mode in apfloat.Rounding:
            xs = [draw.choice([0.0, math.inf, math.nan, 1.5, draw.gauss(0, 1), draw.gauss(0, 1e3), draw.gauss(0, 1e-3)])
                  for _ in range(320)]
            values = apfloat.single.array(xs)
            given = list(values.numbers())
            for target, digits in self.DIGITS.items():
                found = apfloat.report(values, target, round=mode)
                with apfloat.Context(mode):
                    made = values.to(target)
                results = list(made.to(apfloat.double).numbers())
                self.assertEqual(found.counts, made.counts)
                self.compare(found, given, results, [digits] * len(given))

    def compare(self, found, given, results, digits):
        """Compares a report with one by fractions, by the digits of each result and the exponent of the least one."""
        self.assertEqual((found.zeros, found.infinities, found.nans),
                         (given.count(0), sum(map(math.isinf, given)), sum(map(math.isnan, given))))
        fates, errors, ulps, powers = {}, [0], [0], []
        for x, y, (precision, last) in zip(given, results, digits):
            if x == 0 or not math.isfinite(x):
                continue
            fate = fates.setdefault(math.frexp(x)[1] - 1, [0] * 4)
            fate[0] += 1
            if math.isfinite(y):
                error = abs(Fraction(x) - Fraction(y))
                ulp = Fraction(2) ** max(last, math.frexp(y)[1] - precision if y else last)
                errors.append(error)
                ulps.append(error / ulp)
                powers.append((Fraction(x) ** 2, error ** 2))
                fate[1] += 0 < error <= ulp
                fate[2] += y == 0 and error <= ulp
                fate[3] += error > ulp
            else:
                fate[3] += 1
        self.assertEqual({exponent: list(fate) for exponent, fate in found.binades.items()}, fates)
        sums = [sum(column) for column in zip(*fates.values())]
        self.assertEqual([found.numbers, found.inexact, found.become_zero, found.past], sums)
        self.assertEqual(found.exact, found.numbers - found.inexact - found.past)
        self.assertEqual((found.max_error, found.max_ulps), (max(errors), max(ulps)))
        signal, noise = (sum(column) for column in zip(*powers))
        self.assertAlmostEqual(found.snr_db, 10 * math.log10(signal / noise), places=9)

    def test_blocks(self):
        draw = random.Random(22)
        values = apfloat.single.array([draw.gauss(0, 1) * 2.0 ** draw.randint(-4, 4) for _ in range(320)])
        for (form, element, precision, last), rule in itertools.product(
                [('mxfp4', 'e2m1', 2, -1), ('mxfp8e4m3', 'e4m3', 4, -9)], ['', 'floor', 'ceil', 'even']):
            made = apfloat.mx.quantize(values, element, block=16, scale=rule or 'floor')
            digits = [(precision, last + scale - 127) for scale in made.scales.bits for _ in range(16)]
            found = apfloat.report(values.reshape(2, -1), f'{form}+{rule}' if rule else form, block=16)
            self.assertEqual(found.counts, made.counts)
            self.compare(found, list(values.numbers()), list(made.dequantize(apfloat.double).numbers()), digits)

    def test_saturation(self):
        xs = [1.0, 449.0, 1e6, math.inf, math.nan]
        found = apfloat.report(xs, apfloat.e4m3fn, saturate=True)
        self.assertEqual((found.exact, found.inexact, found.past, found.max_error), (1, 1, 1, 10 ** 6 - 448))
        self.assertEqual((found.max_error_of, found.counts['nans']), (1e6, 2))
        self.assertEqual(apfloat.report(xs, apfloat.quad, saturate='all').exact, 3)
        self.assertEqual(apfloat.report(xs, apfloat.double).snr_db, math.inf)

    def test_texts(self):
        found = apfloat.report([1, 1.0625, 1000, 2.0 ** -10], apfloat.e4m3fn)
        lines = [' '.join(line.split()) for line in str(found).splitlines()]
        self.assertEqual(lines[0], 'double to e4m3fn')
        self.assertEqual(lines[-3:], ['2^9 1 ########## 1 past', '2^0 2 #################### 1 inexact',
                                      '2^-10 1 ########## 1 zero'])
        self.assertTrue(str(apfloat.report([], apfloat.half)).endswith(' inf dB'))

    def test_refusals(self):
        with self.assertRaisesRegex(ValueError, "'mxfp5' is none of"):
            apfloat.report([1.0], 'mxfp5')
        for word, rule in ('mxfp4+', ''), ('mxfp4+up', 'up'):
            with self.assertRaisesRegex(ValueError, f"scale is '{rule}', and none of 'floor', 'ceil', 'even'"):
                apfloat.report([1.0], word)
        with self.assertRaises(ValueError):
            apfloat.report(apfloat.quad.array(['0.1']), apfloat.half)
        with self.assertRaises(ValueError):
            apfloat.report([1.0] * 33, 'mxfp4')


class Nvfp4Tests(unittest.TestCase):
    """Blocks of NVFP4."""

    MODES = dict(zip(('even', 'up', 'down', 'zero', 'away'), MODES))

    @staticmethod
    def rows(*name):
        with open(os.path.join(HERE, '..', 'tests', *name), encoding='utf-8') as file:
            return [line.rstrip('\n').split('\t') for line in file if not line.startswith('#')]

    @staticmethod
    def format(word):
        name, *rules = word.split('+')
        form = getattr(apfloat, name)
        for rule in rules:
            form = getattr(form, rule)
        return form

    @staticmethod
    def vector(words):
        """A vector in blocks, as a row of dot products has it."""
        name, length, *digits = words.split()
        scales, codes = (bytes.fromhex(each.strip('-')) for each in digits)
        if name.startswith('NVFP4'):
            made = apfloat.Nvfp4Blocks(apfloat.e4m3fn.from_bits(scales), apfloat.float4_e2m1fn.from_bits(codes),
                                       int(length), {})
            made.tensor = apfloat.single.from_bits(int(name[6:], 16))
            return made
        elements = {'E5M2': apfloat.e5m2, 'E4M3FN': apfloat.e4m3fn, 'E3M2FN': apfloat.float6_e3m2fn,
                    'E2M3FN': apfloat.float6_e2m3fn, 'E2M1FN': apfloat.float4_e2m1fn}
        return apfloat.Blocks(apfloat.float8_e8m0fnu.from_bits(scales), elements[name].from_bits(codes), int(length),
                              {})

    def test_dots(self):
        # Rows of dot products (evidence/block_dots.py) of two vectors of one length.
        rows = [row for row in self.rows('rows', 'by_crate', 'block_dots.tsv') if row[2] != '-']
        self.assertGreater(len(rows), 2000)
        for _, name, mode, operands, wanted, flags, _ in rows:
            left, right = map(self.vector, operands.split(' / '))
            with Context(self.MODES.get(mode, MODES[0])) as context:
                found = left.dot(right, self.format(name))
            self.assertEqual((found.bits, str(context.flags.name or 'OK')), (int(wanted, 16), flags), operands)

    def test_dots_along_axes(self):
        xs = [[drawn % 7 - 3 for drawn in range(at, at + 9)] for at in range(2)]
        ys = [[[at * each % 5 - 2, each] for each in range(-4, 5)] for at in range(3)]
        left = apfloat.mx.quantize(xs, 'e2m3', 4, pad=True)
        for right in (apfloat.mx.quantize(ys, 'e2m3', 2, axis=1, pad=True), apfloat.mx.quantize(ys, axis=1, block=9),
                      apfloat.mx.quantize(ys, axis=-2, pad=True)):
            found = left.dot(right, apfloat.half)
            wanted = [[[sum(x * y[at] for x, y in zip(row, of)) for at in range(2)] for of in ys] for row in xs]
            self.assertEqual((found.shape, found.tolist()), ((2, 3, 2), wanted))
        self.assertEqual((left.dot(left).format, left.dot(left).shape), (apfloat.single, (2, 2)))
        for wrong in apfloat.mx.quantize([1.0] * 8, block=8), apfloat.nvfp4.quantize([1.0] * 16):
            self.assertRaises(apfloat.Refused, left.dot, wrong)
        self.assertRaises(apfloat.Refused, left.dot, left, apfloat.double_pair)

    def test_rows(self):
        # The calls of C (tests/c/check_blocks.c has what the columns say).
        for call, name, mode, by, *numbers, counted, nans, flags in self.rows('c', 'blocks'):
            given, scales, codes = [[int(word, 16) for word in words.split()] for words in numbers]
            if call != 'quantize_blocks' and len(given) != 16 * len(scales):
                continue
            form = self.format(name)
            with self.subTest(call=call, name=name, mode=mode, given=numbers), \
                    Context(mode=self.MODES[mode]) as context:
                if call != 'dequantize_nvfp4':
                    values = Array(form, b''.join(bits.to_bytes(form._bytes, 'little') for bits in given))
                    if call == 'quantize_nvfp4':
                        blocks = apfloat.nvfp4.quantize(values, apfloat.single.from_bits(int(by, 16)))
                    else:
                        element, rule = by.split('+')
                        blocks = apfloat.mx.quantize(values, element, len(given) // len(scales), scale=rule)
                    self.assertEqual([*bytes(blocks.scales)], scales)
                    self.assertEqual([*bytes(blocks.codes)], codes)
                    counts = blocks.counts
                else:
                    elements = apfloat.float4_e2m1fn.from_bits(bytes(codes))
                    values = apfloat.nvfp4.dequantize(bytes(scales), elements, apfloat.single.from_bits(int(by, 16)),
                                                      form)
                    self.assertEqual([*values._patterns()], given)
                    counts = values.counts
                found = [counts[name] for name in ('inexact', 'underflow', 'overflow', 'nans', 'values')]
                self.assertEqual(found, [*map(int, counted.split()), int(nans), 32])
                raised = [] if flags == 'OK' else [Flags[name] for name in flags.split('|')]
                self.assertEqual(context.flags, sum(raised))

    def test_axes(self):
        values = [[float(row * column) for column in range(16)] for row in range(20)]
        across = apfloat.nvfp4.quantize(values, 1)
        along = apfloat.nvfp4.quantize(apfloat.double.array(values).T, 1, axis=0)
        self.assertEqual((across.scales.shape, along.scales.shape), ((20, 1), (1, 20)))
        self.assertEqual(along.dequantize().T.tolist(), across.dequantize().tolist())
        padded = apfloat.nvfp4.quantize(values, 1, axis=0, pad=True)
        self.assertEqual((padded.counts['values'], padded.codes.shape), (320, (32, 16)))
        self.assertEqual(padded.dequantize(apfloat.double).shape, (20, 16))
        self.assertEqual(len(across.packed()), 160)
        with_nan = apfloat.nvfp4.quantize([math.nan] + [1.0] * 18, 1, pad=True)
        self.assertEqual((with_nan.counts['values'], with_nan.counts['nans']), (19, 16))
        self.assertRaises(ValueError, apfloat.nvfp4.quantize, values, 1, axis=0)
        for scale in (0, -1, float('inf'), float('nan')):
            self.assertRaises(apfloat.Refused, apfloat.nvfp4.quantize, [0.0] * 16, scale)
        self.assertRaises(ValueError, apfloat.nvfp4.quantize, [0.0] * 16, 0.1)
        codes = apfloat.float4_e2m1fn.from_bits([1] * 16)
        self.assertRaises(apfloat.Refused, apfloat.nvfp4.dequantize, b'\x80', codes, 1)
        self.assertRaises(TypeError, apfloat.nvfp4.dequantize, b'1', apfloat.float8_e3m4.from_bits([1] * 16), 1)
        self.assertRaises(ValueError, apfloat.nvfp4.dequantize, b'11', codes, 1)

    def test_tensor_scales(self):
        # The stored rows of scales (evidence/blocks.py).
        rows = [row for row in self.rows('rows', 'blocks.tsv') if row[0] == 'tensor_scale']
        self.assertGreater(len(rows), 20)
        for _, _, _, operands, wanted, *_ in rows:
            values = apfloat.single.from_bits([int(word, 16) for word in operands.split()])
            if wanted == 'None':
                self.assertRaises(ValueError, apfloat.nvfp4.tensor_scale, values)
            else:
                self.assertEqual(apfloat.nvfp4.tensor_scale(values).bits, int(wanted, 16))
        tensor = [[3.0, -5376.0]] * 8
        made = apfloat.nvfp4.quantize(tensor, axis=0, pad=True)
        self.assertEqual((made.tensor, made.dequantize(apfloat.double).tolist()), (apfloat.single(2), tensor))


class TypeTests(unittest.TestCase):
    """What mypy finds out."""

    @unittest.skipUnless(shutil.which('mypy'), 'there is no mypy')
    def test_types(self):
        known = {
            'xs[0]': 'Value | Array', 'xs[0, 1]': 'Value | Array', 'xs[1:]': 'Array', 'xs[[0, 1]]': 'Array',
            'xs[xs > 1]': 'Array', 'xs > 1': 'Mask', '(xs > 1)[0]': 'bool | Mask', 'xs + 1': 'Array', 'xs.T': 'Array',
            'xs.max()': 'Value', 'xs.sum()': 'Value', 'xs.mean(0)': 'Value | Array', 'xs.numbers()': 'memoryview',
            '(xs > 1).any()': 'bool', '(xs > 1).sum()': 'int', 'half(1) * 2': 'Value', 'half(1) < 2': 'bool',
            'half.from_bits(1)': 'Value', 'half.from_bits([1])': 'Array', 'stored.array([1])[:1]': 'StoredArray',
            'stored.array([1]).to(half)': 'Array', 'mx.quantize([1]).dequantize()': 'Array', 'finfo(half).max': 'Value',
        }
        lines = ['from typing import assert_type', 'from apfloat import *',
                 'from apfloat import float4_e2m1fn as stored', 'xs = half.array([[1, 2], [3, 4]])',
                 *[f'assert_type({text}, {kind})' for text, kind in known.items()]]
        with tempfile.TemporaryDirectory() as folder:
            shutil.copy(apfloat.__file__, os.path.join(folder, 'apfloat.py'))
            path = os.path.join(folder, 'typed.py')
            with open(path, 'w', encoding='utf-8') as file:
                file.write('\n'.join(lines) + '\n')
            done = subprocess.run(['mypy', '--strict', '--python-version', '3.11', '--ignore-missing-imports',
                                   '--cache-dir', folder, 'typed.py'],
                                  cwd=folder, capture_output=True, text=True, check=False)
        self.assertEqual(done.returncode, 0, done.stdout)


class LibraryTests(unittest.TestCase):
    """How the shared library is found."""

    def imported(self, **variables):
        """What an import of a copy of the module without a library beside it says."""
        with tempfile.TemporaryDirectory() as folder:
            shutil.copy(apfloat.__file__, os.path.join(folder, 'apfloat.py'))
            kept = {name: text for name, text in os.environ.items() if name != 'APFLOAT_LIBRARY'}
            done = subprocess.run([sys.executable, '-B', '-c', 'import apfloat'], cwd=folder, text=True, check=False,
                                  env=kept | {'PYTHONPATH': folder} | variables, stderr=subprocess.PIPE)
        return done.returncode, done.stderr

    def test_missing_library(self):
        code, said = self.imported()
        self.assertEqual(code, 1)
        self.assertIn('ImportError: the shared library of apfloat is missing', said)
        self.assertIn('pip install ./python', said)
        code, said = self.imported(APFLOAT_LIBRARY='/nowhere/libapfloat.so')
        self.assertIn('/nowhere/libapfloat.so', said)
        self.assertIn('APFLOAT_LIBRARY', said)

    def test_other_library(self):
        code, said = self.imported(APFLOAT_LIBRARY='libc.so.6')
        self.assertEqual(code, 1)
        self.assertIn('of another version', said)

    def test_named_library(self):
        self.assertEqual(self.imported(APFLOAT_LIBRARY=apfloat._functions._name), (0, ''))


class WheelTests(unittest.TestCase):
    """What pip calls to build the wheel."""

    def run_backend(self, call, **variables):
        """The exit status of a call, and what it says."""
        program = f'import sys; sys.path[:0] = [{HERE!r}]; import backend; {call}'
        return subprocess.run([sys.executable, '-B', '-c', program], env={'PATH': '/nowhere'} | variables,
                              capture_output=True, text=True, check=False)

    def test_wheel(self):
        library = apfloat._functions._name
        with tempfile.TemporaryDirectory() as first, tempfile.TemporaryDirectory() as second:
            for folder in first, second:
                done = self.run_backend(f'print(backend.build_wheel({folder!r}))', APFLOAT_LIBRARY=library)
                self.assertEqual(done.returncode, 0, done.stderr)
            name = done.stdout.strip()
            with open(os.path.join(first, name), 'rb') as one, open(os.path.join(second, name), 'rb') as other:
                self.assertEqual(one.read(), other.read())
            with zipfile.ZipFile(os.path.join(first, name)) as wheel:
                files = {name: wheel.read(name) for name in wheel.namelist()}
        record, = [name for name in files if name.endswith('.dist-info/RECORD')]
        listed = [line.split(',') for line in files[record].decode().splitlines()]
        self.assertEqual([name for name, _, _ in listed], list(files))
        for name, digest, size in listed[:-1]:
            found = base64.urlsafe_b64encode(hashlib.sha256(files[name]).digest()).decode().rstrip('=')
            self.assertEqual((digest, size), (f'sha256={found}', str(len(files[name]))))
        with open(library, 'rb') as file:
            self.assertIn(file.read(), files.values())
        self.assertEqual(files['apfloat/py.typed'], b'')

    def test_refusals(self):
        for call, variables, said in [
                ('backend.library()', {'APFLOAT_LIBRARY': '/nowhere/lib.so'}, '/nowhere/lib.so, which is no file'),
                ('import pathlib; backend.CRATE = pathlib.Path("/"); backend.library()', {}, 'in a checkout'),
                ('import pathlib; backend.CRATE = pathlib.Path(backend.__file__); backend.library()', {},
                 'there is no cargo'),
                ('backend.build_sdist(".")', {}, 'only wheels')]:
            done = self.run_backend(call, **variables)
            self.assertEqual(done.returncode, 1)
            self.assertIn(said, done.stderr)
            self.assertNotIn('Traceback', done.stderr)

    def checkout(self, folder, age):
        """A checkout with a built library that is so many seconds older than the text, and the call for the library."""
        for name in 'rust/apfloat/Cargo.toml', 'Cargo.toml', 'crates/any/src/lib.rt', 'target/release/{}':
            path = os.path.join(folder, name.format({'darwin': 'libapfloat.dylib'}.get(sys.platform, 'libapfloat.so')))
            os.makedirs(os.path.dirname(path), exist_ok=True)
            with open(path, 'wb'):
                pass
            os.utime(path, (10**9 - age, 10**9 - age) if 'release' in path else (10**9, 10**9))
        crate = os.path.join(folder, 'rust', 'apfloat', 'Cargo.toml')
        return (f'import pathlib; backend.CRATE = pathlib.Path({crate!r}); backend.BETWEEN = 0.2; '
                'print(backend.library())')

    def test_built_library(self):
        with tempfile.TemporaryDirectory() as folder:
            done = self.run_backend(self.checkout(folder, -1))
            self.assertEqual(done.returncode, 0, done.stderr)
            self.assertEqual(os.path.dirname(done.stdout), os.path.join(folder, 'target/release'))
            self.assertIn('apfloat: taking', done.stderr)
            # One that is older than the text is not taken.
            done = self.run_backend(self.checkout(folder, 1))
            self.assertEqual(done.returncode, 1)
            self.assertIn('there is no cargo', done.stderr)

    def test_progress(self):
        with tempfile.TemporaryDirectory() as folder:
            call = self.checkout(folder, 1)
            cargo = os.path.join(folder, 'cargo')
            with open(cargo, 'w', encoding='utf-8') as file:
                file.write('#!/bin/sh\nsleep 1\n'
                           'echo \'{"filenames": ["/at/libapfloat.so", "/at/libapfloat.dylib"]}\'\n')
            os.chmod(cargo, 0o755)
            done = self.run_backend(call, PATH=f'{folder}:/usr/bin:/bin')
            self.assertEqual((done.returncode, os.path.dirname(done.stdout)), (0, '/at'), done.stderr)
            self.assertIn('apfloat: cargo builds', done.stderr)
            self.assertIn('apfloat: cargo has been compiling for', done.stderr)
            self.assertIn('apfloat: cargo took', done.stderr)
            with open(cargo, 'w', encoding='utf-8') as file:
                file.write('#!/bin/sh\nexit 1\n')
            done = self.run_backend(call, PATH=f'{folder}:/usr/bin:/bin')
            self.assertEqual(done.returncode, 1)
            self.assertIn('cargo failed', done.stderr)


@unittest.skipUnless(numpy, 'there is no numpy')
class NumpyTests(unittest.TestCase):
    """Arrays of numpy."""

    def test_singles(self):
        tensor = numpy.array([[0.1, 1, 300, -0.0], [-1000, 1e-4, 448, 3]], numpy.float32)
        for made in tensor, tensor.astype('>f4'), numpy.asfortranarray(tensor), numpy.repeat(tensor, 2, 1)[:, ::2]:
            with Context() as context:
                codes = apfloat.float8_e4m3fn.array(made, saturate=True)
            self.assertEqual(codes.shape, (2, 4))
            wanted = [[rounded(apfloat.e4m3fn, Fraction(number), Rounding.NEAREST_EVEN)[0] or
                       (math.copysign(448, number) if number else 0) for number in row] for row in tensor.tolist()]
            wanted[1][1] = 0
            numbers = numpy.asarray(codes, dtype=numpy.float32)
            self.assertEqual(numbers.dtype, numpy.float32)
            self.assertEqual(numbers.tolist(), wanted)
            self.assertEqual(math.copysign(1, numbers[0, 3]), -1)
            self.assertEqual(codes.counts, {'values': 8, 'inexact': 4, 'underflow': 1, 'overflow': 1,
                                            'div_by_zero': 0, 'invalid_op': 0, 'nans': 0})
            self.assertEqual(context.flags, Flags.INEXACT | Flags.UNDERFLOW | Flags.OVERFLOW)
            self.assertEqual(codes.bits.dtype, numpy.uint8)
            self.assertEqual(codes.bits.shape, (2, 4))
            self.assertEqual(numpy.asarray(codes).tolist(), wanted)
            self.assertEqual(bytes(apfloat.e4m3fn.from_bits(codes.bits)), bytes(codes))

    def test_functions_take_numbers(self):
        xs = apfloat.e4m3fn.array([[0.5, -1, 2], [3, -4, 0.25]])
        self.assertEqual((numpy.mean(xs), numpy.argmax(xs), numpy.max(xs), numpy.min(xs)), (0.125, 3, 3, -4))
        self.assertAlmostEqual(float(numpy.linalg.norm(xs)), math.sqrt(30.3125), 1)
        self.assertEqual(numpy.concatenate([xs, xs]).tolist(), numpy.asarray(xs).tolist() * 2)
        self.assertEqual(numpy.where(xs > 0, xs, 0).tolist(), [[0.5, 0, 2], [3, 0, 0.25]])
        saved = io.BytesIO()
        numpy.save(saved, xs)
        saved.seek(0)
        self.assertEqual(numpy.load(saved).tolist(), [[0.5, -1, 2], [3, -4, 0.25]])
        self.assertEqual((numpy.any(xs > 3), numpy.all(xs > -5), numpy.sum(xs > 0)), (False, True, 4))
        with self.assertRaises(TypeError):
            numpy.max(xs, out=numpy.empty(()))

    def test_functions_and_operators(self):
        xs, ones = apfloat.half.array([[0.5, -1, 2], [3, -4, math.nan]]), numpy.ones((2, 3), numpy.float16)
        numbers = numpy.asarray(xs)
        for function in numpy.isnan, numpy.signbit, numpy.square, numpy.sign:
            self.assertEqual(str(function(xs)), str(function(numbers)))
        self.assertEqual(str(numpy.maximum(xs, 0)), str(numpy.maximum(numbers, 0)))
        self.assertEqual(str(numpy.multiply.reduce(xs)), str(numpy.multiply.reduce(numbers)))
        ones += xs
        self.assertEqual(str(ones), str(numbers + 1))
        with self.assertRaises(TypeError):
            numpy.add(ones, ones, out=xs)
        # Operators of numpy are those of the array, which round once, and raise flags.
        row = numpy.array([1, 3, 8], numpy.float16)
        for made, wanted in ((row + xs, xs + row), (row - xs[0], [0.5, 4, 6]), (row * xs, xs * row),
                             (row % xs[:1], [[0.0, -0.0, 0.0]]), (row / xs[:1], [[2, -3, 4]]),
                             (row @ xs.T[:, :1], [13.5]), (abs(xs), numpy.abs(xs)), (-xs, numpy.negative(xs)),
                             (numpy.float32(2) * xs, xs * 2)):
            self.assertIs(type(made), Array)
            self.assertEqual(repr(made), repr(apfloat.half.array(wanted)))
        for made, wanted in ((row < xs, xs > row), (row <= xs, xs >= row), (row > xs, xs < row), (row >= xs, xs <= row),
                             (row == xs, xs == row), (row != xs, xs != row)):
            self.assertIs(type(made), Mask)
            self.assertEqual(made.tolist(), wanted.tolist())
        with self.assertRaisesRegex(TypeError, 'convert one of them'):
            row.astype(numpy.float32) + xs

    def test_random_numbers(self):
        for dtype in 'u1', '<u2', '>u4', 'i8':
            randoms = numpy.array([[0, 1], [2, 3]], dtype)
            made = apfloat.float4_e2m1fn.array_randomly([[1.25, 1.25], [1.25, 1.25]], randoms, digits=2)
            self.assertEqual([float(value) for value in made.reshape(4)], [1, 1, 1.5, 1.5])
        for randoms in numpy.array([-1]), numpy.array([1 << 32]), numpy.array([0.5]):
            with self.assertRaises((TypeError, OverflowError)):
                apfloat.float4_e2m1fn.array_randomly([1.25], randoms)

    def test_types_of_numbers(self):
        for format in SMALL:
            every = format.from_bits(numpy.arange(256, dtype=numpy.uint8))
            numbers = numpy.asarray(every)
            self.assertEqual(numbers.dtype, numpy.float16)
            self.assertEqual([str(number) for number in numbers.tolist()], [str(float(value)) for value in every])
        types = {apfloat.half: 'f2', apfloat.half.ieee: 'f2', apfloat.single: 'f4', apfloat.bfloat: 'f4',
                 apfloat.tf32: 'f4', apfloat.double: 'f8', apfloat.double.ieee.before: 'f8', apfloat.x87: 'f8',
                 apfloat.quad: 'f8', apfloat.double_pair: 'f8'}
        for format, dtype in types.items():
            numbers = numpy.asarray(format.array(['-inf', '-0.0', '1.5']))
            self.assertEqual(numbers.dtype, dtype)
            self.assertEqual([str(number) for number in numbers.tolist()], ['-inf', '-0.0', '1.5'])
        for format in apfloat.x87, apfloat.quad, apfloat.double_pair:
            with self.assertRaisesRegex(ValueError, '1 of 2 values are no values of double'):
                numpy.asarray(format.array(['0.5', '0.1']))

    def test_numbers(self):
        for format, dtype in (apfloat.half, 'f2'), (apfloat.single, 'f4'), (apfloat.double, 'f8'):
            made = numpy.arange(-6, 6, dtype=dtype).reshape(3, 4) / 4
            xs = format.array(made)
            self.assertIsNone(xs.counts)
            self.assertEqual(numpy.asarray(xs).dtype, made.dtype)
            for other in dtype, 'f8', '>f8':
                numbers = numpy.asarray(xs, other)
                self.assertEqual((numbers.dtype, numbers.tolist()), (numpy.dtype(other), made.tolist()))
                numbers[0, 0] = 1
            self.assertEqual(xs.bits.tolist(), made.view(f'u{made.itemsize}').tolist())
            self.assertEqual(xs.astype(numpy.float16).dtype, numpy.float16)
            self.assertEqual(numpy.asarray(xs, object)[1, 1], xs[1, 1])
            if numpy.lib.NumpyVersion(numpy.__version__) >= '2.0.0':
                with self.assertRaises(ValueError):
                    numpy.asarray(apfloat.half.array([1]), numpy.float32, copy=False)
        every = apfloat.e5m2.from_bits(numpy.arange(256, dtype=numpy.uint8))
        self.assertEqual(numpy.asarray(every, numpy.float16).view('u2')[:0x7d].tolist(),
                         [bits << 8 for bits in range(0x7d)])

    def test_only_exact_numbers(self):
        for xs in (apfloat.single.array([1, 2**-30]), apfloat.quad.array([1, '0.1']), apfloat.single.array([1, 65536]),
                   apfloat.double_pair.array(['1', '0.1'])):
            with self.assertRaisesRegex(ValueError, '1 of 2 values are no values of half'):
                numpy.asarray(xs, numpy.float16)
        xs = apfloat.double_pair.array([[0.1], [-3]])
        self.assertEqual(numpy.asarray(xs, float).tolist(), [[0.1], [-3]])
        for wanted in int, numpy.uint8, bool, complex, 'S3':
            with self.assertRaisesRegex(TypeError, 'bits'):
                numpy.asarray(apfloat.half.array([1]), wanted)
        rounded_to_half = apfloat.double.array([0.1, 3]).astype(numpy.float16)
        self.assertEqual(rounded_to_half.tolist(), numpy.array([0.1, 3]).astype(numpy.float16).tolist())

    def test_elements_of_other_types(self):
        xs = apfloat.half.array(numpy.arange(6).reshape(2, 3))
        self.assertEqual(integers(xs), [[0, 1, 2], [3, 4, 5]])
        self.assertEqual(number_of(apfloat.half.array(numpy.array([2049]))[0]), 2048)
        for dtype in 'u1', 'u2', 'u4', 'u8', 'i8':
            for format in apfloat.half, apfloat.bfloat, apfloat.e4m3fn:
                self.assertEqual(integers(format.array(numpy.array([1, 60, 128], dtype))), [1, 60, 128])
        for wrong in numpy.array(['a']), numpy.array([1j]), numpy.array([True]):
            with self.assertRaises(TypeError):
                apfloat.half.array(wrong)

    def test_scalars_and_operands(self):
        self.assertEqual(apfloat.half(numpy.float32(0.1)).bits, apfloat.half(numpy.float16(0.1)).bits)
        self.assertEqual(int(apfloat.half(numpy.int64(7))), 7)
        self.assertEqual(int(apfloat.half(1) + numpy.float16(2)), 3)
        xs = apfloat.half.array([1, 2, 3])
        self.assertEqual(integers(xs + numpy.float64(1)), [2, 3, 4])
        self.assertEqual(integers(numpy.float32(1) - xs), [0, -1, -2])
        self.assertEqual(integers(numpy.array([3, 2, 1], numpy.float16) % xs), [0, 0, 1])
        self.assertEqual(integers(xs * numpy.array([[1], [2]], numpy.float16)), [[1, 2, 3], [2, 4, 6]])
        with self.assertRaises(TypeError):
            xs + numpy.array([1, 2, 3], numpy.float32)
        # Integers are numbers, which the format has to have.
        for dtype in 'u1', 'i1', 'u2', '>i4', 'i8', 'u8':
            numbers = numpy.array([1, 2, 3], dtype)
            self.assertEqual(integers(xs + numbers), [2, 4, 6])
            self.assertEqual(integers(numbers - apfloat.e4m3fn.array([1, 1, 1])), [0, 1, 2])
        for wrong in numpy.array([1, 2, 17], numpy.uint8), numpy.array([1, 2, 1 << 60]), numpy.array([1, 2, -449]):
            with self.assertRaisesRegex(ValueError, '1 of 3 values are no values of e4m3fn'):
                apfloat.e4m3fn.array([1, 2, 3]) + wrong
        with self.assertRaises(ValueError):
            xs + numpy.float32(0.1)

    def test_orders(self):
        xs = apfloat.e4m3fn.array([[1, 2], [3, 4]])
        numbers = numpy.array([[1, 3], [3, 4.1]], numpy.float32)
        self.assertEqual(numpy.asarray(xs == numbers).tolist(), [[True, False], [True, False]])
        self.assertEqual((numbers > xs).tolist(), [[False, True], [False, True]])
        for dtype in int, numpy.uint8:
            self.assertEqual((xs == numpy.array([1, 4], dtype)).tolist(), [[True, False], [False, True]])
        self.assertEqual(numpy.asarray(xs > 2).dtype, bool)
        self.assertEqual(integers(xs[numpy.asarray(xs > 2)]), [3, 4])
        self.assertEqual(numbers[xs > 3].tolist(), [numbers[1, 1]])
        self.assertEqual(numpy.where(xs > 2, 1, 0).tolist(), [[0, 0], [1, 1]])

    def test_parts(self):
        draw = random.Random(9)
        made = numpy.arange(120, dtype=numpy.float32).reshape(2, 3, 4, 5)
        for format in apfloat.single, apfloat.x87:
            xs = format.array([float(number) for number in made.ravel()]).reshape(made.shape)
            for _ in range(300):
                index = []
                for length in made.shape:
                    start, stop = [draw.choice([None, draw.randint(-6, 6)]) for _ in range(2)]
                    index.append(draw.choice([draw.randrange(-length, length),
                                              slice(start, stop, draw.choice([None, 1, 2, -1, -2]))]))
                first, last = sorted(draw.choices(range(5), k=2))
                if draw.random() < 0.8:
                    index[first:last] = [Ellipsis]
                if draw.random() < 0.3:
                    index.insert(draw.randint(0, len(index)), None)
                wanted, part = made[tuple(index)], xs[tuple(index)]
                if isinstance(part, apfloat.Value):
                    self.assertEqual(int(part), wanted)
                else:
                    self.assertEqual(part.shape, wanted.shape)
                    self.assertEqual(integers(part), wanted.astype(int).tolist())

    def test_indices_and_assignment(self):
        draw = random.Random(15)
        for format, dtype in (apfloat.half, 'f2'), (apfloat.x87, 'f8'), (apfloat.e4m3fn, 'f2'):
            for _ in range(100):
                made = numpy.array([draw.randint(-8, 8) for _ in range(24)], dtype).reshape(2, 3, 4)
                xs = format.array(made.tolist())
                order = draw.sample(range(3), 3)
                self.assertEqual(numpy.asarray(xs.transpose(order)).tolist(), made.transpose(order).tolist())
                axis = draw.randrange(3)
                chosen = [draw.randrange(-made.shape[axis], made.shape[axis]) for _ in range(3)]
                index = [draw.choice([slice(None), slice(None, None, -1), slice(1)]) for _ in range(3)]
                index[axis] = draw.choice([chosen, numpy.array(chosen), slice(None, None, 2)])
                self.assertEqual(numpy.asarray(xs[tuple(index)]).tolist(), made[tuple(index)].tolist())
                value = draw.choice([5, numpy.arange(made[tuple(index)].shape[-1]).tolist()])
                xs[tuple(index)], made[tuple(index)] = value, value
                self.assertEqual(numpy.asarray(xs).tolist(), made.tolist())
                mask = made > draw.randint(-8, 8)
                self.assertEqual(numpy.asarray(xs[mask]).tolist(), made[mask].tolist())
                xs[mask], made[mask] = 7, 7
                self.assertEqual(numpy.asarray(xs).tolist(), made.tolist())
                for name in 'max', 'min', 'argmax', 'argmin':
                    found, wanted = getattr(xs, name)(axis), getattr(made, name)(axis)
                    self.assertEqual(found.tolist() if name[0] == 'm' else found, wanted.tolist())

    def test_dlpack(self):
        for xs, wanted in [(apfloat.e4m3fn.array([[0.5, -1], [2, 448]]), 'f2'), (apfloat.bfloat.array([1, 2]), 'f4'),
                           (apfloat.double.array([[0.1]]), 'f8'), (apfloat.float4_e2m1fn.array([0.5, -6]), 'f2')]:
            self.assertEqual(xs.__dlpack_device__(), (1, 0))
            taken = numpy.from_dlpack(xs)
            self.assertEqual((taken.dtype, taken.tolist()), (numpy.dtype(wanted), numpy.asarray(xs).tolist()))
        for wrong in {'stream': 1}, {'dl_device': (2, 0)}, {'copy': False}:
            with self.assertRaises(BufferError):
                xs.__dlpack__(**wrong)
        with self.assertRaises(ValueError):
            numpy.from_dlpack(apfloat.quad.array(['0.1']))

    @unittest.skipUnless(ml_dtypes, 'there is no ml_dtypes')
    def test_ml_dtypes(self):
        for format in SMALL + [apfloat.bfloat]:
            name = 'bfloat16' if format is apfloat.bfloat else f'float8_{format.name}'
            dtype = numpy.dtype(getattr(ml_dtypes, name))
            made = numpy.arange(8).reshape(2, 4).astype(dtype)
            xs = format.array(made)
            self.assertEqual(integers(xs), made.astype(int).tolist())
            self.assertEqual(numpy.asarray(xs, dtype).astype(int).tolist(), made.astype(int).tolist())
            self.assertEqual(integers(apfloat.single.array(made)), made.astype(int).tolist())


if __name__ == '__main__':
    unittest.main()
