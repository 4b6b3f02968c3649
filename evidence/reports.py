"""Compares what the program `report_conversion` writes with reports computed from the definitions.

    python3 evidence/reports.py PROGRAM [SEED]

It draws values of several formats, infinities, NaNs, zeros, denormals and values past the largest ones among them,
computes a report on each conversion of them by fractions and the model of the formats, and compares all of its text. It
says how many agree, or writes both texts and ends with 1 at the first difference.
"""

import subprocess
import sys
from collections import Counter
from dataclasses import dataclass, field
from decimal import ROUND_FLOOR, Decimal, localcontext
from fractions import Fraction
from random import Random

import e3m4
from blocks import ELEMENTS, RULES, floor_log2, mx_quantize
from exact.bits import decoded
from exact.conversions import convert, convert_finite, convert_saturating
from exact.data import Finite, Infinite, is_nan
from exact.formats import DOUBLE, FORMATS, QUAD
from exact.rounding import Mode
from exact.status import INEXACT, INVALID_OP, OVERFLOW, UNDERFLOW
from storage_calls import FORMS, is_nan_code, store

SOURCES = (
    "half", "single", "double", "bfloat", "e5m2", "e4m3fn", "e4m3fnuz", "e4m3", "e5m2fnuz", "e4m3b11fnuz", "tf32",
)
BUILT_IN = (*SOURCES, "quad", "x87")
BLOCKS = dict(zip(("mxfp8e5m2", "mxfp8e4m3", "mxfp6e3m2", "mxfp6e2m3", "mxfp4"), ELEMENTS))
TARGETS = (*BUILT_IN, *FORMS, *BLOCKS, *(f"{word}+{rule}" for word in BLOCKS for rule in RULES))
# The saturating options, and what the model calls them.
SATURATING = {
    "--saturate": ("+saturate", convert_saturating),
    "--saturate-finite": ("+finite", lambda *given: convert_finite(*given, keeps_nans=True)),
    "--saturate-all": ("+all", lambda *given: convert_finite(*given, keeps_nans=False)),
}
# The digits of a storage format, and the exponent of its smallest normal number.
DIGITS = {
    "e2m1fn": (2, 0), "e2m3fn": (4, 0), "e3m2fn": (3, -2), "e3m4": (5, -2), "e8m0fnu": (1, -127), "ue4m3": (4, -6),
}
FLAGS = (INEXACT, UNDERFLOW, OVERFLOW, INVALID_OP)


def meant(format, x):
    """A datum as a fraction, or `None` for a NaN and a text for an infinity."""
    if is_nan(x):
        return None
    if isinstance(x, Infinite):
        return "infinity"
    return Fraction(x.signed_quanta, 1 << format.scale)


def converted(source, word, option, mode, length, values):
    """What each value becomes, its flags, the precision of the target, and the least exponent that it has there."""
    form, _, rule = word.partition("+")
    if form in BLOCKS:
        element = BLOCKS[form]
        for first in range(0, len(values), length):
            codes, scale, flags = mx_quantize(element, source, mode, values[first:first + length], rule or "floor")
            by = Fraction(2) ** (scale - 127)
            for code, status in zip(codes, flags):
                result = None if scale == 255 else element.number(code) * by
                yield result, status, element.precision, element.least_exponent + scale - 127
        return
    saturation, call = SATURATING.get(option, ("", convert))
    for x in values:
        if word in FORMS:
            code, status = store(word, saturation, source, x, mode)
            yield (stored_number(word, code), status, *DIGITS[word])
        else:
            target = FORMATS[word]
            value, status, _ = call(source, target, x, mode)
            yield meant(target, value), status, target.precision, target.least_exponent


def stored_number(word, code):
    """What a code of a storage format means."""
    if is_nan_code(word, code):
        return None
    if word == "e3m4" and code % 128 == 112:
        return "infinity"
    if word in ("e8m0fnu", "ue4m3"):
        return FORMS[word].points[code]
    negative, size = FORMS[word].value(code)
    return -size if negative else size


@dataclass
class Measures:
    """What a conversion does."""

    exact: int = 0
    all: Counter = field(default_factory=Counter)
    fates: dict = field(default_factory=dict)
    flags: list = field(default_factory=lambda: [0] * len(FLAGS))
    results: Counter = field(default_factory=Counter)
    # The errors with their numbers.
    errors: list = field(default_factory=list)
    ulps: list = field(default_factory=list)
    signal: Fraction = Fraction()
    noise: Fraction = Fraction()

    def count(self, x, result, status, precision, least):
        """Counts a value, as it is meant, and its result."""
        self.flags = [count + bool(status & flag) for count, flag in zip(self.flags, FLAGS)]
        self.results[kind(result)] += 1
        if kind(x) != "numbers":
            return
        fates = self.fates.setdefault(floor_log2(abs(x)), Counter())
        if result is None or result == "infinity":
            self.all["past"] += 1
            fates["past"] += 1
            return
        self.signal += x * x
        if x == result:
            self.exact += 1
            return
        error = abs(x - result)
        self.noise += error * error
        exponent = max(floor_log2(abs(result)), least) if result else least
        ulps = error / Fraction(2) ** (exponent - precision + 1)
        self.errors.append((error, x))
        self.ulps.append((ulps, x))
        fate = "past" if ulps > 1 else "zero" if result == 0 else "inexact"
        self.all[fate] += 1
        fates[fate] += 1

    def cells(self):
        """The words of a column."""
        return [
            self.exact, self.all["inexact"] + self.all["zero"], self.all["zero"], self.all["past"], *self.flags,
            self.results["zeros"], self.results["infinities"], self.results["NaNs"],
            *largest(self.errors), *largest(self.ulps), self.ratio(),
        ]

    def ratio(self):
        """The ratio of signal to noise."""
        if not self.errors:
            return "no noise"
        if not as_double(self.signal) or not as_double(self.noise):
            return "-"
        with localcontext() as context:
            context.prec = 60
            ratio = self.signal / self.noise
            logarithm = (Decimal(ratio.numerator) / Decimal(ratio.denominator)).log10()
            hundredths = int((logarithm * 1000 + Decimal("0.5")).to_integral_value(ROUND_FLOOR))
        return f"{'-' if hundredths < 0 else ''}{abs(hundredths) // 100}.{abs(hundredths) % 100:02} dB"


def kind(x):
    """What kind of value a fraction, an infinity or a NaN is."""
    if x is None:
        return "NaNs"
    return "infinities" if x == "infinity" else "numbers" if x else "zeros"


def as_double(x):
    """A fraction as a double, or 0 past the largest one."""
    try:
        return float(x)
    except OverflowError:
        return 0.0


def largest(found):
    """The largest of some errors, and its number, as texts; the first of those that are equal as quads."""
    if not found:
        return "0", "-"
    error, x = max(found, key=lambda each: as_quad(each[0]))
    return decimal(error, 4), number(x)


def as_quad(error):
    """A positive fraction with the digits of a quad, rounded to nearest, ties to even."""
    last = Fraction(2) ** (floor_log2(error) - QUAD.precision + 1)
    return round(error / last) * last


def decimal(x, count):
    """A fraction with so many decimal digits, rounded to nearest, ties to even."""
    size = abs(x)
    exponent = len(str(size.numerator)) - len(str(size.denominator))
    exponent -= Fraction(10) ** exponent > size
    digits = round(size / Fraction(10) ** (exponent - count + 1))
    if digits == 10**count:
        digits, exponent = digits // 10, exponent + 1
    return written(x < 0, str(digits), exponent)


def number(x):
    """A number that a double has: its shortest decimal, or nine digits if that has more."""
    _, digits, last = Decimal(repr(float(x))).normalize().as_tuple()
    if len(digits) > 9:
        return decimal(x, 9)
    return written(x < 0, "".join(map(str, digits)), last + len(digits) - 1)


def written(negative, digits, exponent):
    """Digits as the library writes them, by the exponent of the first one."""
    if -6 <= exponent <= 20:
        if exponent < 0:
            text = f"0.{'0' * (-exponent - 1)}{digits}"
        else:
            whole = digits[:exponent + 1].ljust(exponent + 1, "0")
            text = f"{whole}.{digits[exponent + 1:] or '0'}"
    else:
        text = f"{digits[0]}{'.' + digits[1:] if digits[1:] else ''}e{exponent}"
    return ("-" if negative else "") + text


ROWS = (
    "exact", "inexact", "become zero", "past the largest", "flags: inexact", "underflow", "overflow", "invalid",
    "results: zeros", "infinities", "NaNs", "largest error", "  of the value", "largest, in ulps", "  of the value",
    "signal to noise",
)


def report(option, length, name, words, mode, bits):
    """The lines of a report."""
    source = FORMATS[name]
    data = [decoded(source, each) for each in bits]
    values = [meant(source, x) for x in data]
    kinds = Counter(map(kind, values))
    kinds_text = ", ".join(f"{kinds[each]} {each}" for each in ("numbers", "zeros", "infinities", "NaNs"))
    yield f"{len(bits)} values of {name}: {kinds_text}"
    yield ""
    columns = []
    for word in words:
        measures = Measures()
        for x, made in zip(values, converted(source, word, option, mode, length, data)):
            measures.count(x, *made)
        columns.append(measures)
    table = [("", words), *zip(ROWS, zip(*[list(map(str, each.cells())) for each in columns]))]
    width = max(14, 2 + max(len(cell) for _, cells in table for cell in cells))
    for label, cells in table:
        yield f"{label:<18}" + "".join(cell.rjust(width) for cell in cells)
    binades = Counter(floor_log2(abs(x)) for x in values if kind(x) == "numbers")
    if not binades:
        return
    yield ""
    most = max(binades.values())
    lines = [f"{'binade':<8}{'numbers':>12} {'':<20}"]
    for exponent in sorted(binades, reverse=True):
        bar = "#" * -(-binades[exponent] * 20 // most)
        lines.append(f"{f'2^{exponent}':<8}{binades[exponent]:>12} {bar:<20}")
    for word, measures in zip(words, columns):
        cells = [word, *(fate(measures.fates.get(exponent, {})) for exponent in sorted(binades, reverse=True))]
        width = max(map(len, cells))
        lines = [f"{line}  {cell:<{width}}" for line, cell in zip(lines, cells)]
    yield from (line.rstrip() for line in lines)


def fate(fates):
    """What became of the numbers of a binade."""
    return " ".join(f"{fates[each]} {each}" for each in ("inexact", "zero", "past") if fates.get(each)) or "exact"


def drawn(random, name, count):
    """The bits of some values, most of them about one exponent, and the bytes of each."""
    source = FORMATS[name]
    written = source.precision - 1
    middle = random.choice((source.greatest_field // 2, random.randrange(source.greatest_field)))
    spread = random.choice((1, 3, 20))
    bits = []
    for _ in range(count):
        exponent = min(max(middle + round(random.gauss(0, spread)), 0), source.greatest_field)
        digits = random.getrandbits(written) & random.choice((-1, -1, -1 << max(written - 3, 0)))
        if random.random() < 0.05:
            exponent, digits = random.choice(
                ((0, 0), (0, digits), (source.greatest_field, 0), (source.greatest_field, digits)))
        bits.append(random.getrandbits(1) << source.bits - 1 | exponent << written | digits)
    return bits


def bytes_of(name):
    """The bytes of a value."""
    return -(-FORMATS[name].bits // 8) if name != "tf32" else 4


def cases(random):
    """The words and the bits of each case."""
    for name in SOURCES:
        for mode in Mode:
            for option in ("", *SATURATING):
                words = random.sample(TARGETS, random.choice((1, 2, 4)))
                length = random.choice((1, 2, 16, 32))
                count = length * random.choice((0, 3, 5)) if random.random() < 0.3 else 96
                yield option, length, name, words, mode, drawn(random, name, count)
    # Signs, sizes and errors that no drawn value has.
    one = DOUBLE.greatest_field // 2 << 52
    for bits in ([], [0, 1 << 63], [1, one], [one + (1 << 58) + 1], [0x7FEFFFFFFFFFFFFF, 0xFFEFFFFFFFFFFFFF]):
        yield "", 1, "double", ["half", "double", "e8m0fnu", "mxfp4"], Mode.EVEN, bits


def main():
    """Compares all cases."""
    program = sys.argv[1]
    random = Random(int(sys.argv[2]) if len(sys.argv) > 2 else 1)
    count = 0
    for option, length, name, words, mode, bits in cases(random):
        command = [program, *filter(None, [option]), "--block-length", str(length), name, *words, mode.value]
        given = b"".join(each.to_bytes(bytes_of(name), "little") for each in bits)
        run = subprocess.run(command, input=given, capture_output=True, check=False)
        wanted = "".join(f"{line}\n" for line in report(option, length, name, words, mode, bits))
        if (run.returncode, run.stderr, run.stdout.decode()) != (0, b"", wanted):
            print(" ".join(command), run.stderr.decode(), "expected:", wanted, "given:", run.stdout.decode(), sep="\n")
            return 1
        count += 1
    print(f"{count} reports agree")
    return 0


if __name__ == "__main__":
    sys.exit(main())
