"""Computes what `convert_values --stochastic SEED FROM TO` writes, by exact fractions.

    python3 evidence/random_streams.py --check     the lines of tests/streams/conversions with that option
    python3 evidence/random_streams.py SEED FROM TO < READ > WRITTEN

The random numbers are the upper 32 bits of SplitMix64, by the position of a value in the stream.
"""

import sys
from bisect import bisect_right
from fractions import Fraction
from pathlib import Path

import e3m4
from conversion_modes import ELEMENTS, store
from exact.bits import decoded, encoded
from exact.conversions import convert
from exact.data import Finite, Infinite, infinity, is_nan, number
from exact.formats import FORMATS
from exact.rounding import Mode
from exact.status import INEXACT, INVALID_OP, OK, OVERFLOW, UNDERFLOW
from storage_formats import Scales, Unsigned

WORD = (1 << 64) - 1
LINES = Path(__file__).parent.parent / "tests" / "streams" / "conversions"
STORED = dict(zip(("e2m1fn", "e2m3fn", "e3m2fn"), ELEMENTS))

# The storage formats with NaNs, with their numbers in order, the code of the largest one, and what is past it.
WITH_NANS = {"e3m4": (e3m4.FORM, 111, 112), "ue4m3": (Unsigned(), 126, 127), "e8m0fnu": (Scales(), 254, 255)}
SMALLEST_NORMAL = {"e3m4": 16, "ue4m3": 8, "e8m0fnu": 0}


def random_at(seed, position):
    """The random number of 32 binary digits at that position."""
    state = seed + (position + 1) * 0x9E3779B97F4A7C15 & WORD
    state = (state ^ state >> 30) * 0xBF58476D1CE4E5B9 & WORD
    state = (state ^ state >> 27) * 0x94D049BB133111EB & WORD
    return (state ^ state >> 31) >> 32


def picked(precision, exact, random):
    """The neighbour that a random number picks, of a number of quanta, and whether it is the number."""
    spacing = 1
    while exact >= spacing << precision:
        spacing *= 2
    below = exact // spacing * spacing
    parts = (exact - below) * (1 << 32) // spacing
    return below + (spacing if parts + random >= 1 << 32 else 0), below == exact


def rounded(source, target, x, random):
    """The value in the target, and the flags."""
    if not isinstance(x, Finite) or x.quanta == 0:
        return convert(source, target, x, Mode.EVEN)[:2]
    quanta, exact = picked(target.precision, Fraction(x.quanta << target.scale, 1 << source.scale), random)
    if quanta > target.largest:
        return infinity(target, x.negative), OVERFLOW | INEXACT
    flags = OK if exact else UNDERFLOW | INEXACT if quanta < target.smallest_normalized else INEXACT
    return number(target, x.negative, int(quanta)), flags


def treated(overflow, target, x, value, flags):
    """The same with what a saturating option says of numbers, infinities and NaNs."""
    largest = number(target, getattr(x, "negative", False), target.largest)
    if isinstance(x, Finite):
        return (value if isinstance(value, Finite) or not overflow else largest), flags
    if overflow == "--saturate-all" and is_nan(x):
        return number(target, False, target.largest), INVALID_OP
    if overflow in ("--saturate-finite", "--saturate-all") and not is_nan(x):
        return largest, INEXACT
    return value, flags


def stored(word, source, x, random):
    """The code in a storage format with NaNs, and the flags."""
    form, largest, past = WITH_NANS[word]
    if not isinstance(x, Finite) or x.quanta == 0 or x.negative and word != "e3m4":
        return form.store(source, x, Mode.EVEN)[:2]
    sign = 0x80 if x.negative else 0
    exact = Fraction(x.quanta, 1 << source.scale)
    if exact < form.points[0]:
        return 0, UNDERFLOW | INEXACT
    index = bisect_right(form.points, exact) - 1
    is_exact = form.points[index] == exact
    if index <= largest and not is_exact:
        share = (exact - form.points[index]) / (form.points[index + 1] - form.points[index])
        index += (share.numerator << 32) // share.denominator + random >= 1 << 32
    if index > largest:
        return sign + past, OVERFLOW | INEXACT
    return sign + index, OK if is_exact else UNDERFLOW | INEXACT if index < SMALLEST_NORMAL[word] else INEXACT


def treated_code(overflow, word, x, code, flags):
    """The same with what a saturating option says of numbers, infinities and NaNs."""
    largest = WITH_NANS[word][1] + (0x80 if word == "e3m4" and getattr(x, "negative", False) else 0)
    if isinstance(x, Finite):
        return (largest if overflow and flags & OVERFLOW else code), flags
    if overflow == "--saturate-all" and is_nan(x):
        return WITH_NANS[word][1], INVALID_OP
    if overflow in ("--saturate-finite", "--saturate-all") and isinstance(x, Infinite) and flags != INVALID_OP:
        return largest, INEXACT
    return code, flags


def is_nan_code(word, code):
    """Whether a code of a storage format with NaNs is one."""
    return code % 128 > 112 if word == "e3m4" else code == WITH_NANS[word][2]


def width(form):
    """How many bytes a value takes."""
    least = (form.bits + 7) // 8
    return 4 if least == 3 else least


def converted(overflow, seed, source_word, target_word, read):
    """The bytes written, and the line of counts."""
    source, counts, written = FORMATS[source_word], [0] * 6, b""
    for position in range(len(read) // width(source)):
        place = position * width(source)
        bits = int.from_bytes(read[place : place + width(source)], "little") % (1 << source.bits)
        x, random = decoded(source, bits), random_at(seed, position)
        if target_word in STORED:
            form = STORED[target_word]
            code, flags, _ = store(form, x, (32, random), overflow == "--saturate-all", source)
            written += bytes([code])
            is_not_a_number = False
        elif target_word in WITH_NANS:
            code, flags = treated_code(overflow, target_word, x, *stored(target_word, source, x, random))
            written += bytes([code])
            is_not_a_number = is_nan_code(target_word, code)
        else:
            target = FORMATS[target_word]
            value, flags = treated(overflow, target, x, *rounded(source, target, x, random))
            written += encoded(target, value).to_bytes(width(target), "little")
            is_not_a_number = is_nan(value)
        for place, is_counted in enumerate(
            (True, flags & INEXACT, flags & UNDERFLOW, flags & OVERFLOW, flags & INVALID_OP, is_not_a_number)
        ):
            counts[place] += bool(is_counted)
    names = ("values", "inexact", "underflow", "overflow", "invalid", "NaNs")
    return written, ", ".join(f"{name} {count}" for name, count in zip(names, counts))


def check():
    """Compares the stored lines with what is computed."""
    checked = 0
    for line in LINES.read_text(encoding="utf-8").splitlines():
        words, *columns = line.split("\t")
        words = words.split()
        if "--stochastic" not in words:
            continue
        overflow = words[0] if words[0].startswith("--saturate") else ""
        seed, source, target = words[-3:]
        written, counts = converted(overflow, int(seed), source, target, bytes.fromhex(columns[0]))
        if columns[1:] != [written.hex(" "), counts, "0"]:
            sys.exit(f"{line}\nis to be\n{written.hex(' ')}\t{counts}")
        checked += 1
    print(f"lines with random digits: {checked}")


def main():
    """Checks the lines, or converts a stream."""
    if sys.argv[1:] == ["--check"]:
        check()
        return
    overflow = sys.argv.pop(1) if sys.argv[1].startswith("--saturate") else ""
    seed, source, target = sys.argv[1:]
    written, counts = converted(overflow, int(seed), source, target, sys.stdin.buffer.read())
    sys.stdout.buffer.write(written)
    print(counts, file=sys.stderr)


main()
