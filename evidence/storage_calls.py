"""Computes tests/c/storage: calls of C on storage formats.

    python3 evidence/storage_calls.py | diff - tests/c/storage

Each value is looked up between the fractions that the codes mean, as evidence/storage_formats.py does it. The
values are at and beside numbers and midpoints of the storage format, in several formats, and any others that
a generator draws.
"""

from bisect import bisect_right
from fractions import Fraction

import e3m4
from conversion_modes import moves
from conversion_modes import store as store_element
from exact.bits import decoded, encoded
from exact.data import Finite, Infinite, is_nan, number
from exact.drawing import Generator
from exact.formats import FORMATS
from exact.rounding import Mode, delivered
from exact.status import INEXACT, INVALID_OP, OK, OVERFLOW, UNDERFLOW, names
from row_files import MODES, hexes
from storage_formats import FORMATS as STORED
from stored_arithmetic import ELEMENTS, OPERATIONS, greater, lesser

FORMS = {form.name.lower(): form for form in (*STORED, e3m4.FORM)}

# The code of the largest number without a sign, and whether there are infinities, or a NaN in their place.
LARGEST = {"e2m1fn": 7, "e2m3fn": 31, "e3m2fn": 31, "e3m4": 111, "e8m0fnu": 254, "ue4m3": 126}
WITH_NANS = ("e3m4", "e8m0fnu", "ue4m3")

SATURATIONS = ("", "+saturate", "+finite", "+all")

# The code of the least normal number, and what random digits lead to past the largest one.
SMALLEST_NORMAL = {"e3m4": 16, "e8m0fnu": 0, "ue4m3": 8}

SOURCES = ("half", "single", "double", "quad", "x87", "bfloat", "tf32", "e5m2", "e4m3fn", "e4m3fnuz")
TARGETS = (*SOURCES, "half+ieee", "half+ieee+before", "e5m2+ieee", "single+ieee+before")


def largest_code(word, negative):
    """The code of the largest number of a sign."""
    return LARGEST[word] + (1 << FORMS[word].bits - 1 if negative and word not in ("e8m0fnu", "ue4m3") else 0)


def is_nan_code(word, code):
    """Whether a code is that of a NaN."""
    if word == "e3m4":
        return code % 128 > 112
    return word in WITH_NANS and code == LARGEST[word] + 1


def store(word, saturation, source, x, mode):
    """The code and the flags."""
    code, status, _ = FORMS[word].store(source, x, mode)
    if is_nan(x):
        return (largest_code(word, False), INVALID_OP) if saturation == "+all" else (code, status)
    if isinstance(x, Finite):
        is_past = saturation and status & OVERFLOW
        return (largest_code(word, x.negative) if is_past else code), status
    if saturation in ("+finite", "+all") and word in WITH_NANS and status != INVALID_OP:
        return largest_code(word, x.negative), INEXACT
    return code, status


def store_by(word, source, x, mode):
    """The code and the flags in a mode of conversions: to odd, or random digits and a number."""
    form = FORMS[word]
    if word not in WITH_NANS:
        return store_element(form, x, mode, False, source)[:2]
    if not isinstance(x, Finite) or x.quanta == 0 or (x.negative and word != "e3m4"):
        return form.store(source, x, Mode.EVEN)[:2]
    sign = largest_code(word, x.negative) - LARGEST[word]
    exact = Fraction(x.quanta, 1 << source.scale)
    if exact < form.points[0]:
        return 0, UNDERFLOW | INEXACT
    index = bisect_right(form.points, exact) - 1
    if index <= LARGEST[word]:
        if form.points[index] == exact:
            return sign + index, OK
        index += moves(mode, form.points, index, exact)
    if index > LARGEST[word]:
        return (sign + LARGEST[word], INEXACT) if mode is None else (sign + LARGEST[word] + 1, OVERFLOW | INEXACT)
    return sign + index, UNDERFLOW | INEXACT if index < SMALLEST_NORMAL[word] else INEXACT


def load(word, saturation, target, code, mode):
    """The value in another format, and the flags."""
    value, status, _ = FORMS[word].load(target, code, mode)
    if is_nan_code(word, code):
        return (number(target, False, target.largest), INVALID_OP) if saturation == "+all" else (value, status)
    negative = word not in ("e8m0fnu", "ue4m3") and code >> FORMS[word].bits - 1 == 1
    if word == "e3m4" and code % 128 == 112:
        is_made_finite = saturation in ("+finite", "+all")
        return (number(target, negative, target.largest), INEXACT) if is_made_finite else (value, status)
    if saturation and not isinstance(value, Finite):
        value = number(target, negative, target.largest)
    return value, status


def operands(source, magnitudes, draw):
    """Bits of values of a format: those beside some magnitudes, both signs of each, and any others."""
    found = {0, 1} | ({encoded(source, Infinite(False))} if source.has_infinity else set())
    for exact in magnitudes:
        amount = exact * (1 << source.scale)
        value, _ = delivered(source, Mode.EVEN, False, amount.numerator, amount.denominator)
        bits = encoded(source, value)
        found |= {bits - 1, bits, bits + 1}
    greatest = 1 << source.bits - 1
    found |= {draw.wide_word() % greatest for _ in range(3)}
    return [negative << source.bits - 1 | bits % greatest for bits in sorted(found) for negative in (0, 1)]


def near_points(word, draw):
    """Numbers of a storage format, and midpoints above them."""
    points = FORMS[word].points
    for _ in range(3):
        place = draw.between(1, len(points) - 2)
        yield from (points[place], (points[place] + points[place + 1]) / 2)


def line(call, kind, mode, given, made, status, number):
    """A row. The number is the answer's third field."""
    return "\t".join((call, kind, mode, given, made, names(status), str(int(number))))


def conversions(draw):
    """Rows of conversions into storage formats and out of them, each in a mode and with a saturation by turns."""
    turns = [(mode, saturation) for saturation in SATURATIONS for mode in MODES]
    for word, form in FORMS.items():
        for name in SOURCES:
            source = FORMATS[name]
            for bits in operands(source, near_points(word, draw), draw):
                mode, saturation = turns[draw.between(0, len(turns) - 1)]
                code, status = store(word, saturation, source, decoded(source, bits), mode)
                yield line("to_storage", f"{name}>{word}", mode.value + saturation, hexes(source, bits),
                           hexes(form, code), status, is_nan_code(word, code))
        for name in TARGETS:
            target = FORMATS[name]
            codes = {draw.between(0, (1 << form.bits) - 1) for _ in range(6)} | {0, (1 << form.bits) - 1}
            for code in sorted(codes | {largest_code(word, False), LARGEST[word] + 1}):
                mode, saturation = turns[draw.between(0, len(turns) - 1)]
                value, status = load(word, saturation, target, code, mode)
                yield line("from_storage", f"{word}>{name}", mode.value + saturation, hexes(form, code),
                           hexes(target, encoded(target, value)), status, is_nan(value))


def conversions_by_mode(draw):
    """Rows of conversions to odd and with random digits."""
    for word, form in FORMS.items():
        for name in SOURCES:
            source = FORMATS[name]
            for bits in operands(source, near_points(word, draw), draw):
                digits = draw.between(0, 32)
                mode = (digits, draw.between(0, (1 << digits) - 1)) if digits else None
                code, status = store_by(word, source, decoded(source, bits), mode)
                said = f"random {mode[0]} {mode[1]:x}" if mode else "odd"
                yield line("to_storage_by", f"{name}>{word}", said, hexes(source, bits), hexes(form, code), status,
                           is_nan_code(word, code))


def conversions_between(draw):
    """Rows of conversions from one storage format to another: `quad` has every number of both."""
    quad = FORMATS["quad"]
    for word, form in FORMS.items():
        for target in FORMS:
            codes = {draw.between(0, (1 << form.bits) - 1) for _ in range(5)}
            for code in sorted(codes | {0, LARGEST[word], LARGEST[word] + 1}):
                mode, saturation = MODES[draw.between(0, 4)], SATURATIONS[draw.between(0, 3)]
                x, invalid = load(word, "", quad, code, Mode.EVEN)
                made, status = store(target, saturation, quad, x, mode)
                yield line("between_storage", f"{word}>{target}", mode.value + saturation, hexes(form, code),
                           hexes(FORMS[target], made), status | invalid, is_nan_code(target, made))


def operations(draw):
    """Rows of operations on codes, three of them with each."""
    for form in ELEMENTS:
        for name, operation, steps in OPERATIONS:
            for _ in range(24):
                mode, codes = MODES[draw.between(0, 4)], [draw.between(0, 2 * form.count - 1) for _ in range(3)]
                code, status = operation(form, mode, *codes[: len(steps)])
                yield line("storage_operation", form.name.lower(), mode.value,
                           f"{name.removesuffix('_r')} {hexes(form, *codes)}", hexes(form, code), status, False)
        for name, operation in ("minimum", lesser), ("maximum", greater):
            for codes in [(0, form.count, 3), (form.count, 0, 3)] + [
                    [draw.between(0, 2 * form.count - 1) for _ in range(3)] for _ in range(12)]:
                yield line("storage_operation", form.name.lower(), "even", f"{name} {hexes(form, *codes)}",
                           hexes(form, *operation(form, *codes[:2])), OK, False)


def main():
    """Prints the file."""
    print("# Calls of C on storage formats. Computed by evidence/storage_calls.py.")
    draw = Generator()
    print("\n".join(conversions(draw)))
    print("\n".join(conversions_by_mode(draw)))
    print("\n".join(conversions_between(draw)))
    print("\n".join(operations(draw)))


if __name__ == "__main__":
    main()
