"""Computes tests/c/p3109: calls of C on formats of IEEE P3109.

    python3 evidence/p3109_calls.py | diff - tests/c/p3109

Codes are those of evidence/projection_rules.py. Values are at and beside numbers and midpoints, or drawn.
"""

from exact.bits import decoded, encoded
from exact.data import Finite, Infinite
from exact.drawing import Generator
from exact.formats import E4M3FNUZ, FORMATS, HALF
from exact.rounding import Mode, delivered
from exact.status import OK
from projection_rules import project
from projections import INFINITY, NEGATIVE_INFINITY, NOT_A_NUMBER, Projection
from row_files import MODES, hexes
from storage_calls import SOURCES, TARGETS, line, operands
from storage_formats import convert

FORMS = (
    Projection(8, 3, True, True), Projection(8, 4, True, True), Projection(8, 4, True, False),
    Projection(8, 1, False, False), Projection(3, 1, True, False), Projection(3, 3, False, True),
    Projection(4, 2, True, True), Projection(6, 2, False, True), Projection(6, 3, True, False),
    Projection(11, 5, False, False), Projection(15, 8, True, True), Projection(15, 1, True, True),
    Projection(15, 14, True, False), Projection(15, 15, False, True),
)


# what joins a mode, and what becomes of what is past the largest number; most rows do not saturate
SATURATED = (("", "overflow"), ("", "overflow"), ("+saturate", "propagate"), ("+finite", "finite"))


def load(form, target, code, mode):
    """The value of a code in another format, the flags, and whether information is lost."""
    value = form.value(code)
    if value == NOT_A_NUMBER:
        return convert(E4M3FNUZ, target, decoded(E4M3FNUZ, 0x80), mode)
    if value in (INFINITY, NEGATIVE_INFINITY):
        return convert(HALF, target, Infinite(value == NEGATIVE_INFINITY), mode)
    if value == 0:
        return convert(HALF, target, Finite(False, 0), mode)
    quanta = abs(value) * (1 << target.scale)
    made, status = delivered(target, mode, value < 0, quanta.numerator, quanta.denominator)
    return made, status, status != OK


def magnitudes_of(form, draw):
    """Numbers of a form, the largest one among them, and midpoints above them."""
    places = [draw.between(0, form.largest_index) for _ in range(2)] + [form.largest_index]
    for place in places:
        below, above = form.magnitude(place), form.magnitude(place + 1)
        yield from (below, (below + above) / 2)


def into_projections(form, sources, draw):
    """Rows of values that become codes, each in a mode by turns."""
    for name in sources:
        source = FORMATS[name]
        for bits in operands(source, magnitudes_of(form, draw), draw):
            mode, x = [*[mode.value for mode in MODES], "odd"][draw.between(0, 5)], decoded(source, bits)
            word, saturation = SATURATED[draw.between(0, 3)]
            code, status, loses = project(form, source, x, (mode, 0, 0), saturation)
            yield line("to_p3109", f"{name}>{form.name}", mode + word, hexes(source, bits), hexes(form, code), status,
                       loses)


def into_projections_randomly(form, name, draw):
    """Rows of values that become codes with the lowest digits of random numbers, in one of the three ways by turns."""
    source = FORMATS[name]
    for bits in operands(source, magnitudes_of(form, draw), draw):
        way, digits, random = "abc"[draw.between(0, 2)], draw.between(1, 32), draw.between(0, (1 << 32) - 1)
        word, saturation = SATURATED[draw.between(0, 3)]
        made = project(form, source, decoded(source, bits), (way, digits, random % (1 << digits)), saturation)
        yield line("to_p3109_by", f"{name}>{form.name}", f"{way} {digits} {random:x}{word}",
                   hexes(source, bits), hexes(form, made[0]), *made[1:])


def out_of_projections(form, targets, draw):
    """Rows of codes that become values."""
    for name in targets:
        target = FORMATS[name]
        most = (1 << form.bits) - 1
        codes = {draw.between(0, most) for _ in range(5)} | {0, 1, form.largest_index, form.nan_code, most}
        for code in sorted(codes | {form.infinity(False), form.codes_without_sign - 1}):
            mode = MODES[draw.between(0, 4)]
            value, status, loses = load(form, target, code, mode)
            yield line("from_p3109", f"{form.name}>{name}", mode.value, hexes(form, code),
                       hexes(target, encoded(target, value)), status, loses)


def main():
    """Prints the file."""
    print("# Calls of C on formats of IEEE P3109. Computed by evidence/p3109_calls.py.")
    draw = Generator()
    for place, form in enumerate(FORMS):
        print("\n".join(into_projections(form, SOURCES[place % 3 :: 3], draw)))
        print("\n".join(out_of_projections(form, TARGETS[place % 3 :: 3], draw)))
    for place, form in enumerate(FORMS):
        for name in SOURCES[place % 3 :: 3]:
            print("\n".join(into_projections_randomly(form, name, draw)))


if __name__ == "__main__":
    main()
