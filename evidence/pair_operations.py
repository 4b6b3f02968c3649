"""Computes tests/rows/pair_operations.tsv: pairs of doubles to and from other formats, fused sums of
pairs, and their shortest decimals, which are read back.

    python3 evidence/pair_operations.py | diff - tests/rows/pair_operations.tsv

The parts of a pair are added as fractions, and the sum is rounded once. A wide result is split into
the nearest double and the rest. Some operands are chosen, and the others are drawn from a seed.
"""

from random import Random

from exact.bits import decoded, encoded
from exact.conversions import convert
from exact.data import Infinite, is_nan, is_nonzero_number
from exact.decimals import shortest, spelled
from exact.formats import DOUBLE, FALLBACK, FORMATS
from exact.pairs import Pair, split
from exact.rounding import Mode
from format_of import computed
from row_files import MODES, hexes, row

HALF_OF_PAIR = (1 << 64) - 1

# Doubles by their bits.
ONE = 0x3FF0 << 48
INFINITY = 0x7FF0 << 48
QUIET = 0x7FF8 << 48
SIGNALING = INFINITY | 1
MINUS = 1 << 63
SMALLEST = 1
LARGEST = INFINITY - 1


def power(exponent):
    """The bits of a power of two."""
    return exponent + 1023 << 52 if exponent >= -1022 else 1 << exponent + 1074


def pair(high, low=0):
    """The bits of a pair."""
    return high | low << 64


# The largest double, and the greatest low part at which both have 106 digits.
LARGEST_PAIR = pair(LARGEST, power(970) - 2)

SPECIAL = (
    pair(ONE, ONE | MINUS),
    pair(0, ONE),
    pair(MINUS, QUIET),
    pair(INFINITY, ONE),
    pair(INFINITY | MINUS),
    pair(SIGNALING | MINUS),
    pair(QUIET | 5, SIGNALING),
    pair(ONE, INFINITY | MINUS),
    pair(ONE | MINUS, SIGNALING | 6),
    pair(SMALLEST, SMALLEST),
    LARGEST_PAIR,
    LARGEST_PAIR | MINUS | MINUS << 64,
)

# A midpoint between two values of each target with a low part that is far below it: rounding the
# high part, or the sum to 106 digits, rounds some of them to the wrong side.
MIDPOINTS = {
    "half": (pair(ONE + (1 << 41), power(-200)), pair(ONE + (1 << 41), power(-1074) | MINUS)),
    "single": (pair(ONE + (3 << 28), power(-60) | MINUS), pair(power(-150), power(-400))),
    "quad": (pair(ONE, power(-113)), pair(ONE, power(-113) + 1)),
    "e4m3fn": (pair(0x407D << 48, power(-90)), pair(0x407D << 48, power(-90) | MINUS)),
    "x87": (pair(ONE, power(-64)), pair(ONE, power(-64) + 1)),
}

# Bits of values that are not doubles, and of others.
SOURCES = {
    # 1 + 2^-112; a tie of the wide format; halfway to 2^1024, and below; past all doubles; tiny
    "quad": (
        0x3FFF << 112 | 1,
        0x3FFF << 112 | 1 << 6,
        0x43FE << 112 | (1 << 112) - (1 << 59),
        0x43FE << 112 | (1 << 112) - (1 << 59) - 1,
        0x7FFE << 112,
        0x3BCC << 112 | 1,
        0xFFFF << 112 | 1,
        0x7FFF << 112,
    ),
    "x87": (0x3FFF << 64 | (1 << 64) - 1, 0xC000 << 64 | 3 << 62 | 1, 0x43FF << 64 | 1 << 63, 0x8000 << 64),
    "half": (0x3555, 0xFC00, 0x7C01, 0x8000),
    "e4m3fnuz": (0x80, 0x7F, 0x01, 0xFF),
}

# Pairs whose decimals are wanted.
WRITTEN = (
    pair(0),
    pair(MINUS),
    pair(0, MINUS),
    pair(ONE),
    pair(ONE, power(-105)),
    pair(ONE, power(-106)),
    pair(ONE, power(-200)),
    pair(ONE, ONE),
    pair(0x3FB999999999999A, 0xBC5999999999999A),
    # the nearest pair to -pi, of 107 digits; and the one nearest to it that has 106
    pair(0x400921FB54442D18 | MINUS, 0x3CA1A62633145C07 | MINUS),
    pair(0x400921FB54442D18 | MINUS, 0x3CA1A62633145C06 | MINUS),
    pair(SMALLEST),
    pair(power(-969), power(-1024) | MINUS),
    pair(power(-969) + 1, power(-1022)),
    LARGEST_PAIR,
    pair(0x44B52D02C7E14AF6, 0x4134000000000000),
    pair(INFINITY | MINUS),
    pair(QUIET),
)


def parts(bits):
    """The pair of these bits."""
    return Pair(decoded(DOUBLE, bits & HALF_OF_PAIR), decoded(DOUBLE, bits >> 64))


def bits_of(x):
    """The bits of a pair."""
    return pair(encoded(DOUBLE, x.high), encoded(DOUBLE, x.low))


def to_format(target, mode, x):
    """The sum of the parts, rounded once; or the high part alone, if it is no number but 0."""
    if is_nonzero_number(x.high):
        return computed(DOUBLE, target, "Sum", mode, (x.high, x.low))
    return convert(DOUBLE, target, x.high, mode)[:2]


def joined(x):
    """The value of the wide format."""
    return to_format(FALLBACK, Mode.EVEN, x)[0]


def fused(mode, operands):
    """The fused sum in the wide format, split."""
    value, status = computed(FALLBACK, FALLBACK, "FusedSum", mode, [joined(x) for x in operands])
    return split(value), status


def decimal_of(x):
    """The shortest decimal, if the pair is the split of its wide value."""
    wide = joined(x)
    if isinstance(wide, Infinite) or is_nan(wide) or split(wide) != x:
        return None
    return (wide.negative, *shortest(FALLBACK, wide))


def drawn(choices):
    """The bits of a pair, most often a normalized one whose parts are not far apart."""
    high = choices.getrandbits(52) | choices.randrange(1023 - 40, 1023 + 40) << 52
    if choices.randrange(4) == 0:
        return pair(high)
    gap = choices.choice((54, 54, 55, 60, 80, 110))
    low = choices.getrandbits(52) | (high >> 52) - gap << 52
    signs = choices.getrandbits(2)
    return pair(high | (signs & 1) << 63, low | (signs >> 1) << 63)


def written(patterns):
    """The bits of pairs as words."""
    return " ".join(f"{bits:032x}" for bits in patterns)


def modes():
    """The modes in turn, for ever."""
    while True:
        yield from MODES


def conversions(choices, turn):
    """Pairs in other formats, and values of these as pairs."""
    for name, midpoints in MIDPOINTS.items():
        target = FORMATS[name]
        operands = [*SPECIAL, *(bits for bits in midpoints for _ in MODES)]
        operands += [drawn(choices) for _ in range(6)]
        for bits in operands:
            mode = next(turn)
            value, status = to_format(target, mode, parts(bits))
            yield row("convert_r", f"dd>{name}", mode, written([bits]), hexes(target, encoded(target, value)), status)
    for name, patterns in SOURCES.items():
        source = FORMATS[name]
        for bits in patterns:
            for mode in MODES if name == "quad" else [next(turn)]:
                value, status = convert(source, FALLBACK, decoded(source, bits), mode)[:2]
                answer = written([bits_of(split(value))])
                yield row("convert_r", f"{name}>dd", mode, hexes(source, bits), answer, status)


def fused_sums(choices, turn):
    """Fused sums: of special pairs, of others, and some that cancel."""
    triples = [[choices.choice(SPECIAL) for _ in range(3)] for _ in range(20)]
    triples += [[drawn(choices) for _ in range(3)] for _ in range(20)]
    for _ in range(10):
        x, y = drawn(choices), drawn(choices)
        negated, _ = fused(Mode.EVEN, (parts(x ^ (MINUS | MINUS << 64)), parts(y), parts(0)))
        triples.append([x, y, bits_of(negated)])
    for triple in triples:
        mode = next(turn)
        value, status = fused(mode, [parts(bits) for bits in triple])
        yield row("mul_add_r", "dd", mode, written(triple), written([bits_of(value)]), status)


def text_of(negative, digits, exponent):
    """A decimal as it is written."""
    return "-" * negative + spelled(digits, exponent)


def decimals():
    """Shortest decimals."""
    for bits in WRITTEN:
        decimal = decimal_of(parts(bits))
        yield row("shortest", "dd", None, written([bits]), "None" if decimal is None else text_of(*decimal))
        if decimal is not None:
            yield row("read_decimal", "dd", Mode.EVEN, text_of(*decimal), written([bits]))


def main():
    choices, turn = Random(106), modes()
    print("# Pairs of doubles to and from formats, fused, and as decimals. Computed by evidence/pair_operations.py.")
    print("\n".join((*conversions(choices, turn), *fused_sums(choices, turn), *decimals())))


if __name__ == "__main__":
    main()
