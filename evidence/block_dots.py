"""Computes tests/rows/by_crate/block_dots.tsv: dot products of vectors in blocks with common scales, rounded once.

    python3 evidence/block_dots.py | diff - tests/rows/by_crate/block_dots.tsv

An element times its scales is a fraction, and so are products and their sum, which the model of `reductions.py`
rounds once. A vector is written as its format (of NVFP4 with the bits of the tensor's scale), the length of its
blocks, the codes of the scales and those of the elements. Some vectors are chosen, the others are drawn from a seed.
"""

from fractions import Fraction
from random import Random

from blocks import E2M1, E4M3, ELEMENTS
from exact.bits import decoded, encoded
from exact.data import Finite, Infinite, NaN, invalid, qnan
from exact.formats import FORMATS, SINGLE
from exact.status import INEXACT, OK
from reductions import total
from row_files import MODES, hexes, in_each_mode, row

TARGETS = "half bfloat single single+ieee double double+ieee+before tf32 e4m3fn e4m3fnuz quad".split()

DRAWS = 60

E5M2 = ELEMENTS[0]


# ---- the model


def value(scaling, scale, code):
    """An element times its scales: a sign and a fraction, or the infinity or the NaN."""
    element, tensor = scaling
    negative, magnitude = bool(code & element.sign), code % element.sign
    if scale == (255 if tensor is None else 127):
        return NaN(False, 0)
    if magnitude >= element.finite:
        is_infinite = element == E5M2 and magnitude == element.finite
        return Infinite(negative) if is_infinite else NaN(False, 0)
    if tensor is None:
        factor = Fraction(2) ** (scale - 127)
    else:
        factor = E4M3.number(scale) * Fraction(decoded(SINGLE, tensor).quanta, 1 << SINGLE.scale)
    return negative, element.number(code) * factor


def term(form, x, y):
    """A product as a term of `total`."""
    if isinstance(x, NaN) or isinstance(y, NaN):
        return qnan(form), OK
    signs = [each.negative if isinstance(each, Infinite) else each[0] for each in (x, y)]
    if isinstance(x, Infinite) or isinstance(y, Infinite):
        if (False, 0) in (x, y) or (True, 0) in (x, y):
            return invalid(form)
        return Infinite(signs[0] != signs[1]), OK
    return signs[0] != signs[1], x[1] * y[1]


def values(vector):
    """The values of a vector."""
    scaling, length, scales, codes = vector
    return [value(scaling, scales[place // length], code) for place, code in enumerate(codes)]


def result(form, left, right, mode):
    """The bits and the flags of a dot product."""
    terms = [term(form, x, y) for x, y in zip(values(left), values(right))]
    answer, status = total(form, terms, mode)
    if isinstance(answer, NaN) and not any(isinstance(each[0], NaN) for each in terms) and status == OK:
        # An infinity in a format without them.
        status = INEXACT
    return hexes(form, encoded(form, answer)), status


# ---- chosen vectors


def is_vector(vector):
    """Whether blocks have elements, each of them a code of its format, and each block a scale."""
    (element, tensor), length, scales, codes = vector
    if length == 0 or len(codes) != length * len(scales) or any(code >> element.bits for code in codes):
        return False
    if tensor is None:
        return True
    scale = decoded(SINGLE, tensor)
    positive = isinstance(scale, Finite) and not scale.negative and scale.quanta > 0
    return positive and all(each < 128 for each in scales)


def mx(element, *scales_and_codes, length=1):
    """A vector of MX: a list of scales, and one of codes."""
    return (element, None), length, *scales_and_codes


def nvfp4(tensor, *scales_and_codes, length=1):
    """A vector of NVFP4."""
    return (E2M1, tensor), length, *scales_and_codes


def chosen():
    """Pairs of vectors."""
    one = 0x3F800000
    yield mx(E2M1, [], []), nvfp4(one, [], [])
    for signs in ([0], [8], [0, 8], [8, 8]):
        yield mx(E2M1, [127], signs, length=len(signs)), nvfp4(one, [56] * len(signs), [2] * len(signs))
    for element in ELEMENTS:
        most, minus = element.finite - 1, element.finite - 1 + element.sign
        # The least and the largest product, what is left of two that cancel, and one past the largest of most formats.
        yield mx(element, [0], [1]), mx(element, [0], [1])
        yield mx(element, [254, 0, 254], [most, 1, most]), mx(element, [254, 0, 254], [most, 1, minus])
        yield mx(element, [254], [most, most], length=2), mx(element, [254, 254], [most, minus])
        yield mx(element, [254], [most]), nvfp4(0x7F7FFFFF, [126], [15])
        # A midpoint of single, and what decides it.
        yield mx(element, [127, 103, 0], [most, most, 1]), mx(element, [127, 127, 0], [most, most, 1])
        yield mx(element, [255, 127], [0, 1]), mx(element, [127, 127], [1, 1])
    yield nvfp4(1, [1], [1]), nvfp4(1, [1], [1])
    yield nvfp4(0x7F7FFFFF, [126, 1], [7, 1]), nvfp4(0x7F7FFFFF, [126, 1], [15, 1])
    yield nvfp4(one, [127], [1]), mx(E2M1, [127], [1])
    yield nvfp4(one, [0, 56], [7, 8]), mx(E5M2, [127, 127], [0x7B, 1])
    plus, minus, quiet, signaling = 0x7C, 0xFC, 0x7E, 0xFD
    ones = mx(E5M2, [127], [0x3C, 0x3C, 0x3C], length=3)
    for codes in ([plus, 1, 1], [1, minus, 1], [plus, minus, 1], [quiet, 1, plus], [signaling, 1, 1],
                  [1, quiet, minus]):
        yield mx(E5M2, [0], codes, length=3), ones
    zeros = nvfp4(one, [56, 56, 0], [0, 2, 7])
    for codes in ([plus, 1, 1], [1, plus, minus], [quiet, minus, minus], [1, minus, 1]):
        yield mx(E5M2, [127], codes, length=3), zeros
    yield mx(E4M3, [127], [0x7F]), mx(E4M3, [127], [0])
    # No vectors, and vectors of different lengths.
    good = mx(E2M1, [127, 127], [1, 2])
    for other in (
        mx(E2M1, [127], [1]),
        mx(E2M1, [], []),
        mx(E2M1, [127, 127], [1, 16]),
        mx(E2M1, [127], [1, 2], length=0),
        mx(E2M1, [127], [1, 2]),
        mx(E2M1, [127, 127, 127], [1, 2]),
        mx(E2M1, [127], [1, 2], length=3),
        nvfp4(one, [128, 56], [1, 2]),
        nvfp4(one, [56, 56], [16, 2]),
        *(nvfp4(tensor, [56, 56], [1, 2]) for tensor in (0, 1 << 31, one | 1 << 31, 0x7F800000, 0x7FC00000)),
    ):
        yield good, other
        yield other, good


# ---- drawn vectors


def drawn_vector(random, count):
    """A vector with so many elements."""
    length = random.choice([each for each in range(1, count + 1) if count % each == 0])
    element = random.choice(ELEMENTS)
    near = random.randrange(40, 215)
    spread = random.choice((0, 3, 12, 40))
    scales = [near + random.randint(-spread, spread) for _ in range(count // length)]
    tensor = None
    if random.randrange(3) == 0:
        element, tensor = E2M1, random.randrange(0x3A000000, 0x46000000)
        scales = [random.randrange(1, 127) for _ in scales]
    codes = [random.randrange(element.finite) + random.choice((0, element.sign)) for _ in range(count)]
    if random.randrange(8) == 0:
        codes = [random.randrange(1 << element.bits) for _ in codes]
    return (element, tensor), length, scales, codes


def drawn_pair(random):
    """Two vectors, of which halves may cancel."""
    count = random.choice((1, 2, 3, 4, 6, 8, 16, 32, 64))
    left, right = drawn_vector(random, count), drawn_vector(random, count)
    if random.randrange(2) and count > 1:
        for (element, _), _, scales, codes in (left, right):
            codes[count // 2 :] = codes[: count - count // 2]
            scales[len(scales) // 2 :] = scales[: len(scales) - len(scales) // 2]
        (element, _), _, _, codes = right
        codes[count // 2 :] = [code ^ element.sign for code in codes[count // 2 :]]
        codes[-1] ^= 1
    return left, right


# ---- rows


def written(vector):
    """A vector as a row has it."""
    (element, tensor), length, scales, codes = vector
    name = element.name if tensor is None else f"NVFP4:{tensor:08x}"
    return " ".join((name, str(length), *(bytes(each).hex() or "-" for each in (scales, codes))))


def rows_of(form, left, right, modes=MODES):
    """The rows of a pair of vectors."""
    operands = f"{written(left)} / {written(right)}"
    if not (is_vector(left) and is_vector(right)):
        return [row("dot_blocks", form.name, None, operands, "NotBlocks")]
    if len(left[3]) != len(right[3]):
        return [row("dot_blocks", form.name, None, operands, "LengthsDiffer")]
    if len(modes) == 1:
        return [row("dot_blocks", form.name, modes[0], operands, *result(form, left, right, modes[0]))]
    return in_each_mode("dot_blocks", form.name, operands, lambda mode: result(form, left, right, mode))


def main():
    random = Random(11)
    print("# Dot products of vectors in blocks, rounded once. Computed by evidence/block_dots.py.")
    for name in TARGETS:
        form = FORMATS[name]
        for left, right in chosen():
            print("\n".join(rows_of(form, left, right)))
        for index in range(DRAWS):
            print("\n".join(rows_of(form, *drawn_pair(random), [MODES[index % len(MODES)]])))


if __name__ == "__main__":
    main()
