"""Computes tests/rows/blocks.tsv: blocks of small values with a common scale.

    python3 evidence/blocks.py | diff - tests/rows/blocks.tsv
    python3 evidence/blocks.py --laws

A value is a fraction. The scale of a block is found by comparing the greatest one with powers of two, and
each element by rounding the quotient on the list of the numbers of its format. The rows are of blocks of
four singles, quantized and dequantized, and of 1,500 blocks of 32 elements, whose singles a linear
congruence draws. `--laws` tries the theorems on blocks that formats have exactly and on blocks that are
quantized again, and that they would be false without their bounds. Of NVFP4 the rows are of the same
blocks with four scales of their tensor, and of 500 blocks of 16 elements, ten of them to a tensor.
"""

from dataclasses import dataclass
from fractions import Fraction
from functools import cached_property
from sys import argv

from exact.bits import decoded, encoded
from exact.data import Finite, Infinite, is_nan, qnan
from exact.formats import BFLOAT, DOUBLE, E4M3FN, E5M2, SINGLE
from exact.rounding import Mode, delivered, overflows, picked
from exact.status import INEXACT, OK, OVERFLOW, UNDERFLOW
from row_files import MODES, hexes, row

@dataclass(frozen=True)
class Element:
    """An element format: its width, its digits, its exponents, and how many codes are finite."""

    name: str
    bits: int
    precision: int
    least_exponent: int
    max_exp: int
    finite: int

    @cached_property
    def scale(self):
        """The quantum is 2^-scale."""
        return self.precision - 1 - self.least_exponent

    def quanta(self, magnitude):
        """The quanta of the number with these bits below the sign."""
        written = self.precision - 1
        field, digits = magnitude >> written, magnitude & (1 << written) - 1
        return digits if field == 0 else ((1 << written) + digits) << field - 1

    @cached_property
    def codes(self):
        """The codes without a sign by their quanta."""
        return {self.quanta(code): code for code in range(self.finite)}

    @cached_property
    def largest(self):
        """The quanta of the largest number."""
        return self.quanta(self.finite - 1)

    @property
    def sign(self):
        """The bit of the sign."""
        return 1 << self.bits - 1

    def number(self, code):
        """The number that a finite code means."""
        magnitude = Fraction(self.quanta(code % self.sign), 1 << self.scale)
        return -magnitude if code & self.sign else magnitude

    def quantize(self, mode, negative, exact):
        """The code and the flags of a magnitude, rounded once and saturated."""
        amount = exact * (1 << self.scale)
        pick, same = picked(self.precision, mode, negative, amount.numerator, amount.denominator)
        sign = self.sign if negative else 0
        if pick > self.largest:
            leads = overflows(mode, negative)
            return sign + self.finite - 1, OVERFLOW | INEXACT if leads else INEXACT
        if same:
            return sign + self.codes[pick], OK
        tiny = pick < 1 << self.precision - 1
        return sign + self.codes[pick], UNDERFLOW | INEXACT if tiny else INEXACT


ELEMENTS = (
    Element("E5M2", 8, 3, -14, 15, 0x7C),
    Element("E4M3FN", 8, 4, -6, 8, 0x7F),
    Element("E3M2FN", 6, 3, -2, 4, 0x20),
    Element("E2M3FN", 6, 4, 0, 2, 0x20),
    Element("E2M1FN", 4, 2, 0, 2, 0x08),
)

E4M3 = ELEMENTS[1]
E2M1 = ELEMENTS[4]

for element, other in zip(ELEMENTS, (E5M2, E4M3FN)):
    for code in range(element.finite):
        assert decoded(other, code) == Finite(False, element.quanta(code))


def floor_log2(exact):
    """The exponent of a positive fraction."""
    exponent = exact.numerator.bit_length() - exact.denominator.bit_length()
    return exponent if Fraction(2) ** exponent <= exact else exponent - 1


def magnitude(source, x):
    """A finite value without its sign."""
    return Fraction(x.quanta, 1 << source.scale)


def counts(flags):
    """How many elements raised OVERFLOW, UNDERFLOW and INEXACT."""
    return [sum(bool(status & flag) for status in flags) for flag in (OVERFLOW, UNDERFLOW, INEXACT)]


# ---- microscaling formats


RULES = ("floor", "ceil", "even")


def mx_scale(element, greatest, rule="floor"):
    """The code of the scale of a block."""
    if greatest == 0:
        return 0
    if rule == "even":
        last = Fraction(2) ** (floor_log2(greatest) - element.precision + 1)
        greatest = round(greatest / last) * last
    exponent = floor_log2(greatest) - element.max_exp
    if rule == "ceil":
        largest = Fraction(element.largest, 1 << element.scale)
        exponent = next(e for e in range(exponent, exponent + 2) if greatest <= largest * Fraction(2) ** e)
    return min(max(exponent + 127, 0), 254)


def mx_quantize(element, source, mode, values, rule="floor"):
    """The codes, the code of the scale, and the flags."""
    if any(is_nan(x) or isinstance(x, Infinite) for x in values):
        return [0] * len(values), 255, [OK] * len(values)
    scale = mx_scale(element, max(magnitude(source, x) for x in values), rule)
    divisor = Fraction(2) ** (scale - 127)
    found = [element.quantize(mode, x.negative, magnitude(source, x) / divisor) for x in values]
    return [code for code, _ in found], scale, [status for _, status in found]


def product(target, mode, negative, exact):
    """A number in the target, rounded once, with its flags."""
    quanta = exact * (1 << target.scale)
    return delivered(target, mode, negative, quanta.numerator, quanta.denominator)


def mx_dequantize(element, target, mode, scale, codes):
    """The values of a block of finite elements, and their flags."""
    if scale == 255:
        return [(qnan(target), OK)] * len(codes)
    by = Fraction(2) ** (scale - 127)
    return [product(target, mode, bool(c & element.sign), abs(element.number(c)) * by) for c in codes]


# ---- NVFP4


def tensor_scale(source, values):
    """The single by which a tensor of finite values is scaled."""
    greatest = max(magnitude(source, x) for x in values)
    value, _ = product(SINGLE, Mode.EVEN, False, greatest / 2688)
    if isinstance(value, Infinite):
        return Finite(False, SINGLE.largest)
    return value if value.quanta else Finite(False, 1 << SINGLE.scale)


def nv_scale(mode, tensor, greatest):
    """The code of the scale of a block."""
    if greatest == 0:
        return 0
    code, _ = E4M3.quantize(mode, False, greatest / (6 * tensor))
    return max(code, 1)


def nv_quantize(source, mode, tensor, values):
    """The codes, the code of the scale, and the flags."""
    if any(is_nan(x) or isinstance(x, Infinite) for x in values):
        return [0] * len(values), 127, [OK] * len(values)
    by = magnitude(SINGLE, tensor)
    scale = nv_scale(mode, by, max(magnitude(source, x) for x in values))
    divisor = E4M3.number(max(scale, 1)) * by
    found = [E2M1.quantize(mode, x.negative, magnitude(source, x) / divisor) for x in values]
    return [code for code, _ in found], scale, [status for _, status in found]


def nv_dequantize(target, mode, tensor, scale, codes):
    """The values of a block, and their flags."""
    if scale == 127:
        return [(qnan(target), OK)] * len(codes)
    by = E4M3.number(scale) * magnitude(SINGLE, tensor)
    return [product(target, mode, bool(c & E2M1.sign), abs(E2M1.number(c)) * by) for c in codes]


# ---- what is drawn


class Draw:
    """A linear congruence, of which the upper 32 bits are taken."""

    def __init__(self, seed):
        """Begins with the seed."""
        self.state = seed

    def word(self):
        """The next 32 bits."""
        self.state = (self.state * 6364136223846793005 + 1442695040888963407) % 2**64
        return self.state >> 32

    def single(self):
        """The bits of a single with one of 40 exponents about that of 1."""
        word = self.word()
        return word & 0x807FFFFF | 107 + (word >> 23 & 0xFF) % 40 << 23


def drawn_blocks(seed, count, size):
    """The bits of blocks of singles."""
    draw = Draw(seed)
    return [tuple(draw.single() for _ in range(size)) for _ in range(count)]


# ---- rows


SPECIAL = (
    (0, 0x80000000, 0, 0x80000000),
    (1, 0x80000001, 0x7FFFFF, 0x800000),
    (0x7F7FFFFF, 0xFF7FFFFF, 0x3F800000, 0x80000001),
    (0x7F800000, 0x3F800000, 0, 0x80000000),
    (0x7FC00000, 0x3F800000, 0xBF800000, 0),
    (0x40E00000, 0x40C00000, 0x40A00000, 0x3E800000),
    (0x3FF00000, 0x3F700000, 0xBFF00000, 0x3C000000),
    (0x3FF80000, 0x3FF7FFFF, 0xBFFC0000, 0x3F800001),
)


BLOCKS = (*SPECIAL, *drawn_blocks(1, 8, 4))

LONG_BLOCKS = drawn_blocks(100, 60, 32)

# The modes of NVFP4's blocks of four, with the bits of the scale of their tensor.
NV_CASES = (*((mode, 0x3A000001) for mode in MODES), *((Mode.EVEN, x) for x in (0x3F800000, 1, 0x7F7FFFFF)))


def numbers(bits):
    """The values of singles."""
    return [decoded(SINGLE, x) for x in bits]


def block_of(element, answer):
    """A block as it is written: its scale and its codes, in hexadecimal digits."""
    codes, scale, _ = answer
    return f"{scale:02x} {hexes(element, *codes)}"


def quantized(call, element, mode, operands, answer):
    """The row of a block, with its counts."""
    overflow, underflow, inexact = counts(answer[2])
    more = f"overflow={overflow} underflow={underflow} inexact={inexact}"
    return row(call, f"single>{element.name.lower()}", mode, operands, block_of(element, answer), more=more)


def dequantized(call, element, mode, operands, values):
    """The row of the values of a block."""
    back = hexes(SINGLE, *(encoded(SINGLE, value) for value, _ in values))
    return row(call, f"{element.name.lower()}>single", mode, operands, back)


def mx_rows(element, mode):
    """Blocks of four singles there and back, and blocks of 32."""
    for bits in BLOCKS:
        answer = mx_quantize(element, SINGLE, mode, numbers(bits))
        yield quantized("quantize_block", element, mode, hexes(SINGLE, *bits), answer)
        values = mx_dequantize(element, SINGLE, mode, answer[1], answer[0])
        yield dequantized("dequantize_block", element, mode, block_of(element, answer), values)
    for bits in LONG_BLOCKS:
        answer = mx_quantize(element, SINGLE, mode, numbers(bits))
        yield quantized("quantize_block", element, mode, hexes(SINGLE, *bits), answer)


def nv_rows(mode, tensor):
    """Blocks of four singles there and back, with a scale of their tensor."""
    scale = decoded(SINGLE, tensor)
    for bits in BLOCKS:
        answer = nv_quantize(SINGLE, mode, scale, numbers(bits))
        yield quantized("quantize_nvfp4_block", E2M1, mode, hexes(SINGLE, tensor, *bits), answer)
        values = nv_dequantize(SINGLE, mode, scale, answer[1], answer[0])
        operands = f"{hexes(SINGLE, tensor)} {block_of(E2M1, answer)}"
        yield dequantized("dequantize_nvfp4_block", E2M1, mode, operands, values)


def scale_row(bits):
    """The row of the scale of a tensor."""
    values = numbers(bits)
    finite = all(isinstance(x, Finite) for x in values)
    scale = hexes(SINGLE, encoded(SINGLE, tensor_scale(SINGLE, values))) if finite else "None"
    return row("tensor_scale", "single", None, hexes(SINGLE, *bits), scale)


def tensor_rows(tensor, size=16):
    """A tensor, and its blocks in each mode."""
    yield scale_row(tensor)
    scale = tensor_scale(SINGLE, numbers(tensor))
    for mode in MODES:
        for first in range(0, len(tensor), size):
            bits = tensor[first : first + size]
            answer = nv_quantize(SINGLE, mode, scale, numbers(bits))
            operands = hexes(SINGLE, encoded(SINGLE, scale), *bits)
            yield quantized("quantize_nvfp4_block", E2M1, mode, operands, answer)


# ---- laws


def exact(element, target, scale, code):
    """Whether the target has the product."""
    ((_, status),) = mx_dequantize(element, target, Mode.EVEN, scale, [code])
    return status == OK


def try_products():
    """Each scale and each finite code: the target has all products of a scale just where it has to."""
    for element in ELEMENTS:
        for scale in range(255):
            low = scale - 127 + element.max_exp <= 127
            for target in (DOUBLE, SINGLE, BFLOAT):
                room = (low or target is DOUBLE) and element.scale + 127 <= scale + target.scale
                assert room == all(exact(element, target, scale, code) for code in range(element.finite))
    print("products of each scale: all exact just where they have to be")


def try_singles():
    """Blocks of singles of each exponent come back exactly."""
    blocks = 0
    for element in ELEMENTS:
        for field in range(255):
            bits = (field << 23 | 0x7FFFFF, field << 23, field << 23 | 0x80600000, 0x80000001, field << 22)
            values = [decoded(SINGLE, x) for x in bits]
            for mode in MODES:
                codes, scale, _ = mx_quantize(element, SINGLE, mode, values)
                assert scale + element.max_exp <= 254
                assert all(status == OK for _, status in mx_dequantize(element, SINGLE, mode, scale, codes))
                blocks += 1
    print(f"blocks of singles: {blocks} came back exactly")


def has_place(element, scale, greatest):
    """Whether the greatest element does not reach 480 in E4M3FN."""
    place = (greatest & -greatest).bit_length() - 1
    return element is not E4M3 or greatest >> max(place, 0) != 15 or place + scale < 14


def try_again():
    """Blocks with each greatest element, dequantized and quantized again."""
    kept, same, lost = 0, 0, 0
    for element in ELEMENTS:
        top = 1 << element.scale + element.max_exp
        for scale in (*range(22), *range(22, 253, 33), 253, 254):
            for most in range(element.finite):
                below = (*range(most % 7, most, 7), *(element.sign | x for x in range(most % 5, most, 5)))
                codes = [0, element.sign, most, element.sign | most, *below]
                values = [v for v, _ in mx_dequantize(element, DOUBLE, Mode.EVEN, scale, codes)]
                mode = MODES[(scale + most) % 5]
                again, lower, flags = mx_quantize(element, DOUBLE, mode, values)
                old = [element.number(c) * Fraction(2) ** scale for c in codes]
                new = [element.number(c) * Fraction(2) ** lower for c in again]
                signs = all((c ^ d) & element.sign == 0 for c, d in zip(codes, again))
                keeps = has_place(element, scale, element.quanta(most))
                assert keeps == (old == new) == (not any(flags)) and signs
                stays = element.quanta(most) >= top or scale == 0
                assert stays == (again == codes and lower == scale) or not keeps
                kept, same, lost = kept + keeps, same + (keeps and stays), lost + (not keeps)
    print(f"blocks quantized again: {kept} kept, {same} with their codes; {lost} of e4m3fn lost values")


def lines():
    """The file."""
    yield "# Blocks with a common scale, of the microscaling formats and of NVFP4. Computed by evidence/blocks.py."
    for element in ELEMENTS:
        for mode in MODES:
            yield from mx_rows(element, mode)
    for mode, tensor in NV_CASES:
        yield from nv_rows(mode, tensor)
    for bits in BLOCKS:
        yield scale_row(bits)
    for tensor in drawn_blocks(200, 10, 160):
        yield from tensor_rows(tensor)


def main():
    """Prints the file, or tries the laws."""
    if argv[1:] == ["--laws"]:
        try_products()
        try_singles()
        try_again()
        return
    print("\n".join(lines()))


if __name__ == "__main__":
    main()
