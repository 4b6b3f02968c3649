"""Computes tests/c/blocks: calls of C on arrays in blocks of MX and NVFP4.

    python3 evidence/block_calls.py | diff - tests/c/blocks

Blocks are those of evidence/blocks.py, in several formats: 32 values in blocks of MX by each rule of scales, and in
blocks of NVFP4, mostly of 16, with a scale of their tensor.
"""

from functools import reduce
from operator import or_

from blocks import ELEMENTS, RULES, counts, drawn_blocks, mx_quantize, nv_dequantize, nv_quantize
from exact.bits import decoded, encoded
from exact.data import is_nan
from exact.drawing import Generator
from exact.formats import FORMATS, SINGLE
from exact.rounding import Mode
from exact.status import names
from row_files import MODES, hexes
from storage_calls import SOURCES, TARGETS
from storage_formats import convert

COUNT = 32
SCALES = (0x3F800000, 0x3A000001, 0x00000001, 0x7F7FFFFF, 0x3E123456)
LENGTHS = (16, 16, 16, 16, 16, 16, 8, 32)
NAN_SCALE = 127

# Singles at and beside what an element format has as its largest number, and as the middle to the next power of two.
NEAR = tuple(0x3F800000 + digits for digits in (
    0x400000, 0x3FFFFF, 0x400001, 0x600000, 0x600001, 0x5FFFFF, 0x700000, 0x700001, 0x6FFFFF, 0x780000, 0x77FFFF,
    0x7FFFFF, 0))

# Singles among the least, about the greatest, and of all exponents below those of half.
ENDS = tuple([base] * COUNT for base in (0x00000000, 0x7F7FFFF0, 0x00800000, 0x7F000000))


def as_source(source, single):
    """A single in another format, by its bits; in a narrow one, a number with a moderate exponent."""
    field = single >> 23 & 0xFF
    if source.greatest_exponent < 64 and 0 < field < 255:
        single += (123 + field % 8 - field) << 23
    value, _, _ = convert(SINGLE, source, decoded(SINGLE, single), Mode.EVEN)
    return encoded(source, value)


def line(call, name, mode, by, values, scales, codes, flags, nans):
    """A row: an array, its blocks, and the counts of its roundings."""
    overflow, underflow, inexact = counts(flags)
    return "\t".join((call, name, mode.value, by, hexes(FORMATS[name], *values),
                      " ".join(f"{scale:02x}" for scale in scales), " ".join(f"{code:x}" for code in codes),
                      f"{inexact} {underflow} {overflow}", str(nans), names(reduce(or_, flags))))


def quantized(name, mode, length, tensor, bits):
    """The scales, the codes, and the row."""
    source = FORMATS[name]
    scales, codes, flags = [], [], []
    for first in range(0, COUNT, length):
        values = [decoded(source, x) for x in bits[first : first + length]]
        made, scale, raised = nv_quantize(source, mode, decoded(SINGLE, tensor), values)
        scales.append(scale)
        codes += made
        flags += raised
    nans = length * scales.count(NAN_SCALE)
    return scales, codes, line("quantize_nvfp4", name, mode, f"{tensor:08x}", bits, scales, codes, flags, nans)


def quantized_by(rule, element, name, mode, length, bits):
    """The row of blocks of MX."""
    source = FORMATS[name]
    scales, codes, flags = [], [], []
    for first in range(0, COUNT, length):
        values = [decoded(source, x) for x in bits[first : first + length]]
        made, scale, raised = mx_quantize(element, source, mode, values, rule)
        scales.append(scale)
        codes += made
        flags += raised
    by = f"{element.name.lower()}+{rule}"
    return line("quantize_blocks", name, mode, by, bits, scales, codes, flags, length * scales.count(255))


def dequantized(name, mode, tensor, scales, codes):
    """The row of the values."""
    target, length = FORMATS[name], COUNT // len(scales)
    values = [made for place, scale in enumerate(scales) for made in nv_dequantize(
        target, mode, decoded(SINGLE, tensor), scale, codes[place * length : place * length + length])]
    return line("dequantize_nvfp4", name, mode, f"{tensor:08x}", [encoded(target, value) for value, _ in values],
                scales, codes, [status for _, status in values], sum(is_nan(value) for value, _ in values))


def rows(draw):
    """Arrays of each format, quantized and taken out in another one."""
    drawn = drawn_blocks(300, 8 * len(SOURCES), COUNT)
    for place, name in enumerate(SOURCES):
        source = FORMATS[name]
        for turn, singles in enumerate(drawn[8 * place : 8 * place + 8]):
            bits = [as_source(source, x) for x in singles]
            if turn == 1:
                bits[:16] = [as_source(source, x) for x in (0, 0x80000000)] * 8
            if turn == 2:
                bits[draw.between(0, COUNT - 1)] = as_source(source, 0x7FC00000)
            tensor = SCALES[draw.between(0, 4)]
            scales, codes, row = quantized(name, MODES[draw.between(0, 4)], LENGTHS[turn], tensor, bits)
            yield row
            yield dequantized(TARGETS[draw.between(0, len(TARGETS) - 1)], MODES[draw.between(0, 4)], tensor, scales,
                              codes)
    for name in TARGETS:
        for length in LENGTHS[4:]:
            codes = [draw.between(0, 15) for _ in range(COUNT)]
            scales = [draw.between(0, NAN_SCALE) for _ in range(COUNT // length)]
            yield dequantized(name, MODES[draw.between(0, 4)], SCALES[draw.between(0, 4)], scales, codes)


def mx_rows(draw):
    """Arrays of each format by each rule and element format."""
    drawn = drawn_blocks(400, 15 * len(SOURCES), COUNT)
    for place, name in enumerate(SOURCES):
        source = FORMATS[name]
        for turn, singles in enumerate(drawn[15 * place : 15 * place + 15]):
            bits = [as_source(source, x) for x in singles]
            length = (8, 16, 32)[draw.between(0, 2)]
            for first in range(0, COUNT, length):
                # What decides a rule, in one of several binades above the other values.
                top = NEAR[draw.between(0, len(NEAR) - 1)] + (draw.between(0, 3) << 23)
                bits[first] = as_source(source, top + (24 << 23))
            if turn == 3:
                bits[:length] = [as_source(source, x) for x in (0, 0x80000000)] * (length // 2)
            if turn == 4:
                bits[draw.between(0, COUNT - 1)] = as_source(source, 0x7F800000)
            if turn > 10:
                bits = [as_source(source, x + draw.between(0, 7)) for x in ENDS[turn - 11]]
            mode = MODES[draw.between(0, 4)]
            for rule in RULES:
                yield quantized_by(rule, ELEMENTS[turn % 5], name, mode, length, bits)


def main():
    """Prints the file."""
    print("# Calls of C on arrays in blocks of MX and NVFP4. Computed by evidence/block_calls.py.")
    draw = Generator()
    print("\n".join([*rows(draw), *mx_rows(draw)]))


if __name__ == "__main__":
    main()
