#!/usr/bin/env python3
"""Quantizes a stream of values to blocks with a common scale, as `convert_values --block` does, or takes one apart.

    python3 evidence/block_streams.py FORM LENGTH FORMAT MODE [SCALE] < VALUES > BLOCKS
    python3 evidence/block_streams.py --dequantize FORM LENGTH FORMAT MODE [SCALE] < BLOCKS > VALUES

SCALE is that of the tensor in `nvfp4`, a decimal or hexadecimal number, 1 without it; the nearest single is taken.
The scales and the elements are those of `blocks.py`. A block is its scale, a byte, and after it the codes, as one
number whose lowest digits to the base 2^bits is the first one, in bytes, the lowest first. What is left after the last
whole block is ignored. The counts are written to standard error.
"""

import re
import sys
from fractions import Fraction

from blocks import E2M1, ELEMENTS, mx_dequantize, mx_quantize, nv_dequantize, nv_quantize, product
from exact.bits import decoded, encoded
from exact.conversions import convert
from exact.data import is_nan
from exact.formats import E4M3FN, E5M2, SINGLE
from exact.rounding import Mode
from exact.status import INEXACT, INVALID_OP, OVERFLOW, UNDERFLOW
from streams import _FORMATS, bytes_of

FORMS = dict(zip(("mxfp8e5m2", "mxfp8e4m3", "mxfp6e3m2", "mxfp6e2m3", "mxfp4", "nvfp4"), (*ELEMENTS, E2M1)))

# Those with codes that are no numbers.
FULL = {"E5M2": E5M2, "E4M3FN": E4M3FN}

FLAGS = {"inexact": INEXACT, "underflow": UNDERFLOW, "overflow": OVERFLOW, "invalid": INVALID_OP}


def packed(bits, codes):
    """The bytes of codes."""
    number = sum(code << bits * index for index, code in enumerate(codes))
    return number.to_bytes(bits * len(codes) // 8, "little")


def unpacked(bits, data):
    """The codes in these bytes."""
    number = int.from_bytes(data, "little")
    return [number >> bits * index & (1 << bits) - 1 for index in range(8 * len(data) // bits)]


def tensor_scale(word):
    """The single nearest to the number that a word spells."""
    hexadecimal = re.fullmatch(r"0x([0-9a-f]*)\.?([0-9a-f]*)p([+-]?\d+)", word)
    if hexadecimal:
        whole, fraction, exponent = hexadecimal.groups()
        exact = int(whole + fraction, 16) * Fraction(2) ** (int(exponent) - 4 * len(fraction))
    else:
        exact = Fraction(word)
    return product(SINGLE, Mode.EVEN, False, exact)[0]


def products(element, target, mode, tensor, scale, codes):
    """The values of a block, and their flags."""
    if tensor:
        # A scale has no sign.
        yield from nv_dequantize(target, mode, tensor, scale % 128, codes)
        return
    for code in codes:
        if scale != 255 and code % element.sign >= element.finite:
            full = FULL[element.name]
            yield convert(full, target, decoded(full, code), mode)[:2]
        else:
            yield from mx_dequantize(element, target, mode, scale, [code])


def main():
    """Converts standard input to standard output."""
    dequantizes = sys.argv[1] == "--dequantize"
    form, length, word, mode, *scales = sys.argv[2 if dequantizes else 1:]
    element, length, format, mode = FORMS[form], int(length), _FORMATS[word], Mode(mode)
    tensor = tensor_scale(*scales or "1") if form == "nvfp4" else None
    width, size = bytes_of(format), 1 + element.bits * length // 8
    step = size if dequantizes else width * length
    data, flags, nans = sys.stdin.buffer.read(), [], 0
    for place in range(0, len(data) - step + 1, step):
        part = data[place : place + step]
        if dequantizes:
            answers = list(products(element, format, mode, tensor, part[0], unpacked(element.bits, part[1:])))
            values, raised = [value for value, _ in answers], [status for _, status in answers]
            written = b"".join(encoded(format, value).to_bytes(width, "little") for value in values)
            nans += sum(map(is_nan, values))
        else:
            bits = (int.from_bytes(part[at : at + width], "little") for at in range(0, step, width))
            values = [decoded(format, x % (1 << format.bits)) for x in bits]
            if tensor:
                codes, scale, raised = nv_quantize(format, mode, tensor, values)
            else:
                codes, scale, raised = mx_quantize(element, format, mode, values)
            written = bytes([scale]) + packed(element.bits, codes)
            nans += length if scale == (127 if tensor else 255) else 0
        flags += raised
        sys.stdout.buffer.write(written)
    counts = (f"{name} {sum(status & flag != 0 for status in flags)}" for name, flag in FLAGS.items())
    print(f"values {len(flags)}, {', '.join(counts)}, NaNs {nans}", file=sys.stderr)


if __name__ == "__main__":
    main()
