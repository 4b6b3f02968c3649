"""Compares blocks of `apfloat.mx` with those of evidence/blocks.py, on a tensor of singles.

    APFLOAT_LIBRARY=PREFIX/lib/libapfloat.so PYTHONPATH=python python3 evidence/tensors.py [BLOCKS]

It draws that many blocks of 32 singles, 32,000 (1,024,000 singles) if no number is given, of all exponents, denormals,
infinities and NaNs among them, and many of them in the middle of two elements. For each element format it compares
scales, codes, packed codes, counts and flags, and the values and counts that come back in `single`: of all blocks to
nearest, ties to even, and of a tenth of them in the other modes. It writes what agreed, and ends with 1 at the first
difference.
"""

import sys
from random import Random

import apfloat
from blocks import ELEMENTS, MODES, mx_dequantize, mx_quantize
from exact.bits import decoded, encoded
from exact.formats import SINGLE
from exact.rounding import Mode
from exact.status import INEXACT, OVERFLOW, UNDERFLOW

BLOCK = 32

ROUNDINGS = {
    Mode.EVEN: apfloat.NEAREST_EVEN,
    Mode.UP: apfloat.UPWARD,
    Mode.DOWN: apfloat.DOWNWARD,
    Mode.ZERO: apfloat.TOWARD_ZERO,
    Mode.AWAY: apfloat.NEAREST_AWAY,
}

FLAGS = {"inexact": INEXACT, "underflow": UNDERFLOW, "overflow": OVERFLOW}


def drawn_block(random):
    """The bits of the singles of a block, whose exponents are below one that is drawn."""
    top = random.choice((0, 1, 3, 254, *(random.randrange(255) for _ in range(12))))
    bits = []
    for _ in range(BLOCK):
        field = max(top - int(random.expovariate(0.3)), 0)
        digits = random.getrandbits(23)
        if random.random() < 0.5:
            digits &= 0x7C0000
        bits.append(random.getrandbits(1) << 31 | field << 23 | digits)
    if random.random() < 0.01:
        bits[random.randrange(BLOCK)] = random.choice((0x7F800000, 0xFF800000, 0x7FC00000, 0xFF800001))
    if random.random() < 0.02:
        bits = [x & 0x80000000 for x in bits]
    return bits


def counted(values, flags, nans):
    """The counts of a call."""
    counts = {name: sum(bool(status & flag) for status in flags) for name, flag in FLAGS.items()}
    return {"values": values, **counts, "div_by_zero": 0, "invalid_op": 0, "nans": nans}


def same(what, element, mode, found, wanted):
    """Ends the program if two results differ."""
    if found != wanted:
        print(f"{element.name}, {mode.value}: {what} differ")
        sys.exit(1)


def packed(element, codes):
    """The bits of codes one after another, as bytes."""
    number = sum(code << element.bits * at for at, code in enumerate(codes))
    return number.to_bytes(len(codes) * element.bits // 8, "little")


def compare(element, mode, blocks):
    """Compares the blocks of a tensor in one element format and mode."""
    data = b"".join(bits.to_bytes(4, "little") for block in blocks for bits in block)
    tensor = apfloat.Array(apfloat.single, data, shape=(len(blocks), BLOCK))
    codes, scales, flags, nans, results, result_flags = [], [], [], 0, [], []
    for block in blocks:
        found, scale, raised = mx_quantize(element, SINGLE, mode, [decoded(SINGLE, bits) for bits in block])
        codes += found
        scales.append(scale)
        flags += raised
        nans += BLOCK * (scale == 255)
        for value, status in mx_dequantize(element, SINGLE, mode, scale, found):
            results.append(encoded(SINGLE, value))
            result_flags.append(status)
    with apfloat.Context(mode=ROUNDINGS[mode]) as context:
        made = apfloat.mx.quantize(tensor, element.name.lower(), block=BLOCK)
        raised = context.flags
        back = made.dequantize(apfloat.single)
    same("scales", element, mode, bytes(made.scales), bytes(scales))
    same("codes", element, mode, bytes(made.codes), bytes(codes))
    same("counts", element, mode, made.counts, counted(len(codes), flags, nans))
    same("flags", element, mode, raised.value, sum(flag for flag in FLAGS.values() if any(x & flag for x in flags)))
    same("values", element, mode, bytes(back), b"".join(bits.to_bytes(4, "little") for bits in results))
    same("counts of values", element, mode, back.counts, counted(len(codes), result_flags, nans))
    whole = codes[: 320 * BLOCK]
    part = apfloat.mx.quantize(tensor[:320], element.name.lower(), block=BLOCK) if mode is Mode.EVEN else None
    if part is not None:
        same("packed codes", element, mode, part.packed(), packed(element, whole))
        same("codes taken out", element, mode, bytes(apfloat.mx.unpack(part.packed(), part.codes.format)), bytes(whole))
    return len(codes), made.counts


def main():
    """Draws the tensor, and compares it."""
    random = Random(1)
    blocks = [drawn_block(random) for _ in range(int(sys.argv[1]) if len(sys.argv) > 1 else 32000)]
    for element in ELEMENTS:
        for mode in MODES:
            count, counts = compare(element, mode, blocks if mode is Mode.EVEN else blocks[: len(blocks) // 10])
            told = ", ".join(f"{name} {number}" for name, number in counts.items() if number)
            print(f"{element.name} {mode.value}: {count} singles agree: {told}")


if __name__ == "__main__":
    main()
