#!/usr/bin/env python3
"""Writes lines as `emulated.c` does, for LoongArch, which few compilers know: a program of a few instructions.

    python3 evidence/processor/loongarch.py | python3 evidence/processor/emulated.py

It needs qemu-loongarch64. The lines are those of `Mips2008`, whose rules LoongArch has.
"""

import os
import struct
import subprocess
import tempfile

BASE, BUFFER = 0x200000, 0x201000
READ, WRITE, EXIT = 63, 64, 93
# The integer registers of an address of the buffer, of scratch, and of flags.
S0, T0, T1, A0, A1, A2, A7 = 23, 12, 13, 4, 5, 6, 11
# Operations on $fa1, $fa2 and $fa3, with the result in $fa0.
TWO = {"add": 0x01010000, "mul": 0x01050000, "max:Number2008": 0x01090000, "min:Number2008": 0x010B0000}
FUSED, TO_SIGNED, TO_SINGLE = 0x08200000, 0x011B0800, 0x01191800
VALUES = [0x3FF0 << 48, (0x7FF8 << 48) + 1, (0xFFF8 << 48) + 2, (0x7FF0 << 48) + 3, (0xFFF0 << 48) + 4]
VALUES += [0x7FF0 << 48, 0xFFF0 << 48, 0, 1 << 63]
NUMBERS = [0x41E0 << 48, 0xC1E0 << 48, 0xC1E0000000200000, 0xBFF0 << 48, 0x3FF8 << 48]


def call(number, descriptor, address, length):
    """The system call of this number."""
    words = [add(A0, 0, descriptor), add(A1, S0, address), add(A2, 0, length), add(A7, 0, number)]
    return [*words, 0x002B0000]


def add(target, source, number):
    """addi.d"""
    return 0x02C00000 | number << 10 | source << 5 | target


def program(operation):
    """The words of a program that reads three values at a time, and writes a result and FCSR0."""
    begin = [0x14000000 | BUFFER >> 12 << 5 | S0]
    loads = [0x2B800000 | 8 * i << 10 | S0 << 5 | i + 1 for i in range(3)]
    stores = [0x2BC00000 | 32 << 10 | S0 << 5, 0x29C00000 | 40 << 10 | S0 << 5 | T1]
    body = [*loads, 0x0114C000, operation, 0x0114C800 | T1, *stores, *call(WRITE, 1, 32, 16)]
    # bne to the end, over the body and the branch back
    ask = [*call(READ, 0, 0, 24), add(T0, 0, 24), 0x5C000000 | len(body) + 2 << 10 | A0 << 5 | T0]
    back = -(len(ask) + len(body))
    return [*begin, *ask, *body, 0x50000000 | (back & 0xFFFF) << 10 | back >> 16 & 0x3FF, *call(EXIT, 0, 0, 0)]


def executable(words):
    """The file of a program in one segment."""
    code = b"".join(struct.pack("<I", word) for word in words)
    magic = b"\x7fELF\x02\x01\x01" + bytes(9)
    head = magic + struct.pack("<HHIQQQIHHHHHH", 2, 258, 1, BASE + 120, 64, 0, 0x43, 64, 56, 1, 64, 0, 0)
    return head + struct.pack("<IIQQQQQQ", 1, 7, 0, BASE, BASE, 120 + len(code), 0x3000, 0x1000) + code


def computed(operation, operands):
    """The result and the flags for each three operands; flags as the library counts them."""
    file, name = tempfile.mkstemp()
    try:
        os.write(file, executable(program(operation)))
        os.close(file)
        os.chmod(name, 0o700)
        given = b"".join(struct.pack("<QQQ", *values) for values in operands)
        written = subprocess.run(["qemu-loongarch64", name], input=given, stdout=subprocess.PIPE, check=True).stdout
    finally:
        os.unlink(name)
    for value, state in struct.iter_unpack("<QQ", written):
        yield value, sum((state >> 20 - place & 1) << place for place in range(5))


def lines(name, operation, count, operands, mask=(1 << 64) - 1):
    """The lines of an operation on `count` operands."""
    padded = [(*values, 0, 0)[:3] for values in operands]
    for values, (value, flags) in zip(operands, computed(operation, padded), strict=True):
        words = [*values[:count], value & mask, flags]
        print("Mips2008", name, *(f"{word:016x}" for word in words))


def main():
    """Writes all lines."""
    single = (1 << 32) - 1
    pairs = [(x, y) for x in VALUES for y in VALUES]
    for name, code in TWO.items():
        lines(name, code | 2 << 10 | 1 << 5, 2, pairs)
    lines("fma", FUSED | 3 << 15 | 2 << 10 | 1 << 5, 3, [(*pair, z) for pair in pairs for z in VALUES])
    lines("signed", TO_SIGNED | 1 << 5, 1, [(x,) for x in VALUES + NUMBERS], single)
    lines("single", TO_SINGLE | 1 << 5, 1, [(x,) for x in VALUES], single)


if __name__ == "__main__":
    main()
