"""A constant folder: reads lines FORMAT OP MODE OPERAND.., and prints the bits and the flags of each result.

It accepts and refuses what examples/c/fold.c does. Run it with the module in python/ and the shared library, which
packaging/install builds:

    APFLOAT_LIBRARY=PREFIX/lib/libapfloat.so PYTHONPATH=python python3 examples/python/fold.py < examples/c/lines
"""

import re
import sys

import apfloat

FORMATS = {format.name: format for format in (
    apfloat.half, apfloat.single, apfloat.double, apfloat.quad, apfloat.bfloat, apfloat.e5m2, apfloat.e4m3fn,
    apfloat.e4m3fnuz, apfloat.x87)} | {'dd': apfloat.double_pair}
MODES = {
    'even': apfloat.NEAREST_EVEN,
    'up': apfloat.UPWARD,
    'down': apfloat.DOWNWARD,
    'zero': apfloat.TOWARD_ZERO,
    'away': apfloat.NEAREST_AWAY,
}
OPERATIONS = {
    'add': lambda x, y: x + y,
    'sub': lambda x, y: x - y,
    'mul': lambda x, y: x * y,
    'div': lambda x, y: x / y,
    'rem': lambda x, y: x.remainder(y),
    'mod': lambda x, y: x.fmod(y),
    'fma': lambda x, y, z: x.fma(y, z),
    'sqrt': lambda x: x.sqrt(),
}
OPERANDS = {'fma': 3, 'sqrt': 1, 'parse': 1}
MOST_BYTES = 4000


class Malformed(Exception):
    """The operation or an operand of a line is malformed, or its format or mode is unknown."""

    def __init__(self, code=-1):
        super().__init__(code)
        self.code = code


def bits_of(word):
    """The bits of 1 to 32 hexadecimal digits, with or without 0x before them."""
    if not re.fullmatch('(0x)?[0-9A-Fa-f]{1,32}', word):
        raise Malformed
    return int(word, 16)


def fold(line):
    """The bits and the flags of a line's result."""
    if len(line) > MOST_BYTES or '\0' in line:
        raise Malformed
    words = re.findall('[^ \\t\\r\\n]+', line)
    if not 4 <= len(words) <= 6 or len(words) - 3 != OPERANDS.get(words[1], 2):
        raise Malformed
    format, operation, mode, *operands = words
    if operation != 'parse':
        if operation not in OPERATIONS:
            raise Malformed
        operands = [bits_of(word) for word in operands]
    if format not in FORMATS:
        raise Malformed(1)
    if mode not in MODES and operation not in ('rem', 'mod'):
        raise Malformed(2)
    format = FORMATS[format]
    with apfloat.Context(MODES.get(mode, apfloat.NEAREST_EVEN)) as context:
        if operation == 'parse':
            result = format.fromhex(*operands)
        else:
            result = OPERATIONS[operation](*[format.from_bits(bits & (1 << format.width) - 1) for bits in operands])
    raised = [flag.name for flag in apfloat.Flags if flag and flag in context.flags]
    return f'{result.bits:#x} {"|".join(raised) or "OK"}'


def main():
    """Folds each line."""
    for line in sys.stdin.buffer:
        try:
            print(fold(line.rstrip(b'\n').decode('latin-1')))
        except (Malformed, apfloat.Refused) as refusal:
            print(f'refused: {refusal.code}')


if __name__ == '__main__':
    main()
