"""Commands of the program `vectors`, and their replies."""

import re

from exact import status
from exact.formats import PROGRAM_FORMATS
from exact.pairs import PAIRS
from exact.rounding import Mode
from exact.texts import ParseError
from exact.values import VALUES

MODES = {mode.value: mode for mode in Mode}

_KINDS = {known.name: VALUES[known.name] for known in PROGRAM_FORMATS} | {PAIRS.name: PAIRS}

# How many operands an operation takes, and what computes it.
_ON_VALUES = {
    "add": (2, lambda kind, mode, x, y: kind.add(x, y, mode)),
    "sub": (2, lambda kind, mode, x, y: kind.subtract(x, y, mode)),
    "mul": (2, lambda kind, mode, x, y: kind.multiply(x, y, mode)),
    "div": (2, lambda kind, mode, x, y: kind.divide(x, y, mode)),
    "rem": (2, lambda kind, mode, x, y: kind.nearest_remainder(x, y)),
    "mod": (2, lambda kind, mode, x, y: kind.truncated_remainder(x, y)),
    "fma": (3, lambda kind, mode, x, y, z: kind.multiply_add(x, y, z, mode)),
}
_OTHERS = ("int", "parse")


class Refusal(Exception):
    """A command that is refused, with the word of the refusal."""


def replied(words):
    """The reply to the words of a command: the bits of the result and its flags."""
    if not 4 <= len(words) <= 6:
        raise Refusal("arguments")
    format_word, operation, mode_word, *operands = words
    operations = (*_ON_VALUES, *_OTHERS)
    for word, known in (format_word, _KINDS), (operation, operations), (mode_word, MODES):
        if word not in known:
            raise Refusal(word)
    kind, mode = _KINDS[format_word], MODES[mode_word]
    count, compute = _ON_VALUES.get(operation, (1, None))
    if len(operands) != count:
        raise Refusal("arguments")
    if not has_operation(kind, operation):
        raise Refusal(operation)
    if operation == "int":
        value, flags = kind.from_integer(integer_operand(operands[0]), mode)
    elif operation == "parse":
        try:
            value, flags = kind.read(operands[0], mode)
        except ParseError as error:
            raise Refusal(str(error)) from None
    else:
        data = [kind.decoded(bits_operand(kind, word)) for word in operands]
        value, flags = compute(kind, mode, *data)
    return f"{kind.encoded(value):0{kind.hexadecimal_digits}x} {status.names(flags)}"


def has_operation(kind, operation):
    """Products need a precision of at most 64 digits, fused ones at most 63."""
    if operation == "mul":
        return kind.multiplies
    if operation == "fma":
        return kind.multiplies_and_adds
    return True


def bits_operand(kind, word):
    """The bits of an operand: up to 32 hexadecimal digits, after 0x or without it."""
    if re.fullmatch(r"(0x)?[0-9a-fA-F]{1,32}", word):
        pattern = int(word, 16)
        if pattern >> kind.bits == 0:
            return pattern
    raise Refusal(word)


def integer_operand(word):
    """An unsigned integer of up to 128 bits in decimal digits."""
    if re.fullmatch(r"[0-9]+", word):
        integer = int(word)
        if integer >> 128 == 0:
            return integer
    raise Refusal(word)
