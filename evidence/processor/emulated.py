#!/usr/bin/env python3
"""Compares lines of `emulated.c`, run by an emulator of a processor, with the tables of docs/MACHINES.md.

    qemu-s390x RUN | python3 evidence/processor/emulated.py

Prints each line that differs with what the tables say, and then how many agree. The exit status is 1 if a line
differs.
"""

import sys
from fractions import Fraction

from compare import compared

QUIET = 1 << 51
INVALID, INEXACT = 1, 16

# The tables of docs/MACHINES.md: the choice of NaN, the sign of the default, the order in a fused sum, whether an
# infinity times a zero takes the place of a quiet and of a signaling addend, and whether it is invalid with a quiet
# one.
RULES = {
    "Arm": ("signaling", 0, "zxy", True, False, True),
    "ArmDefaultNan": ("default", 0, "xyz", True, True, True),
    "RiscV": ("default", 0, "xyz", True, True, True),
    "Power": ("first", 0, "xzy", False, False, True),
    "S390x": ("signaling", 0, "xyz", True, True, True),
    "Mips2008": ("signaling", 0, "zxy", False, False, True),
}
# The integer of a NaN, signed and unsigned.
OF_NAN = {
    "Arm": (0, 0),
    "ArmDefaultNan": (0, 0),
    "RiscV": (2**31 - 1, 2**32 - 1),
    "Power": (-(2**31), 0),
    "S390x": (-(2**31), 0),
    "Mips2008": (0, 0),
}


def is_nan(x):
    return x & (2**63 - 1) > 0x7FF << 52


def is_signaling(x):
    return is_nan(x) and not x & QUIET


def number(x):
    """The number, or a string for an infinity."""
    sign = -1 if x >> 63 else 1
    field, digits = x >> 52 & 0x7FF, x & (1 << 52) - 1
    if field == 0x7FF:
        return "-inf" if x >> 63 else "inf"
    if field == 0:
        return sign * Fraction(digits, 2**1074)
    return sign * (digits + (1 << 52)) * Fraction(2) ** (field - 1075)


def default(machine):
    return RULES[machine][1] << 63 | 0x7FF8 << 48


def taken(machine, operands):
    """The NaN of operands in the machine's order."""
    choice = RULES[machine][0]
    nans = [x for x in operands if is_nan(x)]
    signaling = [x for x in nans if is_signaling(x)]
    if choice == "default" or not nans:
        return default(machine)
    return (signaling[0] if choice == "signaling" and signaling else nans[0]) | QUIET


def is_zero(x):
    return x & (2**63 - 1) == 0


def is_infinite(x):
    return x & (2**63 - 1) == 0x7FF << 52


def times_zero(x, y):
    return is_zero(x) and is_infinite(y) or is_infinite(x) and is_zero(y)


def rank(x):
    """The order of what is not a NaN, with -0 below +0."""
    n = number(x)
    big = Fraction(2) ** 2000
    return (big if n == "inf" else -big if n == "-inf" else n, not x >> 63)


def extremum(machine, call, rule, x, y):
    sign = 1 if call == "min" else -1
    signaling = is_signaling(x) or is_signaling(y)
    flags = INVALID if signaling or rule == "Second" and (is_nan(x) or is_nan(y)) else 0
    if rule in ("Second", "SecondQuietly"):
        if is_nan(x) or is_nan(y):
            return y, flags
        return (x if (rank(x)[0] - rank(y)[0]) * sign < 0 else y), flags
    best = None
    if not is_nan(x) and not is_nan(y):
        best = min(x, y, key=rank) if call == "min" else max(x, y, key=rank)
    if rule == "FirstNan":
        return (x if is_nan(x) else y if is_nan(y) else best), flags
    if rule == "Propagated":
        return (taken(machine, [x, y]) if best is None else best), flags
    if rule == "Number2008" and (signaling or is_nan(x) and is_nan(y)):
        return taken(machine, [x, y]), flags
    if is_nan(x) and is_nan(y):
        return default(machine), flags
    return (y if is_nan(x) else x if is_nan(y) else best), flags


def fused(machine, x, y, z):
    _, _, order, drops_quiet, drops_signaling, flags_quiet = RULES[machine]
    signaling = any(is_signaling(v) for v in (x, y, z))
    if any(is_nan(v) for v in (x, y, z)):
        invalid = signaling or times_zero(x, y) and flags_quiet
        drops = drops_signaling if is_signaling(z) else drops_quiet
        if times_zero(x, y) and drops:
            return default(machine), INVALID if invalid else 0
        names = {"x": x, "y": y, "z": z}
        return taken(machine, [names[name] for name in order]), INVALID if invalid else 0
    if times_zero(x, y):
        return default(machine), INVALID
    if (is_infinite(x) or is_infinite(y)) and is_infinite(z) and (x ^ y ^ z) >> 63:
        return default(machine), INVALID
    return None


def of_two(machine, call, x, y):
    if is_nan(x) or is_nan(y):
        return taken(machine, [x, y]), INVALID if is_signaling(x) or is_signaling(y) else 0
    opposite = is_infinite(x) and is_infinite(y) and (x ^ y) >> 63
    if call == "add" and opposite or call == "mul" and times_zero(x, y):
        return default(machine), INVALID
    return None


def integer(machine, signed, x):
    low, high = (-(2**31), 2**31 - 1) if signed else (0, 2**32 - 1)
    inexact = INEXACT if machine == "S390x" else 0
    if is_nan(x):
        return OF_NAN[machine][0 if signed else 1] % 2**32, INVALID
    n = number(x)
    if n in ("inf", "-inf"):
        return (high if n == "inf" else low) % 2**32, INVALID | inexact
    nearest = round(n)
    if nearest < low or nearest > high:
        return (high if n > 0 else low) % 2**32, INVALID | inexact
    return nearest % 2**32, 0 if nearest == n else INEXACT


def single(machine, x):
    if not is_nan(x):
        return None
    flags = INVALID if is_signaling(x) else 0
    if RULES[machine][0] == "default":
        return 0x7FC00000, flags
    return x >> 32 & 0x80000000 | 0x7FC00000 | x >> 29 & 0x3FFFFF, flags


def expected(machine, call, operands):
    if call == "fma":
        return fused(machine, *operands)
    if call in ("signed", "unsigned"):
        return integer(machine, call == "signed", *operands)
    if call == "single":
        return single(machine, *operands)
    if ":" in call:
        call, rule = call.split(":")
        return extremum(machine, call, rule, *operands)
    return of_two(machine, call, *operands)


def of_line(line):
    """The result of a line, and that of the tables, if they have the call."""
    machine, call, *words = line.split()
    *operands, value, flags = (int(word, 16) for word in words)
    want = expected(machine, call, operands)
    return want and ((value, flags), want, f"the tables: {want[0]:016x} {want[1]:x}")


if __name__ == "__main__":
    sys.exit(compared(sys.stdin, of_line))
