#!/usr/bin/env python3
"""Writes lines in the form of other programs' test files, with the results of the model.

    python3 evidence/field_files.py testfloat FUNCTION SEED COUNT [OPTION ..]
    python3 evidence/field_files.py fpgen SEED COUNT [-tininessbefore] [-copies]

The first is a function of Berkeley TestFloat, such as `f64_add`, with its options of rounding; the
second are lines of IBM's FPgen, in its three binary formats. The same words draw the same lines.
With -copies instead, the lines of FPgen are comparisons, conversions and copies.
"""

import random
import re
import sys

from exact import calls
from exact.status import NAMES

FLOATS = {
    "f16": ("half", 16, 10),
    "f32": ("single", 32, 23),
    "f64": ("double", 64, 52),
    "extF80": ("x87", 80, 64),
    "f128": ("quad", 128, 112),
}
INTEGERS = {"ui32": 32, "ui64": 64, "i32": 32, "i64": 64}
OPERATIONS = {
    "add": ("add_r", 2),
    "sub": ("sub_r", 2),
    "mul": ("wide_mul_r", 2),
    "mulAdd": ("wide_mul_add_r", 3),
    "div": ("div_r", 2),
    "rem": ("ieee_rem", 2),
    "sqrt": ("sqrt_r", 1),
    "roundToInt": ("round_to_integral", 1),
}
# Comparisons, whose result is 1 or 0.
COMPARISONS = {
    "eq": "compare_quiet_equal",
    "le": "compare_signaling_less_equal",
    "lt": "compare_signaling_less",
    "eq_signaling": "compare_signaling_equal",
    "le_quiet": "compare_quiet_less_equal",
    "lt_quiet": "compare_quiet_less",
}
MODES = {
    "-rnear_even": "even",
    "-rmax": "up",
    "-rmin": "down",
    "-rminMag": "zero",
    "-rnear_maxMag": "away",
    "-rodd": "odd",
}
# The endings of functions that round in a mode of their own; those with an x raise the inexact flag.
ENDING = re.compile("(.*)_(rx?)_(near_even|near_maxMag|minMag|min|max)")
# What rows call with the mode to odd, and with the fewer digits of an x87.
TO_ODD = {
    "add_r": "add_odd",
    "sub_r": "sub_odd",
    "wide_mul_r": "mul_odd",
    "wide_mul_add_r": "mul_add_odd",
    "div_r": "div_odd",
    "sqrt_r": "sqrt_odd",
    "round_to_integral": "round_to_odd_integral",
    "convert_r": "convert_odd",
    "from_u128_r": "from_u128_odd",
    "from_i128_r": "from_i128_odd",
    "to_u128_r": "to_u128_odd",
    "to_i128_r": "to_i128_odd",
}
TO_FEWER_DIGITS = {
    "add_r": "add_to",
    "sub_r": "sub_to",
    "wide_mul_r": "mul_to",
    "div_r": "div_to",
    "sqrt_r": "sqrt_to",
}
FEWER_DIGITS = {"-precision32": "x87p24", "-precision64": "x87p53"}
# TestFloat has the flags in the reverse order.
FLAGS = {name: 1 << place for place, name in enumerate(reversed(NAMES))}


def value(choices, kind):
    """The bits of a value: any, near 1, or at an end of the format."""
    _, width, fraction = FLOATS[kind]
    explicit = kind == "extF80"
    ones = (1 << (width - 1 - fraction)) - 1
    one = ones >> 1
    near, far = one + choices.randint(-3, 3), one + choices.randint(0, fraction)
    exponent = choices.choice([choices.randint(1, ones - 1), near, far, 0, ones - 1, 1])
    bits = choices.getrandbits(fraction - explicit)
    if choices.random() < 0.3:
        bits &= -1 << choices.randint(fraction // 2, fraction - 2)
    if choices.random() < 0.05:
        exponent, bits = ones, choices.choice([0, 1 << (fraction - explicit - 1)])
    if explicit and exponent > 0:
        bits |= 1 << 63
    return choices.getrandbits(1) << (width - 1) | exponent << fraction | bits


def numbers(status):
    """The flags of a status, as a number."""
    return sum(FLAGS[name] for name in status.split("|") if name != "OK")


def hexadecimal(bits, width):
    """Bits of this width in upper-case digits."""
    return f"{bits & ((1 << width) - 1):0{width // 4}X}"


def answer(call, words, mode, operands):
    """The value and the flags that the model has for a call."""
    if mode == "odd":
        call, mode = TO_ODD.get(call, call), "-"
    given = calls.answered(call, words, "-" if call == "ieee_rem" else mode, operands)
    return given.value, numbers(given.flags)


def testfloat(function, choices, options):
    """A line of TestFloat for a function."""
    mode = next((MODES[option] for option in options if option in MODES), "even")
    ending = ENDING.fullmatch(function)
    if ending:
        function, mode = ending[1], MODES[f"-r{ending[3]}"]
    if ending and ending[2] == "rx" or function.endswith("_x"):
        function, options = function.removesuffix("_x"), [*options, "-exact"]
    suffix = "+ieee+before" if "-tininessbefore" in options else "+ieee"
    source, to, target = function.partition("_to_")
    if not to:
        kind, _, operation = function.partition("_")
        name, width, _ = FLOATS[kind]
        if operation in COMPARISONS:
            return comparison(COMPARISONS[operation], choices, kind, suffix)
        call, count = OPERATIONS[operation]
        operands = [hexadecimal(value(choices, kind), width) for _ in range(count)]
        formats = name + suffix
        fewer = [FEWER_DIGITS[option] for option in options if option in FEWER_DIGITS]
        if kind == "extF80" and fewer and call in TO_FEWER_DIGITS:
            formats = f"x87>{fewer[-1]}{suffix}"
            odd = mode == "odd"
            called = TO_ODD[call] if odd else TO_FEWER_DIGITS[call]
            result, flags = answer(called, formats, mode, " ".join(operands).lower())
        else:
            result, flags = answer(call, formats, mode, " ".join(operands).lower())
        if call == "round_to_integral" and "-exact" not in options:
            flags &= ~1
        return " ".join([*operands, hexadecimal(int(result, 16), width), f"{flags:02X}"])
    if source in INTEGERS:
        width = INTEGERS[source]
        bits = choices.getrandbits(width) >> choices.randint(0, width - 1)
        if choices.random() < 0.5:
            bits = -bits % (1 << width)
        signed = source.startswith("i")
        number = bits - (1 << width) if signed and bits >> (width - 1) else bits
        name, target_width, _ = FLOATS[target]
        call = "from_i128_r" if signed else "from_u128_r"
        result, flags = answer(call, name + suffix, mode, str(number))
        return f"{hexadecimal(bits, width)} {hexadecimal(int(result, 16), target_width)} {flags:02X}"
    name, width, _ = FLOATS[source]
    operand = hexadecimal(value(choices, source), width)
    if target in INTEGERS:
        target_width = INTEGERS[target]
        call = "to_i128_r" if target.startswith("i") else "to_u128_r"
        result, flags = answer(call, name + suffix, mode, f"{operand.lower()} {target_width}")
        if "-exact" not in options:
            flags &= ~1
        return f"{operand} {hexadecimal(int(result), target_width)} {flags:02X}"
    target_name, target_width, _ = FLOATS[target]
    call = "convert_r"
    result, flags = answer(call, f"{name}{suffix}>{target_name}{suffix}", mode, operand.lower())
    return f"{operand} {hexadecimal(int(result, 16), target_width)} {flags:02X}"


def comparison(call, choices, kind, suffix):
    """A line of a comparison; a third of the operands are equal or differ in their signs."""
    name, width, _ = FLOATS[kind]
    x, y = value(choices, kind), value(choices, kind)
    y = choices.choice([y, y, y, y, x, x ^ 1 << width - 1])
    operands = [hexadecimal(bits, width) for bits in (x, y)]
    given = calls.answered(call, name + suffix, "-", " ".join(operands).lower())
    return " ".join([*operands, "1" if given.value == "true" else "0", f"{numbers(given.flags):02X}"])


FPGEN_FORMATS = {"b32": "f32", "b64": "f64", "b128": "f128"}
FPGEN_OPERATIONS = {
    "+": "add",
    "-": "sub",
    "*": "mul",
    "*+": "mulAdd",
    "/": "div",
    "%": "rem",
    "V": "sqrt",
    "rfi": "roundToInt",
}
FPGEN_MODES = {"=0": "even", ">": "up", "<": "down", "0": "zero", "=^": "away"}
FPGEN_FLAGS = {1: "x", 2: "u", 4: "o", 8: "z", 16: "i"}


def fpgen_number(bits, kind):
    """The text of a value of a format in lines of FPgen."""
    _, width, fraction = FLOATS[kind]
    ones = (1 << (width - 1 - fraction)) - 1
    exponent = bits >> fraction & ones
    low = bits & ((1 << fraction) - 1)
    sign = "-" if bits >> (width - 1) else "+"
    if exponent == ones:
        return ("Q" if low >> (fraction - 1) else "S") if low else sign + "Inf"
    if exponent == 0 and low == 0:
        return sign + "Zero"
    bias = ones >> 1
    digits = f"{low:0{-(-fraction // 4)}X}"
    return f"{sign}{int(exponent > 0)}.{digits}P{max(exponent, 1) - bias}"


def fpgen(choices, options):
    """A line of FPgen."""
    name = choices.choice(sorted(FPGEN_FORMATS))
    kind = FPGEN_FORMATS[name]
    symbol = choices.choice(sorted(FPGEN_OPERATIONS))
    rounding = choices.choice(sorted(FPGEN_MODES))
    call, count = OPERATIONS[FPGEN_OPERATIONS[symbol]]
    form, width, _ = FLOATS[kind]
    suffix = "+ieee+before" if "-tininessbefore" in options else "+ieee"
    operands = [value(choices, kind) for _ in range(count)]
    words = " ".join(f"{bits:0{width // 4}x}" for bits in operands)
    result, flags = answer(call, form + suffix, FPGEN_MODES[rounding], words)
    texts = " ".join(fpgen_number(bits, kind) for bits in operands)
    letters = "".join(letter for flag, letter in FPGEN_FLAGS.items() if flags & flag)
    stated = fpgen_number(int(result, 16), kind)
    return f"{name}{symbol} {rounding} {texts} -> {stated} {letters}".rstrip()


# The relations that a comparison of FPgen states, with the calls that tell whether they hold.
FPGEN_RELATIONS = {
    "<": ("compare_quiet_less", "compare_signaling_less"),
    ">": ("compare_quiet_greater", "compare_signaling_greater"),
    "=": ("compare_quiet_equal", "compare_signaling_equal"),
    "?": ("compare_quiet_unordered", "compare_signaling_unordered"),
}
FPGEN_COPIES = {"cp": ("copy_sign", 1), "~": ("neg", 1), "A": ("abs", 1), "@": ("copy_sign", 2)}


def fpgen_copy(choices, options):
    """A comparison, a conversion or a copy, as a line of FPgen."""
    name = choices.choice(sorted(FPGEN_FORMATS))
    kind = FPGEN_FORMATS[name]
    form, width, _ = FLOATS[kind]
    suffix = "+ieee+before" if "-tininessbefore" in options else "+ieee"
    symbol = choices.choice(["qC", "sC", "cff", *FPGEN_COPIES])
    mode = choices.choice(sorted(FPGEN_MODES))
    x, y = value(choices, kind), value(choices, kind)
    if choices.random() < 0.2:
        x |= (1 << width - 1) - (1 << FLOATS[kind][2])
    y = choices.choice([y, y, x, x ^ 1 << width - 1])
    if symbol == "cff":
        target_name = choices.choice([known for known in sorted(FPGEN_FORMATS) if known != name])
        target = FPGEN_FORMATS[target_name]
        formats = f"{form}{suffix}>{FLOATS[target][0]}{suffix}"
        result, flags = answer("convert_r", formats, FPGEN_MODES[mode], f"{x:x}")
        stated = fpgen_number(int(result, 16), target)
        letters = "".join(letter for flag, letter in FPGEN_FLAGS.items() if flags & flag)
        return f"{name}{target_name}cff {mode} {fpgen_number(x, kind)} -> {stated} {letters}".rstrip()
    if symbol in FPGEN_COPIES:
        call, count = FPGEN_COPIES[symbol]
        given = [x, y][:count]
        words = f"{x:x} {x:x}" if symbol == "cp" else " ".join(f"{bits:x}" for bits in given)
        result = calls.answered(call, form + suffix, "-", words).value
        texts = " ".join(fpgen_number(bits, kind) for bits in given)
        return f"{name}{symbol} {texts} -> {fpgen_number(int(result, 16), kind)}"
    texts = " ".join(fpgen_number(bits, kind) for bits in (x, y))
    signals = symbol == "sC"
    for relation, names in FPGEN_RELATIONS.items():
        given = calls.answered(names[signals], form + suffix, "-", f"{x:x} {y:x}")
        if given.value == "true":
            letters = "i" if given.flags == "INVALID_OP" else ""
            return f"{name}{symbol} {texts} -> {relation} {letters}".rstrip()
    raise ValueError(texts)


def main():
    """Draws lines and writes them."""
    what, *others = sys.argv[1:]
    if what == "testfloat":
        function, seed, count, *options = others
        choices = random.Random(f"{function} {seed}")
        for _ in range(int(count)):
            print(testfloat(function, choices, options))
    else:
        seed, count, *options = others
        choices = random.Random(int(seed))
        for _ in range(int(count)):
            print((fpgen_copy if "-copies" in options else fpgen)(choices, options))


if __name__ == "__main__":
    main()
