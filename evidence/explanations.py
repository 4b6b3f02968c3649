#!/usr/bin/env python3
"""Explains computations, as the program `explain` does: one command on each line of standard input, `--machine` too.

    python3 evidence/explanations.py < tests/explanations/commands

With the option --colour as on a terminal: the place of the exact result in green, the names of flags in yellow.
"""

import re
import sys
from fractions import Fraction
from math import isqrt

from exact import arithmetic, bits, decimals, machines, remainders, roots, status, texts
from exact.data import Finite, Infinite, NaN, is_signaling
from exact.formats import LATER_FORMATS, PROGRAM_FORMATS, with_ieee_flags
from exact.rounding import Mode
from storage_formats import FORMATS as STORED

FORMATS = {format.name: format for format in (*PROGRAM_FORMATS, *LATER_FORMATS)}
OPERATIONS = {
    "add": ("sum A + B", arithmetic.add),
    "sub": ("difference A - B", arithmetic.subtract),
    "mul": ("product A * B", arithmetic.multiply),
    "div": ("quotient A / B", arithmetic.divide),
    "rem": ("remainder of A by B (nearest)", None),
    "mod": ("remainder of A by B (cut)", None),
    "fma": ("fused sum A * B + C", arithmetic.multiply_add),
    "sqrt": ("square root of A", roots.square_root),
}
# Storage formats of which all numbers are shown.
ELEMENTS = {form.name.lower(): form for form in STORED[:3]}
RULES = {
    Mode.EVEN: "to nearest, ties to even",
    Mode.UP: "toward positive",
    Mode.DOWN: "toward negative",
    Mode.ZERO: "toward zero",
    Mode.AWAY: "to nearest, ties away from zero",
}
REASONS = {
    Mode.EVEN: "The nearer one is taken,",
    Mode.UP: "The mode takes the upper neighbour,",
    Mode.DOWN: "The mode takes the lower neighbour,",
    Mode.ZERO: "The mode takes the neighbour nearer to zero,",
    Mode.AWAY: "The nearer one is taken,",
}
TIES = {
    Mode.EVEN: "Ties go to the neighbour with an even last digit,",
    Mode.AWAY: "Ties go to the neighbour of greater magnitude,",
}
# Other spellings of the words of machines.
SPELLINGS = {
    "arm-default-nan": "arm_default_nan",
    "arm-alternate": "arm_alternate",
    "arm-alternate-default-nan": "arm_alternate_default_nan",
    "mips-2008": "mips_2008",
    "risc-v": "risc_v",
    "riscv": "risc_v",
}
CHOICES = {
    "first": "The first NaN is taken, quieted.",
    "signaling": "The first signaling NaN is taken, else the first NaN, quieted.",
    "last signaling": "The last signaling NaN is taken, else the last NaN, quieted.",
    "greater": "The quiet one of two NaNs is taken, else the greater, else the positive one.\n"
    "Bits that the unit does not take give the default NaN.",
    "default": "A result that is a NaN is the default NaN.",
}
CLAUSES = {
    status.INVALID_OP: "INVALID_OP: no number results, or an operand is a signaling NaN (7.2)",
    status.DIV_BY_ZERO: "DIV_BY_ZERO: a nonzero number divided by zero (7.3)",
    status.OVERFLOW: "OVERFLOW: rounded, the result is past the largest value (7.4)",
    status.UNDERFLOW: "UNDERFLOW: inexact, and below the smallest normal number (7.5)",
    status.INEXACT: "INEXACT: the result is not the exact one (7.6)",
}
NAMES = [text.split(":")[0] for text in CLAUSES.values()]
HEXADECIMAL = re.compile(r"(?:0x)?([0-9a-fA-F]{1,32})")
AS_BITS = "        read as bits; a number has a dot or ends in d"
AS_NUMBER = "        read as a number; bits may begin with 0x"
LINE = "        |---------------|---------------|---------------|---------------|"


def main():
    """Explains each line."""
    for line in sys.stdin:
        lines = explained(line.split())
        print("\n".join(map(coloured, lines) if "--colour" in sys.argv[1:] else lines))


def coloured(line):
    """A line as it is written to a terminal."""
    if line.strip() == "^":
        return line.replace("^", "\033[1;32m^\033[0m")
    return re.sub(rf"^(flags   |        )({'|'.join(NAMES)}):", "\\1\033[1;33m\\2\033[0m:", line)


def explained(words):
    """The lines of a command's explanation."""
    machine = None
    if words[0] == "--machine":
        machine, words = words[1], words[2:]
    format = FORMATS[words[0]]
    if len(words) == 2:
        return given(format, words[0], words[1])
    if words[1] in ELEMENTS:
        return converted(format, words)
    name, operation = OPERATIONS[words[1]]
    mode = Mode(words[2])
    data = [operand(format, word)[0] for word in words[3:]]
    lines = [f"{words[0]} {name}, {RULES[mode]}" + (f", on {machine}" if machine else ""), ""]
    for label, word in zip("ABC", words[3:]):
        lines += given(format, label, word)
    value, flags = computed(format, words[1], operation, data, mode)
    lines += ["", *placed(format, words[1], operation, data, mode, value, flags)]
    if machine:
        reason, value, flags = on_machine(machine, format, words[1], operation, data, mode)
        lines += reason
    lines += shown(format, "result", value)
    return lines + raised(flags)


def converted(format, words):
    """The lines of a conversion into a storage format, with all its numbers of the result's sign."""
    form, mode = ELEMENTS[words[1]], Mode(words[2])
    x, _, _ = operand(format, words[3])
    code, flags, _ = form.store(format, x, mode)
    negative = code >= form.count
    signed = sorted((-m if negative else m, c) for c, m in enumerate(form.points[: form.count]))
    lines = [f"{words[0]} A in {words[1]}, {RULES[mode]}", "", *given(format, "A", words[3]), ""]
    numbers = []
    for value, magnitude in signed:
        taken = magnitude == code % form.count
        whole, rest = divmod(abs(value), 1)
        sign = "-" if negative else ""
        digits = f"{int(rest * 10**4):04}".rstrip("0") or "0"
        written = magnitude + form.count * negative
        text = f"{'result' if taken else '':<7} {written:02x} = {sign}{int(whole)}.{digits}"
        numbers.append((value, text))
    texts_of = [text for _, text in numbers]
    if isinstance(x, Finite):
        exact = Fraction(x.signed_quanta, 1) / Fraction(2) ** format.scale
        if all(value != exact for value, _ in numbers):
            place = sum(value < exact for value, _ in numbers)
            texts_of.insert(place, "        ----------- A")
    return lines + texts_of + [""] + raised(flags)


def raised(flags):
    """The lines of the flags."""
    told = [text for flag, text in CLAUSES.items() if flags & flag] or ["none"]
    return [("flags   " if i == 0 else "        ") + text for i, text in enumerate(told)]


def computed(format, word, operation, data, mode):
    """The value and the flags of an operation."""
    if word == "rem":
        return remainders.nearest_remainder(format, *data)
    if word == "mod":
        return remainders.truncated_remainder(format, *data)
    return operation(format, *data, mode)


def on_machine(machine, format, word, operation, data, mode):
    """Why a NaN results, in lines, and the value and the flags as the machine gives them."""
    rules = machines.MACHINES[SPELLINGS.get(machine, machine)]
    answer = computed(with_ieee_flags(format)[rules.tiny_before_rounding], word, operation, data, mode)
    settle = machines.settled_fused if word == "fma" else machines.settled
    value, flags = settle(format, rules, data, answer)
    return source_of_nan(format, rules, word, data) if isinstance(value, NaN) else [], value, flags


def source_of_nan(format, rules, word, data):
    """Where the NaN of a machine comes from, in lines."""
    if not any(isinstance(x, NaN) for x in data):
        return ["No operand is a NaN: the result is the default NaN.", ""]
    if word == "fma" and machines.drops_addend(format, rules, data):
        return ["An infinity times a zero: the default NaN takes the place of C.", ""]
    order = f" Order: {', '.join(rules.order)}." if word == "fma" else ""
    return [*(CHOICES[rules.choice] + order).split("\n"), ""]


def operand(format, word):
    """The value of a word, whether it was rounded, and a note on how the word was read, if any.

    A number that a d ends is that number, whatever else the word might be.
    """
    written = HEXADECIMAL.fullmatch(word)
    number = number_of(format, word.removesuffix("d")) if word.endswith("d") else None
    if number:
        return *number, [AS_NUMBER] if written else []
    number = number_of(format, word)
    pattern = int(written[1], 16) if written else None
    if written and pattern < 1 << format.bits:
        return bits.decoded(format, pattern), False, [AS_BITS] if number else []
    return *number, [AS_NUMBER] if written else []


def number_of(format, word):
    """The value of a number, and whether it was rounded; None for any other word."""
    if decimals.literal(word):
        value, flags = decimals.read(format, word, Mode.EVEN)
    else:
        try:
            value, flags = texts.read(format, word, Mode.EVEN)
        except texts.ParseError:
            return None
    return value, bool(flags & status.INEXACT)


def given(format, label, word):
    """The lines of an operand."""
    x, is_rounded, notes = operand(format, word)
    return [
        *shown(format, label, x),
        *notes,
        *["        the nearest value to what was given"] * is_rounded,
    ]


def shown(format, label, x):
    """The lines of a value."""
    return [
        *headed(format, label, x),
        f"        {fields(format, bits.encoded(format, x))}",
        f"        {meaning(format, x)}",
    ]


def headed(format, label, x):
    """The bits and the shortest decimal, in two lines if there are 128 bits."""
    head = f"{label:<7} {bits.encoded(format, x):0{format.hexadecimal_digits}x}"
    if format.bits > 80:
        return [head, f"        {short(format, x)}"]
    return [f"{head} = {short(format, x)}"]


def short(format, x):
    """The shortest decimal, or the word for a value that is not a number."""
    sign = "-" if x.negative else ""
    if isinstance(x, Infinite):
        return f"{sign}infinity"
    if not isinstance(x, Finite):
        return sign + ("signaling NaN" if is_signaling(format, x) else "NaN")
    return sign + plain(*decimals.shortest(format, x))


def plain(digits, exponent):
    """A decimal without an exponent if that of its first digit is from -6 to 20."""
    if digits == 0:
        return "0.0"
    text = str(digits)
    first = exponent + len(text) - 1
    if not -6 <= first <= 20:
        return text[0] + ("." + text[1:] if len(text) > 1 else "") + f"e{first}"
    if exponent >= 0:
        return text + "0" * exponent + ".0"
    text = text.zfill(1 - exponent)
    return f"{text[:exponent]}.{text[exponent:]}"


def fields(format, written):
    """The sign, the biased exponent and the rest."""
    rest = format.bits - 1 - format.exponent_bits
    sign, field = written >> format.bits - 1, written >> rest & (1 << format.exponent_bits) - 1
    last = written & (1 << rest) - 1
    tail = f"{last:0{rest}b}" if rest <= 52 else f"{last:0{rest // 4}x}"
    return f"{sign} {field:0{format.exponent_bits}b} {tail}"


def meaning(format, x):
    """What a value is exactly."""
    sign = "-" if x.negative else ""
    if isinstance(x, Infinite):
        return f"{sign}infinity"
    if not isinstance(x, Finite):
        signals = ", which raises INVALID_OP" if is_signaling(format, x) else ""
        return f"not a number{signals}"
    if x.quanta == 0:
        return f"{sign}0"
    zeros = (x.quanta & -x.quanta).bit_length() - 1
    denormal = ", denormal" if x.quanta < format.smallest_normalized else ""
    return f"{sign}{x.quanta >> zeros} * 2^{zeros - format.scale}{denormal}"


def placed(format, word, operation, data, mode, value, flags):
    """The lines that say where the exact result is."""
    if not flags & status.INEXACT:
        exact = "The exact result is a value of the format."
        return [exact, ""] if isinstance(value, Finite) else []
    lower, _ = computed(format, word, operation, data, Mode.DOWN)
    upper, _ = computed(format, word, operation, data, Mode.UP)
    low, high = exactly(format, word, data)
    exact = [f"exact   {digits_of(low, high, format.scale)}", ""]
    if not (isinstance(lower, Finite) and isinstance(upper, Finite)):
        return exact + ["The exact result is beyond the largest value.", ""]
    gap = upper.signed_quanta - lower.signed_quanta
    parts = 64 * (low - lower.signed_quanta) // gap
    middle = lower.signed_quanta + Fraction(gap, 2)
    if low == high == middle:
        side, reason = "exactly in the middle", TIES.get(mode, REASONS[mode])
    else:
        side, reason = ("above" if low >= middle else "below") + " the middle", REASONS[mode]
    taken = "upper" if value == upper else "lower"
    return exact + [
        "The exact result lies between two neighbours:",
        "",
        *headed(format, "lower", lower),
        LINE,
        f"{' ' * (8 + parts)}^",
        *headed(format, "upper", upper),
        "",
        f"It is {side}.",
        f"{reason} the {taken} one.",
        "",
    ]


def digits_of(low, high, scale):
    """An exact result between two bounds, in quanta, as an odd number times a power of two.

    One of more than 125 binary digits is cut after these, downward.
    """
    magnitude = abs(low)
    place = magnitude.numerator.bit_length() - magnitude.denominator.bit_length() - 124
    if magnitude < Fraction(2) ** (place + 124):
        place -= 1
    significand = low / Fraction(2) ** place // 1
    more = "" if low == high == significand * Fraction(2) ** place else "a little more than "
    zeros = (significand & -significand).bit_length() - 1
    return f"{more}{significand >> zeros} * 2^{place + zeros - scale}"


def exactly(format, word, data):
    """The exact result in quanta, as two bounds that no neighbour or part of a way separates."""
    scale = 1 << format.scale
    x, *others = (Fraction(x.signed_quanta) for x in data)
    if word == "sqrt":
        finer = 256
        root = isqrt(int(x) * scale << 2 * finer)
        low = Fraction(root, 1 << finer)
        return low, low if low * low == x * scale else Fraction(root + 1, 1 << finer)
    result = {
        "add": lambda y: x + y,
        "sub": lambda y: x - y,
        "mul": lambda y: x * y / scale,
        "div": lambda y: x / y * scale,
        "fma": lambda y, z: x * y / scale + z,
    }[word](*others)
    return result, result


if __name__ == "__main__":
    main()
