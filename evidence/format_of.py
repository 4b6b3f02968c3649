"""Computes tests/rows/format_of.tsv: operations whose result is of another format.

    python3 evidence/format_of.py | diff - tests/rows/format_of.tsv

Each exact result is a fraction, which is rounded once to the format of the result. The operands
are drawn from a seed: most are numbers and midpoints of the format of the result, or next to them
by a unit of the operands' format; others are special, or any bits.
"""

from random import Random

from exact.bits import decoded, encoded
from exact.data import Infinite, number
from exact.format_of import computed
from exact.formats import FORMATS
from row_files import MODES, hexes, row

PAIRS = (
    ("double", "half"),
    ("double", "bfloat"),
    ("double", "single"),
    ("double", "quad"),
    ("half", "quad"),
    ("quad", "half"),
    ("single", "e4m3fn"),
    ("e4m3fnuz", "double"),
    ("bfloat", "half"),
)

# The operations with the number of their operands and the call.
OPERATIONS = {
    "Sum": (2, "add_to"),
    "Difference": (2, "sub_to"),
    "Product": (2, "mul_to"),
    "Quotient": (2, "div_to"),
    "Root": (1, "sqrt_to"),
    "FusedSum": (3, "mul_add_to"),
}

ROWS_OF_EACH = 6


def operand(choices, source, target):
    """Bits of the source: any, special, or near the numbers of the target and its midpoints."""
    kind = choices.randrange(8)
    if kind == 0:
        return choices.getrandbits(source.bits)
    if kind == 1:
        zeros = (number(source, True, 0), number(source, False, 0))
        x = choices.choice((Infinite(False), Infinite(True), *zeros))
        if isinstance(x, Infinite) and not source.has_infinity:
            x = number(source, x.negative, source.largest)
        return encoded(source, x)
    least = max(source.least_exponent, target.least_exponent - 3) // 2
    greatest = min(source.greatest_exponent, target.greatest_exponent + 2) // 2
    exponent = choices.randint(least, greatest) + source.scale
    digits = min(source.precision, target.precision + 1) if kind < 6 else source.precision
    lead = choices.getrandbits(digits) | 1 << digits - 1
    place = exponent - digits + 1
    quanta = max(1, lead << place if place >= 0 else lead >> -place)
    nudge = choices.choice((0, 0, 1, -1)) << max(0, quanta.bit_length() - source.precision)
    negative = choices.random() < 0.5
    x = number(source, negative, min(source.largest, quanta))
    near = min(source.largest, max(1, x.quanta + nudge))
    if near % (1 << max(0, near.bit_length() - source.precision)) == 0:
        x = number(source, negative, near)
    return encoded(source, x)


def main():
    choices = Random(2019)
    print("# Operations whose result is of another format. Computed by evidence/format_of.py.")
    for source_name, target_name in PAIRS:
        source, target = FORMATS[source_name], FORMATS[target_name]
        for operation, (count, call) in OPERATIONS.items():
            for place in range(ROWS_OF_EACH):
                mode = MODES[place % len(MODES)]
                bits = [operand(choices, source, target) for _ in range(count)]
                data = [decoded(source, word) for word in bits]
                value, status = computed(source, target, operation, mode, data)
                kind, result = f"{source_name}>{target_name}", hexes(target, encoded(target, value))
                print(row(call, kind, mode, hexes(source, *bits), result, status))


if __name__ == "__main__":
    main()
