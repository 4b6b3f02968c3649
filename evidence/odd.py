"""Computes tests/rows/odd.tsv: results rounded to odd, and rounded again.

    python3 evidence/odd.py | diff - tests/rows/odd.tsv

Each exact result is a fraction; that of a root is one which compares with all numbers that matter as
the root does. It is rounded to odd here, and once in each mode to the format of the second rounding by
the model. The operands are drawn from a seed: most are such that the result is near
a number or a midpoint of that format, near its least numbers or past its largest.
"""

from fractions import Fraction
from math import isqrt
from random import Random

from exact.bits import decoded, encoded
from exact.data import Finite, number
from exact.formats import FORMATS
from exact.odd import delivered_to_odd
from exact.rounding import Mode, delivered
from exact.status import names
from row_files import hexes, in_each_mode, row

PAIRS = (
    ("half+ieee", "e5m2+ieee"),
    ("half", "e4m3fn"),
    ("single+ieee+before", "half+ieee+before"),
    ("single", "e4m3fnuz"),
)

OPERATIONS = ("Sum", "Product", "Quotient")

CALLS = {"Sum": "add_odd", "Product": "mul_odd", "Quotient": "div_odd", "Root": "sqrt_odd"}

# Roots are rounded as if they had so many binary places, and a half more if they are inexact.
ROOT_PLACES = 400

ROWS_OF_EACH = 6


def value_of(form, bits):
    """The number as a fraction."""
    return Fraction(decoded(form, bits).signed_quanta, 1 << form.scale)


def rounded(form, mode, exact):
    """A fraction rounded once."""
    quanta = abs(exact) * (1 << form.scale)
    return delivered(form, mode, exact < 0, quanta.numerator, quanta.denominator)


def to_odd(form, exact):
    """A fraction rounded to odd, with the flags of rounding toward zero."""
    quanta = abs(exact) * (1 << form.scale)
    return delivered_to_odd(form, exact < 0, quanta.numerator, quanta.denominator)


def exact_result(operation, x, y):
    """The exact result of two fractions."""
    if operation == "Sum":
        return x + y
    return x * y if operation == "Product" else x / y


def root_of(x):
    """The square root of a fraction whose denominator is a power of two: itself, or a fraction that no number with
    fewer than ROOT_PLACES places is between and the root."""
    square = x * (1 << 2 * ROOT_PLACES)
    whole = isqrt(square.numerator)
    exact = Fraction(whole, 1 << ROOT_PLACES)
    return exact if whole * whole == square.numerator else exact + Fraction(1, 1 << ROOT_PLACES + 1)


def near(choices, source, target):
    """A number near those of the target, near its least numbers, or past its largest."""
    kind = choices.randrange(6)
    exponent = choices.randint(target.least_exponent, target.greatest_exponent)
    if kind == 0:
        exponent = target.least_exponent - choices.randint(0, target.precision + 1)
    if kind == 1:
        exponent = target.greatest_exponent
    digits = target.precision + 2
    lead = choices.getrandbits(digits) | 1 << digits - 1
    exact = lead * Fraction(2) ** (exponent - digits + 1)
    nudge = choices.choice((0, 1, -1)) * Fraction(2) ** (exponent - source.precision - 1)
    return (exact + nudge) * choices.choice((1, -1))


def operands(choices, source, target, operation):
    """Bits of two numbers whose result is inexact, or near a number of the target."""
    wanted = near(choices, source, target)
    while True:
        quanta = choices.getrandbits(source.precision) | 1 << source.precision - 1
        place = source.scale - source.precision + choices.randint(-3, 3)
        y = number(source, choices.random() < 0.5, quanta << place)
        other = Fraction(y.signed_quanta, 1 << source.scale)
        if operation == "Sum":
            other = wanted * Fraction(choices.randint(1, 9), 1 << choices.randint(2, 9))
            y, _ = rounded(source, Mode.ZERO, other)
            other = Fraction(y.signed_quanta, 1 << source.scale)
        left = {"Sum": wanted - other, "Product": wanted / other if other else 0}.get(
            operation, wanted * other
        )
        x, _ = rounded(source, Mode.EVEN, left)
        if isinstance(x, Finite) and x.quanta and y.quanta:
            return encoded(source, x), encoded(source, y)


def radicand(choices, source, target):
    """Bits of a positive number whose root is inexact, or near a number of the target."""
    while True:
        x, _ = rounded(source, Mode.EVEN, near(choices, source, target) ** 2)
        if isinstance(x, Finite) and x.quanta:
            return encoded(source, x)


def lines(source, target, operation, bits):
    """The rows of an operation: its result rounded to odd, and that rounded again in each mode."""
    operands = [value_of(source, word) for word in bits]
    exact = root_of(operands[0]) if operation == "Root" else exact_result(operation, *operands)
    value, status = to_odd(source, exact)
    first = hexes(source, encoded(source, value))
    yield row(CALLS[operation], source.name, None, hexes(source, *bits), first, status)

    def again(mode):
        value, status = rounded(target, mode, exact)
        return hexes(target, encoded(target, value)), status

    yield from in_each_mode("round_odd_to", f"{source.name}>{target.name}", f"{first} {names(status)}", again)


def main():
    choices = Random(754)
    roots = Random(2019)
    print("# Results rounded to odd, and these rounded again to another format. Computed by evidence/odd.py.")
    for source_name, target_name in PAIRS:
        source, target = FORMATS[source_name], FORMATS[target_name]
        for operation in OPERATIONS:
            for _ in range(ROWS_OF_EACH):
                bits = operands(choices, source, target, operation)
                print("\n".join(lines(source, target, operation, bits)))
        for _ in range(ROWS_OF_EACH):
            print("\n".join(lines(source, target, "Root", [radicand(roots, source, target)])))


if __name__ == "__main__":
    main()
