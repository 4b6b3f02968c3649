"""Computes tests/rows/eight_bits.tsv: the operations of IEEE 754-2019 on all values of the formats of eight bits, and
on all pairs of them; and square roots, those of half too.

    python3 evidence/eight_bits.py | diff - tests/rows/eight_bits.tsv

It takes two minutes. A row has the checksum of the results of a call for all operands.
"""

from functools import cache
from itertools import product

from exact import operations
from exact.bits import decoded, encoded
from exact.format_of import computed
from exact.formats import BFLOAT, E4M3FN, E4M3FNUZ, E5M2, HALF
from exact.roots import square_root
from row_files import MODES, every

KINDS = ("Infinity", "Normal", "Subnormal", "Zero")
# The classes, of numbers in their order.
CLASSES = (
    "SignalingNan",
    "QuietNan",
    *(f"Negative{kind}" for kind in KINDS),
    *(f"Positive{kind}" for kind in reversed(KINDS)),
)

CALLS_TO = {"add_to": "Sum", "sub_to": "Difference", "mul_to": "Product", "div_to": "Quotient"}

# The binary digits of integers.
WIDTH = 6


def data_of(format):
    """All data of a format."""
    return [decoded(format, bits) for bits in range(256)]


def comparisons(format):
    """The comparisons, the extrema, and the total order, of each pair."""
    pairs = list(product(data_of(format), repeat=2))
    relations = [operations.relation(format, x, y) for x, y in pairs]
    quiet = [operations.invalid_flag(format, x, y) for x, y in pairs]
    known = list(zip(relations, quiet))
    for call, (holding, signals) in {**operations.COMPARISONS, **operations.UNNAMED}.items():
        found = ((each in holding, 1 if signals and each is None else flag) for each, flag in known)
        yield every(call, format.name, None, "1 1", found)
    for call in operations.EXTREMA:
        answers = (operations.extremum(format, call, x, y) for x, y in pairs)
        yield every(call, format.name, None, "1 1", ((encoded(format, x), flags) for x, flags in answers))
    found = ((operations.total_cmp(format, x, y) <= 0,) for x, y in pairs)
    yield every("total_order", format.name, None, "1 1", found)


def in_another(source, target):
    """Sums, differences, products and quotients in another format, of each pair."""

    @cache
    def bits_of(value):
        return encoded(target, value)

    pairs = list(product(data_of(source), repeat=2))
    for call, operation in CALLS_TO.items():
        for mode in MODES:
            answers = (computed(source, target, operation, mode, pair) for pair in pairs)
            found = ((bits_of(value), flags) for value, flags in answers)
            yield every(call, f"{source.name}>{target.name}", mode, "1 1", found)


def of_one(format):
    """Operations on each value, and on it and each power of two up to 2^20."""
    data = data_of(format)
    found = (operations.integer_log_b(format, x) for x in data)
    yield every("integer_log_b", format.name, None, 1, found)
    found = ((CLASSES.index(operations.class_of(format, x)),) for x in data)
    yield every("class_of", format.name, None, 1, found)
    for mode in MODES:
        for call, operation in ("log_b", operations.log_b), ("round_to_integral_in", operations.round_to_integral_in):
            answers = (operation(format, x, mode) for x in data)
            yield every(call, format.name, mode, 1, ((encoded(format, x), flags) for x, flags in answers))
        for call in "convert_to_signed", "convert_to_unsigned_exact":
            found = (operations.to_integer(format, call, x, WIDTH, mode) for x in data)
            yield every(call, format.name, mode, f"1 {WIDTH}", found)
        for power in range(-20, 21):
            answers = (operations.scale_b(format, x, power, mode) for x in data)
            found = ((encoded(format, x), flags) for x, flags in answers)
            yield every("scale_b", format.name, mode, f"1 {power}", found)


def roots(format):
    """The square roots of all values."""
    data = [decoded(format, bits) for bits in range(1 << format.bits)]
    for mode in MODES:
        answers = (square_root(format, x, mode) for x in data)
        yield every("sqrt_r", format.name, mode, 1, ((encoded(format, x), flags) for x, flags in answers))


def main():
    """Writes the rows."""
    print("# All values of the formats of eight bits, and all pairs. Computed by evidence/eight_bits.py.")
    for format in (E5M2, E4M3FN, E4M3FNUZ):
        print("\n".join((*comparisons(format), *of_one(format))), flush=True)
    for source, target in (
        (E5M2, E4M3FN),
        (E5M2, BFLOAT),
        (E4M3FN, E5M2),
        (E4M3FN, E4M3FNUZ),
        (E4M3FNUZ, E5M2),
    ):
        print("\n".join(in_another(source, target)), flush=True)
    for format in (E5M2, E4M3FN, E4M3FNUZ, HALF):
        print("\n".join(roots(format)), flush=True)


if __name__ == "__main__":
    main()
