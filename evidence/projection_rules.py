"""Computes tests/projection_rules.tsv: conversions into formats of IEEE P3109 by each way to round and to saturate.

    python3 evidence/projection_rules.py | diff - tests/projection_rules.tsv

A row is a checksum of every 61st half. In every format of 3 to 6 bits, every random number is tried between each two
codes too: how many of them take the upper neighbour is the number of parts, rounded to
nearest, that the value is above the lower one. So the mean is the value, to within half a part, and the values of a
tie that StochasticB takes up are even parts of StochasticC.
"""

from fractions import Fraction

from conversion_modes import moves
from exact.bits import decoded
from exact.formats import HALF
from exact.rounding import overflows
from projections import TESTED, family
from row_files import MODES, checksum_of

SATURATIONS = ("overflow", "finite", "propagate")

# The ways to round: the five modes, to odd, and with random digits.
ROUNDS = [*[(mode.value, 0, 0) for mode in MODES], ("odd", 0, 0)]
ROUNDS += [
    (way, digits, random)
    for way in ("a", "b", "c")
    for digits, random in ((1, 0), (1, 1), (2, 1), (3, 2), (3, 5), (8, 77), (11, 1234), (32, 0x9E3779B9))
]


def parts(way, digits, points, below, exact):
    """Of 2^digits parts of the distance to the next point, how many the value is above this one, in whole numbers."""
    share = (exact - points[below]) / (points[below + 1] - points[below]) * (1 << digits)
    whole, rest = share.numerator // share.denominator, share % 1
    if way == "a":
        return whole
    # B adds a half to the random number: floor(2 share) + 2 random + 1 is at least 2^(digits + 1)
    ties = rest == Fraction(1, 2) and (way == "b" or whole % 2 == 1)
    return whole + (rest > Fraction(1, 2) or ties)


def moves_by(round, points, below, exact):
    """Whether random digits take the upper neighbour."""
    way, digits, random = round
    if way == "b":
        share = (exact - points[below]) / (points[below + 1] - points[below])
        assert (share * 2 ** (digits + 1) // 1 + 2 * random + 1 >= 2 ** (digits + 1)) == (
            parts(way, digits, points, below, exact) + random >= 1 << digits
        )
    return parts(way, digits, points, below, exact) + random >= 1 << digits


def project(form, source, x, round, saturation):
    """The code, the flags, and whether information is lost."""
    way = round[0]
    for mode in MODES:
        if mode.value == way:
            return form.store(source, x, mode, saturation)
    if way == "odd":
        return form.store_by(source, x, lambda below, exact: moves(None, form.points, below, exact), False, saturation)
    return form.store_by(source, x, lambda below, exact: moves_by(round, form.points, below, exact), True, saturation)


def try_counts(form):
    """Counts the random numbers that take the upper neighbour, in sixty-fourths between two points."""
    for below in range(form.largest_index):
        for share in range(1, 64, 1 + 6 * (form.bits > 5)):
            exact = form.points[below] + (form.points[below + 1] - form.points[below]) * Fraction(share, 64)
            for digits in (1, 2, 3):
                for way in ("a", "b", "c"):
                    taken = sum(moves_by((way, digits, r), form.points, below, exact) for r in range(1 << digits))
                    assert taken == parts(way, digits, form.points, below, exact)
                    most = Fraction(1, 1 << digits + (way != "a"))
                    assert abs(Fraction(taken, 1 << digits) - Fraction(share, 64)) <= most


def main():
    """Prints the file."""
    print("# Conversions into formats of IEEE P3109. Computed by evidence/projection_rules.py.")
    halves = [decoded(HALF, bits) for bits in range(0, 65536, 61)]
    for form in family(3, 6):
        try_counts(form)
    for form in TESTED:
        for round in ROUNDS:
            for saturation in SATURATIONS:
                found = checksum_of(project(form, HALF, x, round, saturation) for x in halves)
                print("\t".join((form.name, saturation, *map(str, round), f"{found:016x}")))


if __name__ == "__main__":
    main()
