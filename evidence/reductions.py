"""Computes tests/rows/by_crate/reductions.tsv: exact sums and dot products, rounded once.

    python3 evidence/reductions.py | diff - tests/rows/by_crate/reductions.tsv

Each exact result is a sum of fractions, which is rounded once by the model. In double and to the nearest value,
`math.fsum` has to agree on the sums of numbers. Some terms are chosen; the others are drawn from a seed: they
cancel, or lie far apart.
"""

from fractions import Fraction
from math import fsum
from random import Random
from struct import pack, unpack

from exact.arithmetic import exact_zero, multiply
from exact.bits import decoded, encoded
from exact.data import Finite, Infinite, NaN, infinity, invalid, is_nan, negated, number, qnan, result_of_nans, snan
from exact.formats import FORMATS, Format
from exact.rounding import Mode, delivered
from exact.status import INVALID_OP, OK
from row_files import MODES, hexes, in_each_mode, row

KINDS = (
    "half half+ieee+before bfloat single single+ieee double double+ieee double+ieee+before "
    "e5m2 e5m2+ieee e4m3fn e4m3fn+ieee+before e4m3fnuz tf32+ieee"
).split()

# The formats whose sums have most words.
WIDE_KINDS = "x87 quad quad+ieee".split()

# A user's format with as many digits as short sums allow, and the exponents of double.
OWN = Format("own75", 75, 11, 64, -1022, 1023)

CALLS = ("sum", "sum_abs", "sum_square", "dot")

DRAWS_OF_EACH = 24

# Lengths of the longest slices.
LONG = (33, 130, 300)


# ---- the model


def total(form, terms, mode):
    """The sum of terms: numbers as a sign and a fraction, infinities or NaNs with the flags that made them."""
    nans = [term for term in terms if isinstance(term[0], NaN)]
    if nans:
        return nans[0][0], INVALID_OP if any(flags for _, flags in nans) else OK
    infinite = {term[0].negative for term in terms if isinstance(term[0], Infinite)}
    if len(infinite) == 2:
        return invalid(form)
    if infinite:
        return infinity(form, infinite.pop()), OK
    exact = sum((amount for _, amount in terms), Fraction(0))
    if exact == 0:
        signs = {negative for negative, _ in terms} or {False}
        return exact_zero(form, min(signs), max(signs), mode), OK
    quanta = abs(exact) * (1 << form.scale)
    return delivered(form, mode, exact < 0, quanta.numerator, quanta.denominator)


def value_of(form, x):
    """A number as a fraction."""
    return Fraction(x.signed_quanta, 1 << form.scale)


def value_term(form, x):
    """A value as a term."""
    if isinstance(x, Finite):
        return x.negative, value_of(form, x)
    return result_of_nans(form, x) if is_nan(x) else (x, OK)


def product_term(form, x, y):
    """A product as a term."""
    if isinstance(x, Finite) and isinstance(y, Finite):
        return x.negative != y.negative, value_of(form, x) * value_of(form, y)
    return multiply(form, x, y, Mode.ZERO)


def magnitude(form, x):
    """A value without its sign."""
    return negated(form, x) if x.negative else x


def terms_of(form, call, xs, ys):
    """The terms of a call."""
    if call == "sum":
        return [value_term(form, x) for x in xs]
    if call == "sum_abs":
        return [value_term(form, magnitude(form, x)) for x in xs]
    return [product_term(form, x, y) for x, y in zip(xs, xs if call == "sum_square" else ys)]


def check_sum(form, bits, answer):
    """Compares a sum of doubles, to the nearest value, with that of `math.fsum`."""
    values = [unpack("<d", pack("<Q", each))[0] for each in bits]
    try:
        assert Fraction(fsum(values)) == value_of(form, answer), values
    except OverflowError:
        # It adds from the left, and stops where that is past the largest value.
        pass


def result(form, call, left, right, mode):
    """The bits and the flags that a call gives."""
    xs, ys = [[decoded(form, bits) for bits in side] for side in (left, right)]
    value, status = total(form, terms_of(form, call, xs, ys), mode)
    is_number = isinstance(value, Finite)
    if (form.name, call, mode) == ("double", "sum", Mode.EVEN) and is_number:
        check_sum(form, left, value)
    return hexes(form, encoded(form, value)), status


# ---- chosen terms


def word(form, negative, quanta):
    """The bits of a number."""
    return encoded(form, number(form, negative, quanta))


def filled(form):
    """At most 40 numbers whose digits together are all ones, from the quantum up, and the next power of two."""
    step = form.precision
    places = range(0, form.largest.bit_length() - step, step)[:40]
    return [word(form, False, (1 << step) - 1 << place) for place in places], 1 << places[-1] + step


def chosen_sums(form):
    """Lists of terms of sums."""
    one = 1 << form.scale
    least, largest = 1, form.largest
    last = largest & -largest
    plus, minus = [lambda quanta, sign=sign: word(form, sign, quanta) for sign in (False, True)]
    yield []
    yield from ([plus(0)], [minus(0)], [plus(0), minus(0)], [minus(0), minus(0)], [plus(one), minus(one), minus(0)])
    yield [plus(largest), plus(least), minus(largest)]
    yield [minus(largest), minus(least), plus(largest)]
    yield [plus(largest)] * 2 + [minus(largest)]
    yield [minus(largest)] * 3
    # Half a unit past the largest number, just less, and just more.
    yield [plus(largest), plus(last >> 1)]
    yield [plus(largest), plus(last >> 1), minus(least)]
    yield [minus(largest), minus(last >> 1), minus(least)]
    # Midpoints, which the least value decides.
    ulp = one >> form.precision - 1
    yield [plus(one), plus(ulp >> 1)] if ulp > 1 else [plus(one), plus(least)]
    yield [plus(one + ulp), plus(ulp >> 1), minus(least)] if ulp > 1 else [minus(one), plus(least)]
    yield [minus(one), minus(ulp >> 1), minus(least), plus(0)] if ulp > 1 else [minus(one), minus(least)]
    # Carries through all words, and borrows back.
    ones, above = filled(form)
    yield [*ones, plus(least)]
    yield [minus(above), *ones]
    yield [*ones, plus(least), *[bits ^ 1 << form.bits - 1 for bits in ones]]
    yield [minus(largest), *ones, plus(least), plus(least)]


def chosen_specials(form):
    """Lists of terms with infinities and NaNs."""
    one = word(form, False, 1 << form.scale)
    quiet, signaling = encoded(form, qnan(form, 5)), encoded(form, snan(form, 3, True))
    if not form.has_infinity:
        yield from ([one, quiet], [encoded(form, qnan(form, 0, True)), one])
        return
    plus, minus = [encoded(form, infinity(form, sign)) for sign in (False, True)]
    yield from ([plus, one], [minus, minus, one], [plus, one, minus])
    yield from ([quiet, signaling], [one, signaling, quiet], [quiet, one, encoded(form, qnan(form, 1, True))])
    yield from ([plus, minus, quiet], [minus, signaling, plus], [plus, quiet])


def chosen_dots(form):
    """Pairs of lists of factors."""
    one, least, largest = 1 << form.scale, 1, form.largest
    smallest = form.smallest_normalized
    plus, minus = [lambda quanta, sign=sign: word(form, sign, quanta) for sign in (False, True)]
    yield [], []
    yield [plus(0)], [minus(one)]
    yield [plus(0), minus(0)], [minus(one), plus(one)]
    yield [plus(one), minus(one)], [minus(0), minus(one)]
    # The largest product and the least one, which cancel or do not.
    yield [plus(largest), plus(least), minus(largest)], [plus(largest), plus(least), plus(largest)]
    yield [plus(largest), minus(least), minus(largest)], [plus(largest), plus(least), plus(largest)]
    yield [plus(largest)] * 2, [plus(largest), minus(largest)]
    yield [plus(largest), plus(one)], [plus(one), minus(one)]
    # What stays of two large products is tiny: just below the least normal number, and half a quantum.
    others = [plus(each) for each in (largest, one, largest, one >> 1)]
    yield [plus(largest), plus(smallest), minus(largest), minus(least)], others
    yield [plus(smallest), minus(least)], [plus(one), plus(one >> 2)]
    yield [plus(least), plus(least)], [plus(one >> 1), plus(least)]
    yield [minus(3), plus(least)], [plus(one >> 1), plus(least)]
    # Carries through the lower words and the upper ones, and borrows back.
    ones, above = filled(form)
    for factor in (least, one, largest):
        carried = [*ones, plus(least), minus(above)]
        yield [*carried, minus(least)], [plus(factor)] * len(carried) + [plus(least)]
        yield [minus(above), *ones], [plus(factor)] * (len(ones) + 1)


def chosen_special_dots(form):
    """Pairs of lists of factors with infinities and NaNs."""
    one, zero = word(form, False, 1 << form.scale), word(form, False, 0)
    quiet, signaling = encoded(form, qnan(form, 5)), encoded(form, snan(form, 3, True))
    if not form.has_infinity:
        yield [one, quiet], [one, one]
        return
    plus, minus = [encoded(form, infinity(form, sign)) for sign in (False, True)]
    yield [plus, one], [minus, one]
    yield [plus, one], [one, minus]
    yield [one, plus], [one, zero]
    yield [zero, quiet], [minus, one]
    yield [one, quiet], [quiet ^ 1, signaling]
    yield [one, zero], [signaling, plus]
    yield [plus, minus, one], [one, one, quiet]


def far_apart(form):
    """Pairs of powers of two, 64 to 127 digits apart, with their mode, and, where a significand has 64 digits,
    midpoints and what is just above them."""
    above = filled(form)[1]
    for distance in range(64, 128):
        if above >> distance:
            yield Mode.UP, [word(form, False, above), word(form, False, above >> distance)]
    if form.precision == 64:
        for place in range(1, 65):
            even, half = (1 << form.precision) - 2 << place, 1 << place - 1
            yield Mode.EVEN, [word(form, False, each) for each in (even + (1 << place), half)]
            yield Mode.EVEN, [word(form, False, each) for each in (even, half, 1)]


# ---- drawn terms


def drawn(form, random, near):
    """The bits of a value, most with an exponent near a given one."""
    sign = random.getrandbits(1) << form.bits - 1
    digits = form.precision - 1
    fraction = random.choice((random.getrandbits(digits), random.getrandbits(2), (1 << digits) - 1))
    top = form.greatest_field
    field = random.choice((near, near, near, near + random.randrange(form.precision), random.randrange(top)))
    # Infinities and NaNs are drawn by themselves.
    return sign | min(field, top - 1) << digits | fraction


def special_bits(form):
    """The bits of zeros and of the last codes of each sign, which are infinities and NaNs or large numbers."""
    last = (1 << form.bits - 1) - 1
    first = form.greatest_field << form.precision - 1
    return [with_sign | bits for with_sign in (0, 1 << form.bits - 1) for bits in (0, first, first | 1, last)]


def drawn_terms(form, random, count):
    """Bits of values: some cancel, some are zeros, infinities or NaNs."""
    near = random.randrange(form.greatest_field)
    bits = [drawn(form, random, near) for _ in range(count)]
    kind = random.randrange(8)
    if kind < 4 and count > 1:
        for place in range(0, count - 1, 1 + kind):
            bits[place] = bits[-1 - place] ^ 1 << form.bits - 1
    if kind == 4:
        bits = [random.choice((0, 1 << form.bits - 1)) for _ in bits]
    if kind == 5:
        for _ in range(min(count, 2)):
            bits[random.randrange(count)] = random.choice(special_bits(form))
    return bits


# ---- rows


def listed(form, bits):
    """Terms as a row has them; a hyphen if there are none."""
    return hexes(form, *bits) or "-"


def operands_of(form, call, left, right):
    """The operands of a call as a row has them."""
    words = listed(form, left)
    return f"{words} / {listed(form, right)}" if call == "dot" else words


def chosen_rows(form, call, left, right=()):
    """The rows of a call in each mode."""
    operands = operands_of(form, call, left, right)
    return in_each_mode(call, form.name, operands, lambda mode: result(form, call, left, right, mode))


def one_row(form, call, mode, left, right=()):
    """The row of a call in one mode."""
    operands = operands_of(form, call, left, right)
    return row(call, form.name, mode, operands, *result(form, call, left, right, mode))


def drawn_row(form, random, index, count):
    """A row of terms that are drawn."""
    call, mode = CALLS[index % len(CALLS)], MODES[index % len(MODES)]
    left, right = drawn_terms(form, random, count), drawn_terms(form, random, count)
    return one_row(form, call, mode, left, right)


def rows(form, random):
    """The rows of a format."""
    for terms in chosen_sums(form):
        yield from chosen_rows(form, "sum", terms)
    for terms in chosen_specials(form):
        for call in CALLS[:3]:
            yield from chosen_rows(form, call, terms)
    for left, right in (*chosen_dots(form), *chosen_special_dots(form)):
        yield from chosen_rows(form, "dot", left, right)
    for mode, terms in far_apart(form):
        yield one_row(form, "sum", mode, terms)
    for index in range(DRAWS_OF_EACH):
        yield drawn_row(form, random, index, random.randrange(1, 9))
    for index, count in enumerate(LONG):
        if count * form.bits < 20_000:
            yield drawn_row(form, random, 3 + 4 * index, count)
    yield row("dot", form.name, None, operands_of(form, "dot", [0, 0], [0]), "LengthsDiffer")
    yield row("dot", form.name, None, operands_of(form, "dot", [], [0]), "LengthsDiffer")


def main():
    random = Random(9)
    print("# Sums and dot products, rounded once. Computed by evidence/reductions.py.")
    for form in (*[FORMATS[kind] for kind in KINDS], OWN, *[FORMATS[kind] for kind in WIDE_KINDS]):
        print("\n".join(rows(form, random)))


if __name__ == "__main__":
    main()
