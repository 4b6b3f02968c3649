"""Products at every precision that are hard to round."""

from itertools import product

from questions import hard, hard_factors


def questions(choices):
    """Products without their results, without end."""
    return hard.questions(choices, "wide_mul_r", _CASES, specials)


def specials(operands):
    """Pairs of data of each kind."""
    return operands.choices.sample(list(product(hard.kinds(operands), repeat=2)), 60)


def factors(operands, quanta):
    """Factors of any signs, in any order."""
    data = [operands.signed(x) for x in quanta]
    operands.choices.shuffle(data)
    return data


def at_any_place(operands, significands):
    """Factors with these significands."""
    place = hard_factors.any_place(operands, *significands)
    return factors(operands, hard_factors.shared(operands, *significands, place))


def beside_a_number(operands):
    """Factors of all digits whose product is next to a number."""
    return at_any_place(operands, hard_factors.ending_in(operands, lambda cut: 0))


def beside_a_midpoint(operands):
    """Factors of all digits whose product is next to a midpoint."""
    return at_any_place(operands, hard_factors.ending_in(operands, lambda cut: 1 << cut - 1))


def at_a_midpoint(operands):
    """Factors whose product is a midpoint."""
    return at_any_place(operands, hard_factors.midpoint(operands))


def beside_a_power_of_two(operands):
    """Factors whose product is next to a power of two."""
    return at_any_place(operands, hard_factors.beside_a_power_of_two(operands))


def of_zeros_and_ones(operands):
    """Factors whose digits are nearly all zeros, or ones."""
    top = 1 << operands.form.precision - 1
    significands = [operands.choice([top, 2 * top - 1]) for _ in range(2)]
    for i in range(2):
        significands[i] ^= operands.choice([0, 1, 1 << operands.choices.randrange(64)])
    return at_any_place(operands, significands)


def at_the_least(operands):
    """Factors whose product is some sixteenths of a quantum."""
    return factors(operands, hard_factors.near(operands, operands.choices.randint(1, 40), -4))


def between_denormals(operands):
    """Factors whose product is a denormal number, or halfway between two."""
    form = operands.form
    digits = operands.choices.randint(1, form.precision)
    amount = operands.significand(digits)
    return factors(operands, hard_factors.near(operands, amount, -operands.choices.randint(0, 2)))


def at_the_smallest_normal(operands):
    """Factors whose product is next to the smallest normal number."""
    amount = 16 * operands.form.smallest_normalized + operands.sixteenths()
    return factors(operands, hard_factors.near(operands, amount, -4))


def at_the_largest(operands):
    """Factors whose product is next to the largest number."""
    form = operands.form
    amount = 16 * ((1 << form.precision) - 1) - operands.sixteenths()
    return factors(operands, hard_factors.near(operands, amount, operands.span - 4))


def far_below(operands):
    """Factors whose product is far below a quantum, or far above all numbers."""
    form = operands.form
    x = operands.significand(operands.choices.randint(1, form.precision))
    if operands.sign():
        x = form.largest - (x << operands.span)
    return factors(operands, [max(1, x), operands.steps_away(x, 1)])


_CASES = (
    beside_a_number,
    beside_a_midpoint,
    at_a_midpoint,
    beside_a_power_of_two,
    of_zeros_and_ones,
    at_the_least,
    between_denormals,
    at_the_smallest_normal,
    at_the_largest,
    far_below,
)
