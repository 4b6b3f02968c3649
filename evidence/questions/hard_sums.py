"""Fused sums at every precision that are hard to round."""

from itertools import product

from exact.data import number
from questions import hard, hard_factors


def questions(choices):
    """Fused sums without their results, without end."""
    return hard.questions(choices, "wide_mul_add_r", _CASES, specials)


def questions_of_63_digits(choices):
    """The same of `mul_add_r`, in the format with the most digits that has it."""
    return hard.questions(choices, "mul_add_r", _CASES, specials, ("fused63",), ())


def specials(operands):
    """Data of each kind, three at a time."""
    return operands.choices.sample(list(product(hard.kinds(operands), repeat=3)), 80)


def summands(operands, factors, addend, is_difference):
    """Factors and an addend of any signs, so that the addend and the product are of opposite signs
    or not."""
    x, y = (operands.signed(quanta) for quanta in factors)
    negative = (x.negative != y.negative) != is_difference
    return [x, y, number(operands.form, negative, addend)]


def adding_up_to(operands, target, addend, place):
    """An addend, and factors whose product brings it to a target: both in units of 16 * 2^place
    quanta, the target in sixteenths of them."""
    rest = target - 16 * addend
    factors = hard_factors.near(operands, max(1, abs(rest)), place - 4)
    return summands(operands, factors, abs(addend) << place, (rest < 0) != (addend < 0))


def cancelling_a_denormal(operands):
    """A product that leaves less than two quanta of a denormal addend."""
    addend = operands.significand(operands.choices.randint(1, operands.form.precision - 1))
    return adding_up_to(operands, operands.sixteenths(), addend, 0)


def below_the_least(operands):
    """A product of less than a quantum, or far less, and an addend of few quanta or short."""
    form = operands.form
    amount, place = operands.choices.randint(1, 16), operands.choice([-4, -4, -form.precision])
    addend = operands.choice([0, 1, 2, 3, form.smallest_normalized, operands.significand(7)])
    return summands(operands, hard_factors.near(operands, amount, place), addend, operands.sign())


def error_of_a_product(operands):
    """An addend that is a rounded product, so that what was rounded is left."""
    form = operands.form
    u, v = operands.significand(form.precision), operands.significand(form.precision)
    place = hard_factors.any_place(operands, u, v)
    if operands.sign():
        place = -operands.choices.randint(1, min(2 * form.precision, form.scale))
    x, y = hard_factors.shared(operands, u, v, place)
    rounded = operands.nearest(x * y, 1 << form.scale)
    return summands(operands, (x, y), rounded, operands.choices.random() < 0.9)


def cancelling_exactly(operands):
    """A short product and its negation."""
    digits = operands.choices.randint(1, operands.form.precision - 1)
    u, v = operands.significand(digits), operands.significand(operands.form.precision - digits)
    place = operands.choice([0, hard_factors.any_place(operands, u, v)])
    x, y = hard_factors.shared(operands, u, v, place)
    return summands(operands, (x, y), x * y >> operands.form.scale, True)


def half_a_unit(operands):
    """An addend, and a product of about half the unit of its last place."""
    place = operands.choices.randint(0, operands.span)
    addend = operands.significand(operands.form.precision) << place
    return summands(operands, hard_factors.near(operands, 1, place - 1), addend, operands.sign())


def below_a_power_of_two(operands):
    """A power of two less some sixteenths of the unit below it."""
    place = operands.choices.randint(0, operands.span - 1)
    factors = hard_factors.near(operands, operands.choices.randint(1, 32), place - 4)
    return summands(operands, factors, 1 << place + operands.form.precision, True)


def midpoint_and_less(operands):
    """A product halfway between two numbers, and an addend of less than half their distance."""
    significands = hard_factors.midpoint(operands)
    place = hard_factors.any_place(operands, *significands)
    length = operands.choices.randint(1, operands.form.precision)
    below = place - length - operands.choices.randint(0, operands.form.precision)
    addend = operands.significand(length) << below if below >= 0 else operands.choices.randint(0, 2)
    factors = hard_factors.shared(operands, *significands, place)
    return summands(operands, factors, addend, operands.sign())


def far_apart(operands):
    """A product and an addend whose digits do not overlap, or just do."""
    precision = operands.form.precision
    u, v = operands.significand(precision), operands.significand(precision)
    place = hard_factors.any_place(operands, u, v)
    distance = operands.choice([-precision, 0, precision, 2 * precision, 250 - precision])
    distance += operands.choices.randint(-3, 3)
    addend = operands.scaled(operands.significand(precision), place + distance)
    factors = hard_factors.shared(operands, u, v, place)
    return summands(operands, factors, addend, operands.sign())


def at_the_smallest_normal(operands):
    """A sum next to the smallest normal number."""
    form = operands.form
    addend = operands.significand(operands.choices.randint(1, form.precision))
    target = 16 * form.smallest_normalized + operands.sixteenths()
    return adding_up_to(operands, target, operands.choice([1, -1]) * addend, 0)


def at_the_largest(operands):
    """A sum next to the largest number, mostly of a product past it."""
    form = operands.form
    addend = operands.significand(operands.choices.randint(form.precision - 3, form.precision))
    target = 16 * ((1 << form.precision) - 1) - operands.sixteenths()
    return adding_up_to(operands, target, operands.choice([1, -1]) * addend, operands.span)


def any_numbers(operands):
    """Any numbers."""
    return [operands.signed(operands.magnitude()) for _ in range(3)]


_CASES = (
    cancelling_a_denormal,
    below_the_least,
    error_of_a_product,
    cancelling_exactly,
    half_a_unit,
    below_a_power_of_two,
    midpoint_and_less,
    far_apart,
    at_the_smallest_normal,
    at_the_largest,
    any_numbers,
)
