"""Square roots that are hard to round."""

from exact.data import number
from exact.neighbours import spacing
from questions import hard


def questions(choices):
    """Square roots without their results, without end."""
    return hard.questions(choices, "sqrt_r", _CASES, specials)


def specials(operands):
    """Each kind of datum, and the negative numbers nearest to zero and farthest from it."""
    for x in hard.kinds(operands):
        yield [x]
    for quanta in 1, operands.form.largest:
        yield [number(operands.form, True, quanta)]


def positive(operands, quanta):
    """A positive number as the operand."""
    return [number(operands.form, False, quanta)]


def placed(operands, significand, power):
    """The quanta of a significand times 2^power and any power of four."""
    form = operands.form
    place = operands.choices.randint(0, form.largest.bit_length() - significand.bit_length())
    if (place - form.scale - power) % 2 == 1:
        place += -1 if place > 0 else 1
    return significand << place


def short_square(operands):
    """The quanta of the square of a number of half the digits."""
    root = operands.significand(operands.form.precision // 2)
    return placed(operands, root * root, 0)


def square(operands):
    """A square, which has an exact root."""
    return positive(operands, short_square(operands))


def after_a_square(operands):
    """The number after a square."""
    quanta = short_square(operands)
    return positive(operands, quanta + spacing(operands.form, quanta))


def before_a_square(operands):
    """The number before a square."""
    quanta = short_square(operands)
    return positive(operands, quanta - spacing(operands.form, quanta - 1))


def beside_a_root(more):
    """A case: a number whose root is nearly an odd integer of so many more digits than a
    significand has, times a power of two. Their squares differ by a small integer.
    """

    def case(operands):
        while True:
            rest = 8 * operands.choices.randint(-9, 9) + 1
            cut = operands.form.precision + 2 * more - operands.choices.randint(0, 1)
            root = operands.choice([1, -1]) * root_modulo(rest, cut)
            root = (root + operands.choice([0, 1 << cut - 1])) % (1 << cut)
            significand = root * root - rest >> cut
            lengths = root.bit_length(), significand.bit_length()
            if lengths == (operands.form.precision + more, operands.form.precision):
                return positive(operands, placed(operands, significand, cut))

    return case


def root_modulo(square, digits):
    """An odd integer whose square is this one modulo 2^digits. The square is 1 modulo 8."""
    root = 1
    for place in range(3, digits):
        if root * root - square >> place & 1:
            root += 1 << place - 1
    return root


def near_a_long_square(operands):
    """A number next to the square of a significand or of a midpoint."""
    digits = operands.form.precision + operands.choice([0, 1])
    root = operands.significand(digits) | 1
    cut = (root * root).bit_length() - operands.form.precision
    return positive(operands, placed(operands, (root * root >> cut) + operands.sign(), cut))


def of_few_quanta(operands):
    """A number of few quanta, near one that has an exact root."""
    root = operands.choices.randint(1, 1 << operands.choices.randint(1, 20))
    quanta = root * root << operands.form.scale % 2
    return positive(operands, max(1, quanta + operands.choices.randint(-1, 1)))


def denormal(operands):
    """A number below the normal ones."""
    digits = operands.choices.randint(1, operands.form.precision - 1)
    return positive(operands, operands.significand(digits))


def beside_a_power_of_two(operands):
    """A power of two, or the number before or after it."""
    power = placed(operands, 1, operands.choices.randint(0, 1))
    return positive(operands, operands.steps_away(power, 1))


def at_an_end(operands):
    """A number near the smallest, the smallest normal or the largest one."""
    form = operands.form
    end = operands.choice([1, form.smallest_normalized, form.largest])
    return positive(operands, operands.steps_away(end, 3))


def any_number(operands):
    """Any number."""
    return positive(operands, operands.magnitude())


_CASES = (
    square,
    after_a_square,
    before_a_square,
    beside_a_root(0),
    beside_a_root(1),
    near_a_long_square,
    of_few_quanta,
    denormal,
    beside_a_power_of_two,
    at_an_end,
    any_number,
)
