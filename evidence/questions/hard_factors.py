"""Factors whose product is hard to round, for hard products and hard fused sums.

Significands u and v at a place have the product u * v * 2^place, in quanta.
"""


def shared(operands, u, v, place):
    """The quanta of two factors with these significands and this place of their product."""
    places = place + operands.form.scale
    rooms = [operands.form.largest.bit_length() - w.bit_length() for w in (u, v)]
    part = operands.choices.randint(max(0, places - rooms[1]), min(places, rooms[0]))
    return u << part, v << places - part


def any_place(operands, u, v):
    """A place at which a product is between the smallest normal and the largest number."""
    form = operands.form
    length = (u * v).bit_length()
    return operands.choices.randint(form.precision - length, form.largest.bit_length() - length - 1)


def near(operands, amount, place):
    """Factors whose product is this amount at the place, or differs far below it."""
    form = operands.form
    room = min(form.precision + 7 - amount.bit_length(), place + form.scale)
    while True:
        finer = operands.choice([0, room])
        rest = operands.choices.randint(-9, 9) if finer else 0
        significands = significands_of(operands, (amount << finer) + rest)
        if significands:
            return shared(operands, *significands, place - finer)


def significands_of(operands, amount):
    """A positive integer as a product of two significands, or None if no divisor is found."""
    end = 1 << operands.form.precision
    if 0 < amount < end and operands.sign():
        return amount, 1
    odd = range(1, min(end, 4096), 2)
    divisors = [u for u in odd if amount % u == 0 and 0 < amount // u < end]
    if not divisors:
        return None
    divisor = operands.choice(divisors)
    return divisor, amount // divisor


def ending_in(operands, last_digits):
    """Significands of all digits whose product, cut to as many digits, loses nearly these.

    `last_digits` says which these are, of the count of digits that are cut.
    """
    precision = operands.form.precision
    while True:
        cut = precision - operands.choices.randint(0, 1)
        last = last_digits(cut) + operands.choice([-3, -2, -1, 1, 2, 3])
        u = operands.significand(precision) | 1
        v = last * pow(u, -1, 1 << cut) % (1 << cut)
        if cut < precision:
            v += 1 << cut
        if v.bit_length() == precision and (u * v).bit_length() == precision + cut:
            return u, v


def midpoint(operands):
    """Short significands whose product is halfway between two numbers."""
    precision = operands.form.precision
    while True:
        digits = operands.choices.randint(2, precision - 1)
        u = operands.significand(digits) | 1
        v = operands.significand(precision + 1 - digits) | 1
        if (u * v).bit_length() == precision + 1:
            return u, v


def beside_a_power_of_two(operands):
    """Significands whose product is next to a power of two, by about a unit or by less."""
    end = 1 << operands.form.precision
    if operands.sign():
        u = operands.significand(operands.form.precision)
        v = end * end // 2 // u + operands.choices.randint(-1, 2)
        return u, min(v, end - 1)
    return end - operands.choices.randint(1, 3), end // 2 + operands.choices.randint(0, 3)
