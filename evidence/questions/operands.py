"""Operands of a format, near each other and near the ends of its range.

A magnitude is a count of quanta, or two integers, amount / parts, for a fraction of a quantum.
"""

from exact import data
from exact.neighbours import spacing
from exact.rounding import Mode, picked


class Operands:
    """Draws data of a format."""

    def __init__(self, choices, form):
        self.choices = choices
        self.form = form
        # The greatest power of two between two neighbouring numbers, in quanta.
        self.span = form.greatest_exponent - form.least_exponent

    def choice(self, of):
        """One of several things."""
        return self.choices.choice(of)

    def mode(self):
        """A rounding mode."""
        return self.choice(list(Mode))

    def sign(self):
        """Whether a value is negative."""
        return self.choices.random() < 0.5

    def signed(self, quanta):
        """A number of either sign."""
        return data.number(self.form, self.sign(), quanta)

    def significand(self, digits):
        """An integer of so many binary digits: any, or nearly all of them zeros, or ones."""
        top = 1 << digits - 1
        drawn = self.choices.getrandbits(digits)
        few = 1 << self.choices.randrange(digits) | 1 << self.choices.randrange(digits)
        return top | self.choice([drawn, drawn, drawn, few, top - 1 & ~few])

    def scaled(self, significand, place):
        """The quanta of a significand times a power of two, or of a number at an end."""
        quanta = significand << max(0, min(place, self.span))
        return min(quanta, self.form.largest)

    def magnitude(self):
        """The quanta of a number other than zero."""
        form, choices = self.form, self.choices
        draw = choices.random()
        if draw < 0.15:
            ends = [1, form.smallest_normalized, form.largest, 1 << form.scale]
            return self.steps_away(self.choice(ends), 3)
        if draw < 0.25:
            return self.significand(choices.randint(1, form.precision))
        near_one = form.scale - form.precision + choices.randint(-form.precision, form.precision)
        near_the_least = choices.randint(0, form.precision)
        place = self.choice([choices.randint(0, self.span), near_one, near_the_least])
        return self.scaled(self.significand(form.precision), place)

    def any(self):
        """A number, mostly; otherwise a zero, an infinity or a NaN."""
        if self.choices.random() < 0.9:
            return self.signed(self.magnitude())
        payload = self.choices.getrandbits(self.form.precision)
        make = self.choice([
            lambda: self.signed(0),
            lambda: data.infinity(self.form, self.sign()),
            lambda: data.qnan(self.form, payload, self.sign()),
            lambda: data.snan(self.form, payload, self.sign()),
        ])
        return make()

    def nearest(self, amount, parts):
        """The quanta, not zero, of a number next to amount / parts."""
        if amount == 0:
            return 1
        quanta, _ = picked(self.form.precision, self.mode(), False, amount, parts)
        return max(1, min(quanta, self.form.largest))

    def near(self, amount, parts):
        """The same, or sometimes of the number after that."""
        return self.steps_away(self.nearest(amount, parts), self.choice([0, 0, 1]))

    def steps_away(self, quanta, steps):
        """The quanta of a number at most so many numbers away, but not of zero."""
        step = self.choices.randint(-steps, steps)
        for _ in range(abs(step)):
            quanta += spacing(self.form, quanta) if step > 0 else -spacing(self.form, quanta - 1)
            quanta = max(1, min(quanta, self.form.largest))
        return quanta

    def end(self):
        """A magnitude near zero, the smallest normal number or the largest one."""
        draw = self.choices.random()
        if draw < 0.2:
            return self.choices.randint(1, 32), 16
        if draw < 0.7:
            return 16 * self.form.smallest_normalized + self.sixteenths(), 16
        return self.about_the_largest()

    def about_the_largest(self):
        """A magnitude near the largest number, in sixteenths of the spacing there."""
        rest = -self.sixteenths() * spacing(self.form, self.form.largest)
        return 16 * self.form.largest + rest, 16

    def sixteenths(self):
        """Up to one and a half, mostly the half below zero."""
        return self.choices.randint(-24, 24) if self.sign() else self.choices.randint(-9, 0)

    def near_one(self, significand):
        """A significand times a power of two that brings it to the numbers near 1."""
        apart = self.choices.randint(-self.form.precision, self.form.precision) // 2
        return self.scaled(significand, self.form.scale - significand.bit_length() + apart)


def random_bits(choices, form):
    """Bits as they come, in hexadecimal digits."""
    return f"{choices.getrandbits(form.bits):0{form.hexadecimal_digits}x}"
