"""The operands of the checksums: integers that look random, the same in each run.

What is drawn, and in which order, is that of the program `bench` (rust/programs/src/bin/bench).
"""

from exact.formats import DOUBLE, FORMATS, NonFinite

COUNT = 1024


class Generator:
    """Marsaglia's generator of 64 bits, xorshift64."""

    def __init__(self):
        self.state = 0x9E3779B97F4A7C15

    def word(self):
        """The next 64 bits."""
        state = self.state
        state ^= state << 13 & (1 << 64) - 1
        state ^= state >> 7
        state ^= state << 17 & (1 << 64) - 1
        self.state = state
        return state

    def wide_word(self):
        """The next 128 bits, the low half first."""
        low = self.word()
        return self.word() << 64 | low

    def between(self, least, greatest):
        """The next integer from the least to the greatest."""
        return least + self.word() % (greatest - least + 1)


class Encoding:
    """How numbers are drawn from a format."""

    def __init__(self, format):
        self.format = format
        # The exponents of moderate numbers go from minus this integer to it.
        half_the_range = format.greatest_exponent // 2 - 1
        self.span = max(1, min(format.precision // 2 + 2, half_the_range))

    def bits_of(self, negative, field, digits):
        """The bits of the number with this sign, biased exponent and trailing significand."""
        form = self.format
        trailing = form.precision - 1
        significand = digits % (1 << trailing)
        if form.non_finite is NonFinite.NAN_ONLY and field == form.greatest_field:
            if significand == form.nan_base:
                significand -= 1
        if form.writes_integer_bit:
            significand |= (field > 0) << trailing
            trailing += 1
        return negative << form.bits - 1 | field << trailing | significand

    def normal(self, negative, digits, exponent):
        """The bits of a normal number with an exponent, or with the least one."""
        least = self.format.least_exponent
        return self.bits_of(negative, max(exponent, least) - least + 1, digits)

    def moderate(self, negative, digits, generator):
        """The bits of a number with an exponent near 0."""
        return self.normal(negative, digits, generator.between(-self.span, self.span))

    def denormal(self, negative, digits, generator):
        """The bits of a denormal number with any count of digits."""
        first = 1 << generator.between(1, self.format.precision - 1) - 1
        return self.bits_of(negative, 0, digits % (2 * first) | first)

    def near_denormal(self, negative, digits, generator):
        """The bits of a normal number near the denormal ones."""
        form = self.format
        exponents = form.greatest_exponent - form.least_exponent
        field = generator.between(1, min(form.precision + 2, exponents))
        return self.bits_of(negative, field, digits)

    def operand(self, kind, generator):
        """The bits of the next operand of a set."""
        head = generator.word()
        digits = generator.wide_word()
        negative = head >> 63 == 1
        choice = head >> 8 & 3
        if kind == "normal":
            return self.moderate(negative, digits, generator)
        if kind == "denormal":
            draw = {0: self.denormal, 1: self.near_denormal}.get(choice, self.moderate)
            return draw(negative, digits, generator)
        if kind == "integer denormal" and choice < 2:
            return self.denormal(negative, digits, generator)
        greatest = min(self.format.greatest_exponent - 1, 62)
        return self.normal(negative, digits, generator.between(-2, greatest))

    def pair(self, kind, generator):
        """The bits of the next pair: its low part is 54 to 64 binary places lower, or +0."""
        high = self.operand(kind, generator)
        head = generator.word()
        digits = generator.word()
        field = (high >> 52 & self.format.greatest_field) - (54 + head % 11)
        low = self.bits_of(head >> 63 == 1, field, digits) if field >= 1 else 0
        return low << 64 | high

    def text(self, kind, generator):
        """The next hexadecimal text, with up to a few more digits than a significand has."""
        form = self.format
        head = generator.word()
        count = generator.between(1, (form.precision + 3) // 4 + 4)
        digits = "".join(f"{generator.word() % 16:x}" for _ in range(count))
        if kind == "denormal" and head >> 8 & 1 == 0:
            least = form.least_exponent - form.precision
            greatest = form.least_exponent + form.precision - 1
        else:
            least, greatest = -self.span, self.span
        sign = "-" if head >> 63 == 1 else ""
        return f"{sign}0x1.{digits}p{generator.between(least, greatest)}"


def triples(name, kind):
    """The bits of the operands of calls with up to three operands, from a set of operands."""
    generator = Generator()
    if name == "dd":
        draw = Encoding(DOUBLE).pair
    else:
        draw = Encoding(FORMATS[name]).operand
    for _ in range(COUNT):
        yield [draw(kind, generator) for _ in range(3)]


def integers():
    """Integers with any count of bits up to 128."""
    generator = Generator()
    for _ in range(COUNT):
        integer = generator.wide_word()
        yield integer >> generator.word() % 128


def texts(name, kind):
    """Hexadecimal texts of numbers."""
    generator = Generator()
    encoding = Encoding(DOUBLE if name == "dd" else FORMATS[name])
    for _ in range(COUNT):
        yield encoding.text(kind, generator)
