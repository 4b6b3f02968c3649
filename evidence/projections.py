"""Computes tests/rows/projections.tsv: formats of IEEE P3109, their values, order and neighbours, and conversions into
them.

    python3 evidence/projections.py | diff - tests/rows/projections.tsv

A code without a sign is decoded by its fields, with the bias 2^(E-1) of an exponent of E bits. So 1 is in
the middle of these codes, for a width of 8 at 0x40 with a sign and at 0x80 without one. That is checked for
every format, and so is that the formats with a sign and without infinities are those of the model that have
one NaN at the code of -0.
"""

from bisect import bisect_right
from dataclasses import dataclass
from fractions import Fraction
from functools import cached_property
from struct import pack, unpack

from exact.bits import decoded
from exact.data import Finite, Infinite, NaN, is_nan, is_signaling
from exact.formats import HALF, Format, NonFinite
from exact.rounding import Mode, overflows
from exact.status import INEXACT, INVALID_OP, OK, OVERFLOW, UNDERFLOW
from row_files import MODES, every

# What codes without a number mean.
INFINITY, NEGATIVE_INFINITY, NOT_A_NUMBER = "inf", "-inf", "nan"


@dataclass(frozen=True)
class Projection:
    """A format of P3109: its width, its precision, whether it has a sign, and whether it has infinities."""

    bits: int
    precision: int
    signed: bool
    extended: bool

    @property
    def name(self):
        """As in P3109."""
        return f"binary{self.bits}p{self.precision}{'us'[self.signed]}{'fe'[self.extended]}"

    @property
    def codes_without_sign(self):
        """How many codes there are without a sign, NaNs and infinities among them."""
        return 1 << self.bits - self.signed

    @property
    def exponent_bits(self):
        """What the sign and the significand without its first digit leave."""
        return self.bits - self.signed - (self.precision - 1)

    @property
    def bias(self):
        """Half the exponents are below 1."""
        return 1 << self.exponent_bits - 1

    def magnitude(self, index):
        """The number with these bits below the sign, by its fields; also past the width."""
        written = self.precision - 1
        field, digits = index >> written, index & (1 << written) - 1
        last = Fraction(2) ** (1 - self.bias - written)
        return digits * last if field == 0 else ((1 << written) + digits) * last * 2 ** (field - 1)

    @property
    def nan_code(self):
        """The code of -0; without a sign, the last one."""
        return self.codes_without_sign - (0 if self.signed else 1)

    @property
    def largest_index(self):
        """The infinity is the code before the NaN, or before the sign; the largest number is next to it."""
        return self.codes_without_sign - 1 - (not self.signed) - self.extended

    def value(self, code):
        """What a code means: a fraction, an infinity or the NaN."""
        if code == self.nan_code:
            return NOT_A_NUMBER
        negative, index = divmod(code, self.codes_without_sign) if self.signed else (0, code)
        if index > self.largest_index:
            return NEGATIVE_INFINITY if negative else INFINITY
        return -self.magnitude(index) if negative else self.magnitude(index)

    @cached_property
    def points(self):
        """The numbers in order, and those of two more exponents."""
        return [self.magnitude(i) for i in range(self.codes_without_sign + (2 << self.precision))]

    # ---- conversions

    def coded(self, negative, index):
        """The code of a number. A zero has no sign."""
        return index + (self.codes_without_sign if negative and index else 0)

    def infinity(self, negative):
        """The infinity of that sign, or the NaN in its place."""
        if not self.extended:
            return self.nan_code
        return self.coded(negative, self.largest_index + 1)

    def store(self, source, x, mode, saturation="overflow"):
        """The code, the flags, and whether information is lost."""

        def moves(below, exact):
            return self.moves(mode, x.negative, below, exact)

        return self.store_by(source, x, moves, not is_nan(x) and overflows(mode, x.negative), saturation)

    def store_by(self, source, x, moves, leads_out, saturation="overflow"):
        """The same, given whether the point above another one is taken, and what is past the largest number.

        Without a sign, what is below zero once it is rounded has no code. Saturation changes no flags of numbers.
        """
        if is_nan(x):
            status = INVALID_OP if is_signaling(source, x) else OK
            return self.nan_code, status, source.payload_mask != 0
        without_sign = x.negative and not self.signed
        if isinstance(x, Infinite):
            if without_sign:
                return self.nan_code, INVALID_OP, True
            if saturation == "finite":
                return self.coded(x.negative, self.largest_index), INEXACT, True
            loses = not self.extended
            return self.infinity(x.negative), INEXACT if loses else OK, loses
        if x.quanta == 0:
            return 0, INEXACT if x.negative else OK, x.negative
        exact = Fraction(x.quanta, 1 << source.scale)
        index, is_exact = self.pick(exact, moves)
        if without_sign and index:
            return self.nan_code, INVALID_OP, True
        if index > self.largest_index:
            if leads_out:
                largest = self.coded(x.negative, self.largest_index)
                return self.infinity(x.negative) if saturation == "overflow" else largest, OVERFLOW | INEXACT, True
            return self.coded(x.negative, self.largest_index), INEXACT, True
        code = self.coded(x.negative, index)
        if is_exact:
            return code, OK, False
        return code, UNDERFLOW | INEXACT if index < 1 << self.precision - 1 else INEXACT, True

    def pick(self, exact, moves):
        """The number of the point that is taken, and whether it is the value itself."""
        points = self.points
        below = bisect_right(points, exact) - 1
        if below + 1 == len(points):
            return below, False
        if points[below] == exact:
            return below, True
        return below + moves(below, exact), False

    def moves(self, mode, negative, below, exact):
        """Whether the mode takes the point above.

        Where a tie goes to even, the even code is taken: that is the even significand, if it has a last digit.
        """
        to_lower, to_upper = exact - self.points[below], self.points[below + 1] - exact
        return {
            Mode.UP: not negative,
            Mode.DOWN: negative,
            Mode.ZERO: False,
            Mode.EVEN: to_upper < to_lower or (to_upper == to_lower and below % 2 == 1),
            Mode.AWAY: to_upper <= to_lower,
        }[mode]


def family(least, greatest):
    """All formats with these widths. With a sign, an exponent of one bit or more is left."""
    for bits in range(least, greatest + 1):
        for signed in (True, False):
            for precision in range(1, bits + (not signed)):
                for extended in (False, True):
                    yield Projection(bits, precision, signed, extended)


# ---- what is known of them


def check_values(form):
    """The middle code is 1; codes are in order; each number has one code."""
    middle = form.codes_without_sign // 2
    assert middle > form.largest_index or form.value(middle) == 1, form
    numbers = [form.value(code) for code in range(form.largest_index + 1)]
    assert all(a < b for a, b in zip(numbers, numbers[1:])), form
    values = [form.value(code) for code in range(1 << form.bits)]
    assert len(set(values)) == len(values) and values.count(NOT_A_NUMBER) == 1, form
    assert (INFINITY in values) == form.extended
    assert (NEGATIVE_INFINITY in values) == (form.extended and form.signed)
    if not form.signed:
        assert values[-1] == NOT_A_NUMBER and (values[-2] == INFINITY) == form.extended


def check_model(form):
    """A format of the model with one NaN at the code of -0 has the same values."""
    if not form.signed or form.extended:
        return
    least = 1 - form.bias
    same = Format(
        form.name, form.bits, form.exponent_bits, form.precision, least,
        least + (1 << form.exponent_bits) - 2, NonFinite.NAN_NEGATIVE_ZERO,
    )
    for code in range(1 << form.bits):
        x = decoded(same, code)
        if isinstance(x, NaN):
            assert form.value(code) == NOT_A_NUMBER
        else:
            # the format may be coarser than 1: then its scale is below 0
            assert form.value(code) == x.signed_quanta * Fraction(2) ** -same.scale, (form, code)


# The least and the largest positive number, as published for binary8.
PUBLISHED = {
    (3, True): (Fraction(1, 2**17), 49152),
    (4, True): (Fraction(1, 2**10), 224),
    (5, True): (Fraction(1, 2**7), 15),
}


def check_published():
    """1 is at 0x40, the NaN at 0x80, the infinities at 0x7f and 0xff."""
    for (precision, extended), (least, largest) in PUBLISHED.items():
        form = Projection(8, precision, True, extended)
        assert form.value(0x40) == 1 and form.value(0x80) == NOT_A_NUMBER
        assert form.value(0x7F) == INFINITY and form.value(0xFF) == NEGATIVE_INFINITY
        assert form.value(1) == least and form.value(0x7E) == largest, form
        unsigned = Projection(8, precision, False, extended)
        assert unsigned.value(0x80) == 1 and unsigned.value(0xFE) == INFINITY


# ---- rows


def single_of(value):
    """The bits of the single that a value is."""
    if value == NOT_A_NUMBER:
        return 0x7FC00000
    if value in (INFINITY, NEGATIVE_INFINITY):
        return 0x7F800000 if value == INFINITY else 0xFF800000
    exact = float(value)
    assert Fraction(*exact.as_integer_ratio()) == value
    (bits,) = unpack("<I", pack("<f", exact))
    assert unpack("<f", pack("<I", bits))[0] == exact
    return bits


# what `partial_cmp` gives, in the order of these numbers
UNORDERED, LESS, EQUAL, GREATER = range(4)


def sort_key(value):
    """Infinities are at the ends."""
    return {INFINITY: (1, 0), NEGATIVE_INFINITY: (-1, 0)}.get(value) or (0, value)


def ordering(left, right):
    """The order of two values."""
    if NOT_A_NUMBER in (left, right):
        return UNORDERED
    a, b = sort_key(left), sort_key(right)
    return LESS if a < b else EQUAL if a == b else GREATER


def class_number(value):
    """The category: of a NaN, an infinity, a zero, another number."""
    if value == NOT_A_NUMBER:
        return 0
    if value in (INFINITY, NEGATIVE_INFINITY):
        return 1
    return 2 if value == 0 else 3


def neighbours(form, step):
    """The code of the next value up or down for each code.

    The neighbours are those in the sorted list of all values. Past its ends is the NaN, but for an infinity, which
    stays.
    """
    codes = [code for code in range(1 << form.bits) if code != form.nan_code]
    codes.sort(key=lambda code: sort_key(form.value(code)))
    place = {code: i for i, code in enumerate(codes)}
    for code in range(1 << form.bits):
        i = place[code] + step if code in place else -1
        if 0 <= i < len(codes):
            yield (codes[i],)
        else:
            yield (code if form.value(code) in (INFINITY, NEGATIVE_INFINITY) else form.nan_code,)


def orders(form, step):
    """The order of each two values whose codes are multiples of the step."""
    values = [form.value(code) for code in range(0, 1 << form.bits, step)]
    return ((ordering(x, y),) for x in values for y in values)


# The formats that have a name in the crate, and those that its tests declare.
TESTED = (
    Projection(8, 3, True, True),
    Projection(8, 4, True, True),
    Projection(8, 5, True, True),
    Projection(8, 1, False, False),
    Projection(3, 1, True, False),
    Projection(6, 2, False, True),
    Projection(8, 4, True, False),
    Projection(15, 8, True, True),
)


def rows(form):
    """The rows of a format: its values, order and neighbours, and every 61st half in each mode."""
    values = [form.value(code) for code in range(1 << form.bits)]
    step = 1 if form.bits <= 8 else 61
    yield every("convert_r", f"{form.name}>single", MODES[0], 1, ((single_of(value),) for value in values))
    yield every("category", form.name, None, 1, ((class_number(value),) for value in values))
    yield every("next_up", form.name, None, 1, neighbours(form, 1))
    yield every("next_down", form.name, None, 1, neighbours(form, -1))
    yield every("partial_cmp", form.name, None, f"{step} {step}", orders(form, step))
    for mode in MODES:
        found = (form.store(HALF, decoded(HALF, bits), mode) for bits in range(0, 65536, 61))
        yield every("convert_r", f"half>{form.name}", mode, 61, found)


if __name__ == "__main__":
    check_published()
    for known in family(3, 8):
        check_values(known)
        check_model(known)
    print("# Formats of IEEE P3109. Computed by evidence/projections.py.")
    for known in TESTED:
        print("\n".join(rows(known)))
