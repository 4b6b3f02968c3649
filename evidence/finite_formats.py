"""Computes tests/rows/waiting/e3m2fn.tsv: operations of a format without infinities and NaNs. Those that have a call
are compared with the rows of e3m2fn in tests/rows/stored_arithmetic.tsv.

    python3 evidence/finite_formats.py | diff - tests/rows/waiting/e3m2fn.tsv

Every result is computed twice. First by the rule itself: an exact fraction is looked up between its
neighbours in the list of all numbers, which goes on past the largest one; past it the largest number is
the result in each mode. Then by the model's format with the same numbers and with infinities and NaNs,
whose result is settled: an infinity is the largest number of its sign, and a NaN is +0. Both have to agree.
"""

from bisect import bisect_right
from fractions import Fraction
from itertools import product
from pathlib import Path

from exact import arithmetic, integers, neighbours, remainders, roots
from exact.bits import decoded
from exact.data import Finite, Infinite, NaN
from exact.formats import Format
from exact.rounding import Mode, overflows
from exact.status import DIV_BY_ZERO, INEXACT, INVALID_OP, OK, OVERFLOW, UNDERFLOW
from row_files import MODES, every, row

ROWS = Path(__file__).parent.parent / "tests/rows"

BITS = 6

# The numbers of e3m2fn, with infinities and NaNs, for computing only.
NUMBERS = Format("e3m2fn", 0, 0, 3, -2, 4)

# The codes of the same numbers in a format whose exponent has one bit more.
CODES = Format("e3m2fn codes", BITS + 1, 4, 3, -2, 11)


# ---- by the rule


def magnitude(index):
    """The number whose bits below the sign are these; also past the width."""
    field, digits = index >> 2, index & 3
    last = Fraction(1, 16)
    return digits * last if field == 0 else (4 + digits) * last * 2 ** (field - 1)


COUNT = 1 << BITS - 1

POINTS = [magnitude(index) for index in range(COUNT + 4 * 64)]


def number_of(code):
    """Whether the code has a sign, and its magnitude."""
    return code >= COUNT, POINTS[code % COUNT]


def code_of(negative, index):
    """The code of a sign and a number."""
    return (COUNT if negative else 0) + index


def rounded(mode, negative, exact):
    """The code and the flags of a magnitude with that sign."""
    below = bisect_right(POINTS, exact) - 1
    is_exact = POINTS[below] == exact
    if not is_exact and below + 1 < len(POINTS):
        to_lower, to_upper = exact - POINTS[below], POINTS[below + 1] - exact
        above = {
            Mode.UP: not negative,
            Mode.DOWN: negative,
            Mode.ZERO: False,
            Mode.EVEN: to_upper < to_lower or (to_upper == to_lower and below % 2 == 1),
            Mode.AWAY: to_upper <= to_lower,
        }[mode]
        below += above
    if below >= COUNT:
        return code_of(negative, COUNT - 1), OVERFLOW | INEXACT if overflows(mode, negative) else INEXACT
    if is_exact:
        return code_of(negative, below), OK
    return code_of(negative, below), UNDERFLOW | INEXACT if below < 4 else INEXACT


def signed_result(mode, exact, zero):
    """The code and the flags of a fraction; `zero` is the sign of an exact zero."""
    negative = zero if exact == 0 else exact < 0
    return rounded(mode, negative, abs(exact))


def signed(code):
    """The fraction that a code is."""
    negative, size = number_of(code)
    return -size if negative else size


def zero_sign(mode, left, right):
    """The sign of an exact zero as a sum of numbers of these signs."""
    return left if left == right else mode is Mode.DOWN


def add_by_rule(a, b, mode):
    """a + b."""
    return signed_result(mode, signed(a) + signed(b), zero_sign(mode, a >= COUNT, b >= COUNT))


def multiply_by_rule(a, b, mode):
    """a * b."""
    return signed_result(mode, signed(a) * signed(b), (a >= COUNT) != (b >= COUNT))


def divide_by_rule(a, b, mode):
    """a / b."""
    negative = (a >= COUNT) != (b >= COUNT)
    if signed(b) == 0:
        return (0, INVALID_OP) if signed(a) == 0 else (code_of(negative, COUNT - 1), DIV_BY_ZERO)
    return signed_result(mode, signed(a) / signed(b), negative)


def remainder_by_rule(a, b, _mode):
    """a - b * n, where n is the quotient toward zero."""
    if signed(b) == 0:
        return 0, INVALID_OP
    x, y = abs(signed(a)), abs(signed(b))
    rest = x - y * (x // y)
    return code_of(a >= COUNT, POINTS.index(rest)), OK


def fused_by_rule(a, b, c, mode):
    """a * b + c."""
    product_negative = (a >= COUNT) != (b >= COUNT)
    return signed_result(
        mode, signed(a) * signed(b) + signed(c), zero_sign(mode, product_negative, c >= COUNT)
    )


def root_by_rule(a, mode):
    """The root, rounded by comparing squares."""
    x = signed(a)
    if x == 0:
        return a, OK
    if x < 0:
        return 0, INVALID_OP
    below = max(i for i in range(COUNT) if POINTS[i] ** 2 <= x)
    if POINTS[below] ** 2 == x:
        return below, OK
    middle = (POINTS[below] + POINTS[below + 1]) ** 2 / 4
    nearest = x > middle or (x == middle and below % 2 == 1)
    above = {Mode.UP: True, Mode.DOWN: False, Mode.ZERO: False, Mode.EVEN: nearest, Mode.AWAY: x >= middle}
    below += above[mode]
    return below, INEXACT


def next_up_by_rule(a, _mode):
    """The least number above; the largest one stays."""
    negative, index = a >= COUNT, a % COUNT
    if index == 0:
        return 1, OK
    if negative:
        return code_of(True, index - 1), OK
    return min(index + 1, COUNT - 1), OK


# ---- by the settled results of the model


def datum_of(code):
    """What a code means, by the code of the wider format: the sign is moved up by one bit."""
    x = decoded(CODES, (code & COUNT - 1) | (code >> BITS - 1) << BITS)
    assert isinstance(x, Finite) and (x.negative, Fraction(x.quanta, 16)) == number_of(code)
    return x


def settled(x):
    """The code of what stands for a datum."""
    if isinstance(x, NaN):
        return 0
    if isinstance(x, Infinite):
        return code_of(x.negative, COUNT - 1)
    return code_of(x.negative, POINTS.index(Fraction(x.quanta, 16)))


def by_model(operation, *operands):
    """The settled value of the model's operation, with its flags."""
    *codes, mode = operands
    value, status = operation(NUMBERS, *map(datum_of, codes), mode)
    return settled(value), status


def without_mode(operation):
    """The operation, which needs no mode."""
    return lambda form, *operands: operation(form, *operands[:-1])


OPERATIONS = (
    ("add_r", 2, add_by_rule, arithmetic.add),
    ("mul_r", 2, multiply_by_rule, arithmetic.multiply),
    ("div_r", 2, divide_by_rule, arithmetic.divide),
    ("c_fmod", 2, remainder_by_rule, without_mode(remainders.truncated_remainder)),
    ("sqrt_r", 1, root_by_rule, roots.square_root),
    ("next_up", 1, next_up_by_rule, without_mode(neighbours.next_up)),
)


WITHOUT_MODE = ("c_fmod", "next_up")


def results(count, by_rule, operation, mode):
    """The results of an operation for all operands."""
    for codes in product(range(1 << BITS), repeat=count):
        result = by_rule(*codes, mode)
        assert result == by_model(operation, *codes, mode), (operation, codes, mode)
        yield result


def fused_results(mode):
    """Fused sums of every seventh and every third code, and of each."""
    for codes in product(range(0, 1 << BITS, 7), range(0, 1 << BITS, 3), range(1 << BITS)):
        result = fused_by_rule(*codes, mode)
        assert result == by_model(arithmetic.multiply_add, *codes, mode)
        yield result


def of_integer(integer, mode):
    """The code and the flags of an integer."""
    result = rounded(mode, integer < 0, Fraction(abs(integer)))
    value, status = integers.from_integer(NUMBERS, integer, mode)
    assert result == (settled(value), status)
    return result


def known(line):
    """Asserts that a row is one of tests/rows/stored_arithmetic.tsv."""
    assert line in (ROWS / "stored_arithmetic.tsv").read_text().splitlines(), line


def lines():
    """The file."""
    yield "# Operations where there are only numbers, in e3m2fn, of which no call has these rows yet. Computed by"
    yield "# evidence/finite_formats.py."
    for call, count, by_rule, operation in OPERATIONS:
        for mode in MODES[:1] if call in WITHOUT_MODE else MODES:
            steps = " ".join(["1"] * count)
            shown = None if call in WITHOUT_MODE else mode
            line = every(call, "e3m2fn", shown, steps, results(count, by_rule, operation, mode))
            if call in WITHOUT_MODE:
                yield line
            else:
                known(line)
    for mode in MODES:
        known(every("mul_add_r", "e3m2fn", mode, "7 3 1", fused_results(mode)))
    for mode in MODES:
        for integer in range(-70, 71):
            code, status = of_integer(integer, mode)
            yield row("from_i128_r", "e3m2fn", mode, integer, f"{code:02x}", status)


if __name__ == "__main__":
    print("\n".join(lines()))
