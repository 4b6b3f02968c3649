"""What the hard cases of all calls share: which cases are tried in which formats and modes.

A case draws the operands of a call. They are data, or words for bits of x87 that encode no datum
as its processors write it.
"""

from itertools import count

from exact import words
from exact.data import Finite, infinity, number, qnan, snan
from exact.formats import FORMATS
from exact.rounding import Mode
from exact.values import VALUES
from questions.operands import Operands

_FORMATS = ("quad", "x87", "fallback", "fallbackext", "lim125")

# Formats with millions of exponents take long.
_SLOW_FORMATS = ("wide128", "lim125deep")


def questions(choices, call, cases, specials, formats=_FORMATS, slow_formats=_SLOW_FORMATS):
    """Different questions without end, in rounds: each case in each format.

    The first round also has the special operands, and the slow formats.
    """
    seen = set()
    for turn in count():
        for name in formats if turn else (*formats, *slow_formats):
            operands = Operands(choices, FORMATS[name])
            drawn = [case(operands) for case in cases]
            if turn == 0 and name in formats:
                drawn += specials(operands)
            for data in drawn:
                yield from unseen(seen, asked(call, operands, data))


def unseen(seen, questions):
    """The questions that were not seen before."""
    for question in questions:
        if question not in seen:
            seen.add(question)
            yield question


def asked(call, operands, data):
    """The question on operands in each mode, or in all modes at once if one is not a number."""
    kind = VALUES[operands.form.name]
    written = [x if isinstance(x, str) else words.word_of(kind, x) for x in data]
    are_numbers = all(isinstance(words.value_of(kind, word), Finite) for word in written)
    for mode in [mode.value for mode in Mode] if are_numbers else ["any"]:
        yield f"{call}\t{kind.name}\t{mode}\t{' '.join(written)}\t\t\t-"


def kinds(operands):
    """A datum of each kind, and bits of each kind that the processors of x87 do not write."""
    form = operands.form
    for negative in False, True:
        yield number(form, negative, 0)
        yield infinity(form, negative)
        yield qnan(form, operands.choices.getrandbits(form.precision), negative)
        yield snan(form, operands.choices.getrandbits(form.precision), negative)
    yield operands.signed(operands.magnitude())
    if form.writes_integer_bit:
        yield from strange_bits(operands)


def strange_bits(operands):
    """A pseudo-denormal number, an unnormal, a pseudo-infinity and a pseudo-NaN."""
    form, choices = operands.form, operands.choices
    trailing = choices.getrandbits(form.precision - 1)
    for field, significand in (
        (0, trailing | form.smallest_normalized),
        (choices.randint(1, form.greatest_field - 1), trailing),
        (form.greatest_field, 0),
        (form.greatest_field, trailing | 1),
    ):
        bits = operands.sign() << form.bits - 1 | field << form.precision | significand
        yield f"{bits:0{form.hexadecimal_digits}x}"
