"""Hard products and fused sums at the ends of the range, with the flags of IEEE 754."""

from itertools import count

from exact.formats import FORMATS
from questions import hard, hard_products, hard_sums
from questions.operands import Operands

_FORMATS = [
    name + rule
    for name in ("half", "single", "double", "quad", "x87")
    for rule in ("+ieee", "+ieee+before")
]

_CASES = (
    ("wide_mul_r", hard_products.at_the_least),
    ("wide_mul_r", hard_products.between_denormals),
    ("wide_mul_r", hard_products.at_the_smallest_normal),
    ("wide_mul_r", hard_products.at_the_largest),
    ("wide_mul_add_r", hard_sums.cancelling_a_denormal),
    ("wide_mul_add_r", hard_sums.below_the_least),
    ("wide_mul_add_r", hard_sums.error_of_a_product),
    ("wide_mul_add_r", hard_sums.at_the_smallest_normal),
    ("wide_mul_add_r", hard_sums.at_the_largest),
)


def questions(choices):
    """Different questions without end, in rounds: each case in each format."""
    seen = set()
    for _ in count():
        for name in _FORMATS:
            operands = Operands(choices, FORMATS[name])
            for call, case in _CASES:
                yield from hard.unseen(seen, hard.asked(call, operands, case(operands)))
