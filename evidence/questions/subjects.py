"""All subjects of questions, and so many questions of one of them, drawn from a seed."""

import random
from itertools import islice

from questions import (
    augmented,
    decimals,
    flags,
    hard_flags,
    hard_products,
    hard_roots,
    hard_sums,
    hexadecimal,
    later_formats,
    machines,
    mixed,
    odd,
    operations,
    products,
    roots,
    storage,
)


def each_drawn(question):
    """Questions without end, each drawn alone."""

    def questions(choices, *name):
        while True:
            yield question(choices, *name)

    return questions


SUBJECTS = {
    "mixed": each_drawn(mixed.question),
    "products": each_drawn(products.question),
    "roots": each_drawn(roots.question),
    "flags": each_drawn(flags.question),
    "decimals": each_drawn(decimals.question),
    "operations": each_drawn(operations.question),
    "later_formats": each_drawn(later_formats.question),
    "machines": each_drawn(machines.question),
    "later_machines": each_drawn(machines.later_question),
    "odd": each_drawn(odd.question),
    "hexadecimal": each_drawn(hexadecimal.question),
    "augmented": each_drawn(augmented.question),
    "eight_bit_conversions": later_formats.eight_bit_conversions,
    "storage": each_drawn(storage.question),
    "all_storage": storage.all_questions,
    "hard_roots": hard_roots.questions,
    "hard_products": hard_products.questions,
    "hard_sums": hard_sums.questions,
    "hard_flags": hard_flags.questions,
    "hard_sums_63": hard_sums.questions_of_63_digits,
}


def drawn(seed, count, subject, *name):
    """So many questions of a subject, of the format of this name for products and roots.

    The same words draw the same questions.
    """
    return islice(SUBJECTS[subject](random.Random(seed), *name), count)
