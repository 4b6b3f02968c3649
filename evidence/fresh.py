#!/usr/bin/env python3
"""Writes new rows, which are not among the stored ones, with the results of the model.

    python3 evidence/fresh.py SEED COUNT [SUBJECT [FORMAT]] > ROWS

The program `check_vectors` checks them. The same words draw the same rows. Operands are random
bits, values at the limits of a format, and values near others. SUBJECT is `mixed`, or another one
of `questions/subjects.py`. FORMAT is for `products` and `roots`, which draw in several formats.
"""

import sys

from questions.subjects import drawn
from rows import answered


def main():
    """Draws questions and writes them with their answers."""
    seed, count, *words = sys.argv[1:]
    for question in drawn(int(seed), int(count), *(words or ["mixed"])):
        print(answered(question))


if __name__ == "__main__":
    main()
