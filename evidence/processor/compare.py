#!/usr/bin/env python3
"""Compares rows of a processor with the model.

    cc -O2 -o ROWS evidence/processor/rows.c
    ./ROWS SEED COUNT | python3 evidence/processor/compare.py

Prints each row that differs with what the model computes, and then how many rows agree. The exit
status is 1 if a row differs.
"""

import sys
from pathlib import Path

sys.path.insert(0, str(Path(__file__).resolve().parent.parent))

from exact import calls  # noqa: E402


def compared(lines, answers):
    """Prints each line with another result, and what has the other one: `answers` gives, of a line, its result, what is
    expected, and how that is told, or `None` for a line to be skipped. Returns the exit status.
    """
    agree = differ = 0
    for line in lines:
        answer = answers(line)
        if answer is None:
            continue
        result, expected, told = answer
        if result == expected:
            agree += 1
        else:
            differ += 1
            print(f"{line.rstrip()}\n  {told}")
    print(f"{agree} rows agree, {differ} differ")
    return 1 if differ else 0


def of_row(line):
    """The result of a row, and that of the model."""
    call, kind, mode, operands, value, flags, _ = line.split("\t")
    answer = calls.answered(call, kind, mode, operands)
    return (value, flags), (answer.value, answer.flags), f"the model: {answer.value} {answer.flags}"


if __name__ == "__main__":
    sys.exit(compared(sys.stdin, of_row))
