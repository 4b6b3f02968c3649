#!/usr/bin/env python3
"""Computes rows again: reads a file of rows, and writes it with the results that the model computes.

    python3 evidence/rows.py [--by-subject] [FILE]

Without FILE it reads the stored rows. Of each row it uses the question alone: the words of a
command, or the call, the format, the mode and the operands; and, of what else a call returns,
which of it the row states. Below a heading that ends in words of `fresh.py`, for example
`fresh.py 1 1000 flags.`, the questions are drawn anew, too. Comments and empty lines stay where
they are. With --by-subject they are left out, and the rows are put in order, each subject below a
heading; those that are drawn come last.

If the model and the rows agree, what is written is the file that was read.
"""

import argparse
import re
import sys
from pathlib import Path

from exact import calls, commands, format_of, operations
from exact.formats import FORMATS
from questions.subjects import drawn

STORED = Path(__file__).resolve().parent.parent / "tests" / "rows" / "stored"

_COMMAND_SUBJECTS = {
    "add sub": "sums and differences",
    "mul": "products",
    "div": "quotients",
    "fma": "fused sums",
    "rem mod": "remainders",
    "int": "conversions from integers",
    "parse": "texts",
}
_REFUSED = "Commands that are refused"

_CALL_SUBJECTS = {
    "add_r sub_r + += - -=": "sums and differences",
    "mul_r * *=": "products",
    "wide_mul_r": "products at every precision",
    "div_r / /= get_exact_inverse": "quotients and exact inverses",
    "mul_add_r mul_add": "fused sums",
    "wide_mul_add_r": "fused sums at every precision",
    "sqrt_r sqrt": "square roots",
    "ieee_rem c_fmod c_fmod_steps % %=": "remainders",
    "next_up next_down": "neighbours",
    "scalbn_r scalbn ilogb frexp_r frexp": "powers of two, logarithms and fractions",
    "round_to_integral is_integer": "rounding to integral values",
    "from_u128_r from_u128 from_i128_r from_i128": "conversions from integers",
    "to_u128_r to_u128 to_i128_r to_i128 through_i128": "conversions to integers",
    "convert_r convert from convert_saturate convert_saturate_finite convert_saturate_all "
    "convert_stochastic": "conversions between formats, and with the wide format",
    "from_str_r from_str": "texts",
    "read_decimal shortest rounded exact from_decimal_r shortest_decimal": "decimals",
    "to_bits neg abs copy_sign": "bits and signs",
    "qnan snan nan infinity zero default smallest smallest_normalized largest "
    "BITS PRECISION MIN_EXP MAX_EXP MULTIPLIES": "NaNs and constants",
    "min max minimum maximum eq partial_cmp bitwise_eq cmp_abs_normal": "order",
    "debug": "how values are shown",
    " ".join([*format_of.OPERATIONS, *operations.COMPARISONS, *operations.EXTREMA]): (
        "the operations of IEEE 754-2019"
    ),
}
_OTHER_CALLS = "classes and signs"

_DRAWN = re.compile(r"# .*: fresh\.py ([0-9]+) ([0-9]+) (\w+)\.")


def main():
    """Reads the rows and writes them with new results."""
    parser = argparse.ArgumentParser(description="Answers a file of rows anew.")
    parser.add_argument("--by-subject", action="store_true", help="in order, below headings")
    parser.add_argument("file", nargs="?", default=STORED, help="rows; without it the stored ones")
    arguments = parser.parse_args()
    lines = Path(arguments.file).read_text(encoding="utf-8").removesuffix("\n").split("\n")
    listed, headings = listed_and_drawn(lines)
    listed = [line if is_skipped(line) else answered(line) for line in listed]
    if arguments.by_subject:
        listed = by_subject(line for line in listed if not is_skipped(line))
    sys.stdout.reconfigure(encoding="utf-8", newline="\n")
    sys.stdout.writelines(line + "\n" for line in listed)
    for heading in headings:
        print(heading)
        seed, count, subject = _DRAWN.fullmatch(heading).groups()
        for question in drawn(int(seed), int(count), subject):
            print(answered(question))


def listed_and_drawn(lines):
    """The lines above all drawn rows, and the headings of these."""
    headings = [line for line in lines if _DRAWN.fullmatch(line)]
    return lines[: lines.index(headings[0])] if headings else lines, headings


def is_skipped(line):
    """Whether a line is a comment or empty."""
    return line.startswith("#") or not line.strip()


def answered(line):
    """A row with its answer computed anew."""
    columns = line.split("\t")
    if len(columns) == 2:
        return f"{columns[0]}\t{reply(columns[0])}"
    call, kind, mode, operands, _, _, more = columns
    answer = calls.answered(call, kind, mode, operands)
    return "\t".join([*columns[:4], answer.value, answer.flags, stated(more, dict(answer.more))])


def reply(command):
    """The reply to a command, whose words are separated by spaces."""
    words = ["" if word == '""' else word for word in command.split(" ")]
    try:
        return commands.replied(words)
    except commands.Refusal as refusal:
        return f"refused: {refusal}"


def stated(column, more):
    """What the row states of what else the call returns."""
    if column == "-":
        return "-"
    names = [statement.split("=")[0] for statement in column.split(" ")]
    return " ".join(f"{name}={more[name]}" for name in names)


def by_subject(rows):
    """The rows in the order of subjects and formats, with headings."""
    headings = list(dict.fromkeys([
        *(f"Commands: {subject}" for subject in _COMMAND_SUBJECTS.values()),
        _REFUSED,
        *(f"Calls: {subject}" for subject in _CALL_SUBJECTS.values()),
        f"Calls: {_OTHER_CALLS}",
    ]))
    groups = {heading: [] for heading in headings}
    for row in rows:
        groups[heading_of(row)].append(row)
    for heading, group in groups.items():
        if group:
            yield f"# {heading}."
            yield from sorted(group, key=place_of)


def heading_of(row):
    """The heading above a row."""
    columns = row.split("\t")
    if len(columns) == 2:
        command, answer = columns
        subject = subject_of(operation_of(command), _COMMAND_SUBJECTS)
        if subject is None or answer.startswith("refused: ") and subject != "texts":
            return _REFUSED
        return f"Commands: {subject}"
    return f"Calls: {subject_of(columns[0], _CALL_SUBJECTS) or _OTHER_CALLS}"


def operation_of(command):
    """The second word of a command, or an empty one."""
    return (command.split(" ") + [""])[1]


def subject_of(name, subjects):
    """The subject of an operation or a call, or None."""
    for names, subject in subjects.items():
        if name in names.split():
            return subject
    return None


def place_of(row):
    """The place of a row in its subject: by its format, pairs last."""
    columns = row.split("\t")
    kind = columns[0].split(" ")[0] if len(columns) == 2 else columns[1].split(">")[0]
    known = [*FORMATS, "dd"]
    return known.index(kind) if kind in known else len(known)


if __name__ == "__main__":
    main()
