#!/usr/bin/env python3
"""Prints the checksums that the program `bench` prints, computed by the model.

    python3 evidence/checksums.py | diff - tests/checksums/expected

A line has a kind of values, an operation, a set of operands, and a checksum of 1024 results in
each mode, or one checksum if the operation has no mode. Below a heading are the operations that
the Rust crate does not have.
"""

from multiprocessing import Pool

from exact import drawing
from exact.conversions import convert
from exact.formats import DOUBLE, HALF, PROGRAM_FORMATS, SINGLE
from exact.pairs import PAIRS
from exact.rounding import Mode
from exact.status import OK
from exact.values import VALUES
from exact.words import checksum

MODES = (Mode.EVEN, Mode.UP, Mode.DOWN, Mode.ZERO, Mode.AWAY)

# Operations on values, which are drawn three at a time.
ARITHMETIC = {
    "add": lambda kind, mode, x, y, z: kind.add(x, y, mode),
    "sub": lambda kind, mode, x, y, z: kind.subtract(x, y, mode),
    "mul": lambda kind, mode, x, y, z: kind.multiply(x, y, mode),
    "div": lambda kind, mode, x, y, z: kind.divide(x, y, mode),
    "fma": lambda kind, mode, x, y, z: kind.multiply_add(x, y, z, mode),
    "rem": lambda kind, mode, x, y, z: kind.nearest_remainder(x, y),
    "mod": lambda kind, mode, x, y, z: kind.truncated_remainder(x, y),
}
FURTHER = {
    "sqrt": lambda kind, mode, x, y, z: kind.square_root(kind.absolute(x), mode),
    "wide_mul": lambda kind, mode, x, y, z: kind.multiply(x, y, mode),
    "wide_fma": lambda kind, mode, x, y, z: kind.multiply_add(x, y, z, mode),
}
CALCULATIONS = ARITHMETIC | FURTHER
FURTHER_HEADING = (
    "Square roots of magnitudes, and products and fused sums in formats of any precision:"
)
CONVERSIONS = {"conv:half": HALF, "conv:single": SINGLE, "conv:double": DOUBLE}
OPERATIONS = (*ARITHMETIC, *CONVERSIONS, "toint", "int", "parse", "bits")
ONLY_OF_FORMATS = (*CONVERSIONS, "wide_mul", "wide_fma")
WITHOUT_MODE = ("rem", "mod", "toint", "bits")
SETS = ("normal", "denormal")


def main():
    """Prints all lines; each is computed by a process of its own."""
    with Pool() as pool:
        print_lines(pool, OPERATIONS)
        print(FURTHER_HEADING, flush=True)
        print_lines(pool, FURTHER)


def print_lines(pool, operations):
    """Prints the lines of some operations, in each kind of values that has them."""
    tasks = [
        (kind, operation, operands)
        for kind in (*(known.name for known in PROGRAM_FORMATS), PAIRS.name)
        for operation in operations
        for operands in SETS
        if has_operation(kind, operation)
    ]
    for line in pool.imap(line_of, tasks):
        print(line, flush=True)


def kind_named(name):
    """The values of a format or pairs of doubles."""
    return PAIRS if name == PAIRS.name else VALUES[name]


def has_operation(name, operation):
    """Whether a kind of values has an operation."""
    if operation == "mul":
        return kind_named(name).multiplies
    if operation == "fma":
        return kind_named(name).multiplies_and_adds
    return operation not in ONLY_OF_FORMATS or name != PAIRS.name


def line_of(task):
    """The line of an operation on a set of operands."""
    modes = MODES[:1] if task[1] in WITHOUT_MODE else MODES
    sums = [f"{checksum_of(results(*task, mode)):016x}" for mode in modes]
    return " ".join([*task, *sums])


def results(name, operation, operands, mode):
    """The results of an operation for all drawn operands: bits and flags of each."""
    kind = kind_named(name)
    if operation == "int":
        for integer in drawing.integers():
            yield written(kind, kind.from_integer(integer, mode))
    elif operation == "parse":
        for text in drawing.texts(name, operands):
            yield written(kind, kind.read(text, mode))
    elif operation == "toint":
        for x, _, _ in drawing.triples(name, f"integer {operands}"):
            integer, flags, _ = kind.to_signed(kind.decoded(x), 64, Mode.ZERO)
            yield integer % 2**128, flags
    else:
        for triple in drawing.triples(name, operands):
            x, y, z = (kind.decoded(bits) for bits in triple)
            if operation == "bits":
                yield kind.encoded(x), OK
            elif operation in CONVERSIONS:
                target = CONVERSIONS[operation]
                value, flags, _ = convert(kind.format, target, x, mode)
                yield written(VALUES[target.name], (value, flags))
            else:
                yield written(kind, CALCULATIONS[operation](kind, mode, x, y, z))


def written(kind, result):
    """The bits and the flags of a result."""
    value, flags = result
    return kind.encoded(value), flags


def checksum_of(results):
    """One integer for many results: of the flags and of both halves of the bits of each."""
    return checksum(word for bits, flags in results for word in (flags, bits % 2**64, bits >> 64))


if __name__ == "__main__":
    main()
