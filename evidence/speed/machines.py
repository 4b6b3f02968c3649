#!/usr/bin/env python3
"""Measures apfloat_machine against the plain calls of the library for C, and prints a table.

    python3 evidence/speed/machines.py LIBRARY.a [--rounds N] [--store]

LIBRARY.a is the library for C, as `rt lib` or cargo builds it. The times are nanoseconds of a call on the operands of
`bench`, of the plain call and of that of a machine, in turn, the fastest of all rounds; the instructions of a call are
counted by callgrind, which needs no quiet machine: those of 1024 calls without those of one. --store puts the cells
into machines.tsv, of which figures.py makes the table in docs/SPEED.md.
"""

import argparse
import math
import subprocess
import sys
import tempfile
from pathlib import Path

HERE = Path(__file__).resolve().parent
ROOT = HERE.parent.parent
sys.path.insert(0, str(HERE.parent))
sys.path.insert(0, str(HERE))

import compare  # noqa: E402

FORMATS = ("half", "single", "double", "quad", "x87")
OPERATIONS = ("add", "mul", "div", "fma", "sqrt", "integral", "convert", "to_i64")
SIDES = ("plain", "machine")
CALLS = 1024


def main():
    """Builds the program, runs it, and prints what it measured."""
    parser = argparse.ArgumentParser(description="Measures the calls of machines against plain ones.")
    parser.add_argument("library", type=Path, help="the library for C, a static one")
    parser.add_argument("--rounds", type=int, default=5)
    parser.add_argument("--store", action="store_true", help="put the cells into machines.tsv")
    arguments = parser.parse_args()
    with tempfile.TemporaryDirectory() as name:
        folder = Path(name)
        program = folder / "machine_bench"
        source = HERE / "machine_bench.c"
        subprocess.run(["cc", "-O2", f"-I{ROOT / 'include'}", source, arguments.library, "-o", program], check=True)
        cells = [(operation, form) for operation in OPERATIONS for form in FORMATS]
        files = {cell: compare.operand_file(folder, cell[1], "add", "normal") for cell in cells}
        times = {cell: (math.inf, math.inf) for cell in cells}
        for _ in range(arguments.rounds):
            for operation, form in cells:
                known = times[operation, form]
                times[operation, form] = tuple(map(min, known, timed(program, form, operation, files)))
        counts = {cell: [counted(folder, program, side, *cell, files[cell]) for side in SIDES] for cell in cells}
    lines = ["operation\tformat\tplain\tmachine\tinstructions\tof machine"]
    for cell in cells:
        (plain, machine), (instructions, of_machine) = times[cell], counts[cell]
        lines.append("\t".join((*cell, f"{plain:.1f}", f"{machine:.1f}", f"{instructions:.0f}", f"{of_machine:.0f}")))
    text = "".join(line + "\n" for line in lines)
    print(text, end="")
    if arguments.store:
        (HERE / "machines.tsv").write_text(text)


def timed(program, form, operation, files):
    """The nanoseconds of both calls."""
    words = subprocess.check_output([program, "time", form, operation, files[operation, form]], text=True).split()
    return tuple(map(float, words))


def counted(folder, program, side, operation, form, file):
    """The instructions of a call."""
    few, many = (total(folder, [program, side, form, operation, file, str(count)]) for count in (1, CALLS))
    return (many - few) / (CALLS - 1)


def total(folder, command):
    """The instructions that a command executes."""
    out = folder / "callgrind.out"
    subprocess.run(["valgrind", "-q", "--tool=callgrind", f"--callgrind-out-file={out}", *command], check=True)
    return int(out.read_text().split("\ntotals: ")[1].split()[0])


if __name__ == "__main__":
    main()
