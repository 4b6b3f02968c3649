#!/usr/bin/env python3
"""Times the library, the Rust crate, LLVM and others on the same operands, and prints tables.

    python3 evidence/speed/compare.py --crate FILE.rlib [--llvm LLVM_CONFIG] [--rounds N]
    python3 evidence/speed/compare.py --roots [--rounds N]

The library is the program `bench`, as cargo builds it for a release. FILE.rlib is the Rust
crate as rustc or cargo built it, with the libraries that it needs next to it or in `deps`.
LLVM_CONFIG is the program `llvm-config` of LLVM 14. With --roots, square roots, and products and
fused sums in formats of any precision, are timed against MPFR and the libraries of GCC. Each cell
has the fastest of N rounds; a round runs the library, and then the others cell by cell.
"""

import argparse
import math
import subprocess
import sys
import tempfile
from pathlib import Path

HERE = Path(__file__).resolve().parent
ROOT = HERE.parent.parent
sys.path.insert(0, str(HERE.parent))

from exact import drawing  # noqa: E402

FORMATS = ("half", "single", "double", "quad", "bfloat", "e5m2", "e4m3fn", "x87", "dd")
SETS = ("normal", "denormal")


def main():
    """Builds the other programs, runs all in turn, and prints what was measured."""
    parser = argparse.ArgumentParser(description="Times the library against others.")
    parser.add_argument("--library", default=ROOT / "target" / "release" / "bench")
    parser.add_argument("--crate", type=Path, help="the Rust crate, as an rlib")
    parser.add_argument("--llvm", help="llvm-config of LLVM 14")
    parser.add_argument("--roots", action="store_true", help="against MPFR and the libraries of GCC")
    parser.add_argument("--rounds", type=int, default=8)
    arguments = parser.parse_args()
    with tempfile.TemporaryDirectory() as folder:
        others = built(arguments, Path(folder))
        times, sums = measured(arguments, others, Path(folder))
    for operands in SETS:
        print_table(times, operands, list(others))
    print_checksums(sums)


def built(arguments, folder):
    """The programs for the others, by their names."""
    others = {}
    if arguments.crate:
        others["crate"] = folder / "crate_bench"
        libraries = [arguments.crate.parent, arguments.crate.parent / "deps"]
        subprocess.run(
            ["rustc", "--edition", "2021", "-C", "opt-level=3", "-C", "codegen-units=1",
             *(f"-Ldependency={library}" for library in libraries),
             "--extern", f"rustc_apfloat={arguments.crate}",
             "-o", others["crate"], HERE / "crate_bench.rs"],
            check=True,
        )
    if arguments.llvm:
        others["LLVM"] = folder / "llvm_bench"
        options = [
            subprocess.check_output([arguments.llvm, option], text=True).split()
            for option in ("--cppflags", "--ldflags", "--libs")
        ]
        subprocess.run(
            ["c++", "-std=c++17", "-O3", *options[0], "-o", others["LLVM"],
             HERE / "llvm_bench.cpp", *options[1], *options[2]],
            check=True,
        )
    if arguments.roots:
        peers = {"MPFR": ["-lmpfr", "-lgmp"], "GCC": ["-DQUADMATH", "-lquadmath"]}
        for name, options in peers.items():
            others[name] = folder / name
            subprocess.run(
                ["gcc", "-O2", "-o", others[name], HERE / "peers_bench.c", *options, "-lm"],
                check=True,
            )
    return others


def measured(arguments, others, folder):
    """The least times and the checksums, by program and cell: format, operation, set."""
    times, sums = {}, {"library": known_checksums()}
    for _ in range(arguments.rounds):
        table = subprocess.check_output([arguments.library, "time"], text=True)
        for cell, time in times_of_library(table):
            keep_least(times, "library", cell, time)
        for cell in sums["library"]:
            file = operand_file(folder, *cell)
            for name, program in others.items():
                run = subprocess.run([program, *cell[:2], file], capture_output=True, text=True)
                if run.returncode == 0:
                    time, *checksum = run.stdout.split()
                    keep_least(times, name, cell, float(time))
                    if checksum:
                        sums.setdefault(name, {})[cell] = checksum[0]
    return times, sums


def keep_least(times, name, cell, time):
    """Notes a time if it is the least for its cell."""
    known = times.setdefault(name, {})
    known[cell] = min(time, known.get(cell, time))


def known_checksums():
    """The checksums in the mode `even`, by cell."""
    lines = (ROOT / "crates" / "bench" / "stdout").read_text().splitlines()
    rows = (line.split() for line in lines)
    return {tuple(row[:3]): row[3] for row in rows if row[0] in FORMATS and row[1] != "bits"}


def times_of_library(text):
    """The cells of the tables that the library's program prints, and their times."""
    operands, operations = None, []
    for line in text.splitlines():
        if line.startswith("Set "):
            operands = line.split()[1].rstrip(",")
        columns = [column.strip() for column in line.strip("|").split("|")]
        if line.startswith("| |"):
            operations = columns[1:]
        elif columns[0] in FORMATS:
            for operation, time in zip(operations, columns[1:]):
                if time != "-":
                    yield (columns[0], operation, operands), float(time)


def operand_file(folder, name, operation, operands):
    """A file of the operands of a cell, a line for each call."""
    if operation == "int":
        subject, lines = "integers", (f"{x:x}" for x in drawing.integers())
    elif operation == "parse":
        subject, lines = f"texts {operands}", drawing.texts(name, operands)
    else:
        subject = f"integer {operands}" if operation == "toint" else operands
        lines = (" ".join(f"{x:x}" for x in three) for three in drawing.triples(name, subject))
    file = folder / f"{name} {subject}"
    if not file.exists():
        file.write_text("".join(line + "\n" for line in lines))
    return file


def print_table(times, operands, others):
    """The table of a set of operands, and means of how many times as long the others take."""
    print(f"Set {operands}: nanoseconds of {' / '.join(['the library', *others])}")
    print("(in brackets, how many times as long the first of the others takes)\n")
    print("| | " + " | ".join(FORMATS) + " |")
    print("|---" * (len(FORMATS) + 1) + "|")
    compared = {cell[1] for name in others for cell in times[name]}
    operations = dict.fromkeys(cell[1] for cell in times["library"])
    for operation in operations:
        if others and operation not in compared:
            continue
        cells = [shown(times, (name, operation, operands), others) for name in FORMATS]
        print(f"| {operation} | " + " | ".join(cells) + " |")
    print()
    for name in others:
        ratios = {
            cell: times[name][cell] / time
            for cell, time in times["library"].items()
            if cell[2] == operands and cell in times[name]
        }
        least = sorted(ratios, key=ratios.get)[:5]
        mean = math.exp(sum(map(math.log, ratios.values())) / len(ratios))
        print(f"{name}: geometric mean {mean:.2f} over {len(ratios)} cells; least: "
              + ", ".join(f"{cell[0]} {cell[1]} {ratios[cell]:.2f}" for cell in least))
    print()


def shown(times, cell, others):
    """A cell of a table."""
    time = times["library"].get(cell)
    if time is None:
        return "-"
    other = [times[name].get(cell) for name in others]
    text = " / ".join("-" if known is None else f"{known:.1f}" for known in [time, *other])
    return f"{text} ({other[0] / time:.2f})" if other and other[0] else text


def print_checksums(sums):
    """Which checksums differ from those of the library."""
    for name, known in sums.items():
        different = [" ".join(cell) for cell in known if known[cell] != sums["library"][cell]]
        if name != "library":
            print(f"{name}: {len(known)} checksums compared; different: "
                  + (", ".join(different) or "none"))


if __name__ == "__main__":
    main()
