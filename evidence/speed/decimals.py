#!/usr/bin/env python3
"""Times how decimals are read and written, by the library for C and by others, and prints a table.

    python3 evidence/speed/decimals.py [--crate FILE.rlib] [--library FILE.a] [--rounds N]

FILE.a is the library for C, which `./build apfloat_c` makes. FILE.rlib is the Rust crate
as rustc or cargo built it, with the libraries that it needs next to it or in `deps`; with it, Rust's
own `parse` and `{:e}` are timed too. The others are the C library and libquadmath. Each cell has the
fastest of N rounds; a round runs all programs cell by cell. The operands are drawn from a seed:
1024 for each cell.
"""

import argparse
import random
import subprocess
import tempfile
from pathlib import Path

HERE = Path(__file__).resolve().parent
ROOT = HERE.parent.parent
COUNT = 1024

# For each format: its bits, the bits of its exponent, and the exponents of ten of its range.
FORMATS = {
    "single": (32, 8, (-37, 38)),
    "double": (64, 11, (-307, 308)),
    "quad": (128, 15, (-4931, 4932)),
}
NEAR, ANY = "near 1", "any"
CELLS = [
    ("single", "read", 9, NEAR), ("single", "read", 9, ANY),
    ("double", "read", 17, NEAR), ("double", "read", 17, ANY), ("double", "read", 800, ANY),
    ("quad", "read", 36, NEAR), ("quad", "read", 36, ANY),
    ("single", "write", 0, NEAR), ("single", "write", 0, ANY),
    ("double", "write", 0, NEAR), ("double", "write", 0, ANY),
    ("quad", "write", 0, NEAR), ("quad", "write", 0, ANY),
]


def main():
    """Builds the programs, runs them in turn, and prints what was measured."""
    parser = argparse.ArgumentParser(description="Times decimals.")
    library = ROOT / "crates" / "apfloat_c" / "out" / "libapfloat_c.a"
    parser.add_argument("--library", type=Path, action="append", help="the library for C; several are compared")
    parser.add_argument("--crate", type=Path, help="the Rust crate, as an rlib")
    parser.add_argument("--rounds", type=int, default=8)
    arguments = parser.parse_args()
    with tempfile.TemporaryDirectory() as folder:
        programs = built(arguments.library or [library], arguments.crate, Path(folder))
        times, sums = measured(programs, arguments.rounds, Path(folder))
    print_table(list(programs), times)
    print_checksums(sums)


def built(libraries, crate, folder):
    """The programs by their names, and what each calls its formats."""
    programs = {}
    source = HERE / "decimals_bench.c"
    for number, library in enumerate(libraries, 1):
        name = "library" if len(libraries) == 1 else f"library {number}"
        program = folder / f"library{number}"
        subprocess.run(["gcc", "-O2", "-DLIBRARY", f"-I{ROOT / 'include'}", "-o", program, source,
                        library, "-lquadmath", "-lm"], check=True)
        programs[name] = program, {}
    subprocess.run(["gcc", "-O2", "-o", folder / "c", source, "-lquadmath", "-lm"], check=True)
    programs["C library, libquadmath"] = folder / "c", {}
    if crate:
        libraries = [crate.parent, crate.parent / "deps"]
        subprocess.run(
            ["rustc", "--edition", "2021", "-C", "opt-level=3", "-C", "codegen-units=1",
             *(f"-Ldependency={library}" for library in libraries),
             "--extern", f"rustc_apfloat={crate}", "-o", folder / "rust", HERE / "crate_decimals.rs"],
            check=True,
        )
        programs["Rust crate"] = folder / "rust", {}
        programs["Rust"] = folder / "rust", {"single": "f32", "double": "f64", "quad": None}
    return programs


def measured(programs, rounds, folder):
    """The least times and the checksums, by program and cell."""
    times, sums = {}, {}
    for _ in range(rounds):
        for cell in CELLS:
            form, operation = cell[:2]
            file = operand_file(folder, *cell)
            for name, (program, names) in programs.items():
                word = names.get(form, form)
                if word is None:
                    continue
                run = subprocess.run([program, word, operation, file], capture_output=True, text=True)
                if run.returncode == 0:
                    time, *checksum = run.stdout.split()
                    known = times.setdefault(cell, {})
                    known[name] = min(float(time), known.get(name, float("inf")))
                    sums.setdefault(cell, {})[name] = "".join(checksum)
    return times, sums


def operand_file(folder, form, operation, digits, exponents):
    """A file of the operands of a cell, one on each line."""
    file = folder / f"{form} {operation} {digits} {exponents}"
    if not file.exists():
        draw = random.Random(f"{form} {operation} {digits} {exponents}")
        line = text if operation == "read" else value
        file.write_text("".join(f"{line(draw, form, digits, exponents)}\n" for _ in range(COUNT)))
    return file


def text(draw, form, digits, exponents):
    """A decimal of that many digits; near 1, its first digit is at most three places from the dot."""
    least, greatest = FORMATS[form][2]
    written = str(draw.randrange(10 ** (digits - 1), 10 ** digits))
    first = draw.randint(-3, 3) if exponents == NEAR else draw.randint(least, greatest - 1)
    if exponents == NEAR and first >= 0:
        return f"{written[:first + 1]}.{written[first + 1:]}"
    return f"{written[0]}.{written[1:]}e{first}"


def value(draw, form, _, exponents):
    """The bits of a positive number; near 1, its exponent of two is from -10 to 10."""
    bits, field_bits, _ = FORMATS[form]
    greatest = (1 << field_bits) - 1
    bias = greatest // 2
    field = bias + draw.randint(-10, 10) if exponents == NEAR else draw.randint(1, greatest - 1)
    width = bits - 1 - field_bits
    return f"{field << width | draw.getrandbits(width):x}"


def print_table(names, times):
    """The nanoseconds of each cell."""
    print("| | exponents | " + " | ".join(names) + " |")
    print("|---" * (len(names) + 2) + "|")
    for cell, known in times.items():
        form, operation, digits, exponents = cell
        what = f"{form}, read, {digits} digits" if operation == "read" else f"{form}, written"
        shown = " | ".join(f"{known[name]:.0f}" if name in known else "-" for name in names)
        print(f"| {what} | {exponents} | {shown} |")


def print_checksums(sums):
    """The cells in which not all read the same values."""
    different = [cell for cell, known in sums.items() if len(set(known.values())) > 1]
    print(f"\nAll read the same values, but for: {different or 'none'}")


if __name__ == "__main__":
    main()
