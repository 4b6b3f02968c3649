#!/usr/bin/env python3
"""Measures the crate of rust/rustc_apfloat against the Rust crate, call by call in one run, and prints a table.

    python3 evidence/speed/in_rust.py --crate FILE.rlib [--rounds N] [--store]
    python3 evidence/speed/in_rust.py --crate FILE.rlib --count [--store]

FILE.rlib is the Rust crate as rustc or cargo built it, with the libraries that it needs next to it or in `deps`. Both
crates are built with FLAGS: some processors decode a jump across an address that 32 divides anew each time, so that of
two loops with the same instructions one would take half as long again as the other, by where they happen to lie. The
times are nanoseconds of a call, the fastest of all rounds. With --count the instructions of a call are counted instead,
by callgrind, which needs no quiet machine: those of 64 calls without those of one, so without the start and the end of
the loop around them. --store puts the cells into in_rust.tsv, and the table into README.md beside it.
"""

import argparse
import math
import os
import platform
import subprocess
import sys
import tempfile
from pathlib import Path

HERE = Path(__file__).resolve().parent
ROOT = HERE.parent.parent
sys.path.insert(0, str(HERE.parent))
sys.path.insert(0, str(HERE))

import compare  # noqa: E402

FORMATS = ("half", "single", "double", "x87", "quad", "dd")
MEASURED = HERE / "README.md"
FLAGS = "-Cllvm-args=-x86-branches-within-32B-boundaries" if platform.machine() == "x86_64" else ""
BEGIN, END = "<!-- made by evidence/speed/in_rust.py -->", "<!-- end -->"
MANIFEST = """[package]
name = "in_rust"
version = "0.0.0"
edition = "2024"

[[bin]]
name = "in_rust"
path = "{program}"

[dependencies]
ours = {{ package = "rustc_apfloat", path = "{library}" }}

[workspace]
"""


def main():
    """Builds the program over both crates, runs it, and prints what it measured."""
    parser = argparse.ArgumentParser(description="Measures the crate against the Rust crate.")
    parser.add_argument("--crate", type=Path, required=True, help="the Rust crate, as an rlib")
    parser.add_argument("--rounds", type=int, default=3)
    parser.add_argument("--count", action="store_true", help="count instructions")
    parser.add_argument("--call", help="leave out all other calls")
    parser.add_argument("--store", action="store_true", help="put them into in_rust.tsv and README.md beside it")
    arguments = parser.parse_args()
    program = built(arguments.crate.resolve())
    with tempfile.TemporaryDirectory() as folder:
        write_operands(Path(folder))
        calls = [arguments.call] if arguments.call else []
        if arguments.count:
            cells, different = counted(program, Path(folder), calls)
        else:
            cells, different = timed(program, folder, calls, arguments.rounds)
    unit = "instructions" if arguments.count else "nanoseconds"
    if arguments.store and not calls:
        store(cells, unit)
    print(table(cells))
    print(f"slower than the Rust crate, {unit} of the library and of the crate:")
    for cell in sorted(cells, key=lambda cell: ratio(cells[cell])):
        if ratio(cells[cell]) < 1:
            print(f"  {' '.join(cell)}: {cells[cell][0]:.1f} {cells[cell][1]:.1f} ({ratio(cells[cell]):.2f})")
    print("different results: " + (", ".join(map(" ".join, different)) or "none"))


def built(crate):
    """The program, as cargo builds it for a user of the crate."""
    folder = ROOT / "target" / "in_rust"
    folder.mkdir(parents=True, exist_ok=True)
    library = ROOT
    (folder / "Cargo.toml").write_text(MANIFEST.format(program=HERE / "in_rust.rs", library=library))
    flags = f"--extern theirs={crate} -Ldependency={crate.parent} -Ldependency={crate.parent / 'deps'} {FLAGS}"
    environment = os.environ | {"RUSTFLAGS": flags, "CARGO_TARGET_DIR": str(folder / "target")}
    subprocess.run(["cargo", "build", "--offline", "--release"], cwd=folder, env=environment, check=True)
    return folder / "target" / "release" / "in_rust"


def write_operands(folder):
    """The files of operands."""
    for name in FORMATS:
        for operands in compare.SETS:
            for operation in ("add", "toint", "int", "parse"):
                compare.operand_file(folder, name, operation, operands)


def timed(program, folder, calls, rounds):
    """The least times of the library and of the crate, by cell, and the cells whose results differ."""
    cells, different = {}, set()
    for _ in range(rounds):
        for cell, ours, theirs, same in lines_of([program, folder, "time", *calls]):
            known = cells.setdefault(cell, (math.inf, math.inf))
            cells[cell] = tuple(map(min, known, (float(ours), float(theirs))))
            if not same:
                different.add(cell)
    return cells, sorted(different)


def lines_of(command):
    """What the program prints: a cell, the times of both, and whether their results are the same."""
    for line in subprocess.check_output(command, text=True).splitlines():
        *cell, ours, theirs, same = line.split("\t")
        yield tuple(cell), ours, theirs, same == "same"


def counted(program, folder, calls):
    """The instructions of a call of the library and of the crate, by cell, and the cells whose results differ."""
    out = folder / "out"
    out.mkdir()
    valgrind = ["valgrind", "-q", "--tool=callgrind", "--collect-atstart=no", "--dump-line=no",
                f"--callgrind-out-file={out}/calls"]
    lines = list(lines_of([*valgrind, program, folder, "count", *calls]))
    counts = {}
    for file in out.iterdir():
        text = file.read_text()
        if "Client Request: " in text:
            *cell, side, made = text.split("Client Request: ")[1].split("\n")[0].split("\t")
            total = int(text.split("\ntotals: ")[1].split()[0])
            counts.setdefault((tuple(cell), side), {})[int(made)] = total
    of_a_call = {key: (totals[max(totals)] - totals[1]) / (max(totals) - 1) for key, totals in counts.items()}
    cells = {cell: (of_a_call[cell, "library"], of_a_call[cell, "crate"]) for cell, *_ in lines}
    return cells, [cell for cell, *_, same in lines if not same]


def store(cells, unit):
    """Writes the cells, and the table with what it comes to."""
    lines = [f"operands\tcall\tformat\tlibrary\tcrate\t({unit})"]
    lines += ["\t".join((*cell, f"{ours:.1f}", f"{theirs:.1f}")) for cell, (ours, theirs) in cells.items()]
    (HERE / "in_rust.tsv").write_text("".join(line + "\n" for line in lines))
    commit = subprocess.check_output(["git", "rev-parse", "--short=8", "HEAD"], cwd=ROOT, text=True).strip()
    ratios = [ratio(cell) for cell in cells.values()]
    more = sum(ratio < 1 for ratio in ratios)
    text = (f"At commit `{commit}` a call of the Rust crate took {min(ratios):.2f} to {max(ratios):.0f} times as many "
            f"{unit} as the same call of this one, with a geometric mean of {mean(ratios):.2f} over {len(ratios)} "
            f"cells, and fewer in {more or 'none'} of them.\n\n{table(cells)}")
    before, made = MEASURED.read_text().split(BEGIN)
    MEASURED.write_text(f"{before}{BEGIN}\n\n{text}\n{END}{made.split(END, 1)[1]}")


def ratio(cell):
    """How many times as much the Rust crate takes."""
    return cell[1] / cell[0]


def mean(ratios):
    """The geometric mean."""
    return math.exp(sum(map(math.log, ratios)) / len(ratios))


def table(cells):
    """The mean and the least ratio of each call, over the formats and sets."""
    ratios = {cell: ratio(sides) for cell, sides in cells.items()}
    groups = {}
    for cell, value in ratios.items():
        groups.setdefault("convert" if cell[1].startswith("to ") else cell[1], {})[cell] = value
    groups["all"] = ratios
    lines = ["| | mean | least | which |", "|---|---|---|---|"]
    for name, group in groups.items():
        least = min(group, key=group.get)
        operands, call, form = least
        which = f"{form} {call}" if call.startswith("to ") or name == "all" else form
        lines.append(f"| {name} | {mean(group.values()):.2f} | {group[least]:.2f} | {which}, *{operands}* |")
    return "".join(line + "\n" for line in lines)


if __name__ == "__main__":
    main()
