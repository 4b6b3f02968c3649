#!/usr/bin/env python3
"""Times what users do, in turn with the best of other software and with the processor, and prints a table.

    python3 evidence/speed/uses.py LIBRARY.a [--program CONVERT_VALUES] [--rounds N] [--store]

LIBRARY.a is the library for C, as `rt lib` or cargo builds it. It needs g++, clang with compiler-rt, and MPFR. With the
program convert_values, a file of 10^8 singles is converted too, in turn with a copy of it. --store puts the times, in
nanoseconds, into uses.tsv, of which figures.py makes the table in docs/SPEED.md. Run it on a quiet machine.
"""

import argparse
import array
import random
import subprocess
import sys
import tempfile
import time
from pathlib import Path

HERE = Path(__file__).resolve().parent
ROOT = HERE.parent.parent
LIMITS = ("processor", "copy")
VALUES = 10 ** 8


def main():
    """Builds the program, runs it, and prints what it measured."""
    parser = argparse.ArgumentParser(description="Times what users do.")
    parser.add_argument("library", type=Path, help="the library for C, a static one")
    parser.add_argument("--program", type=Path, help="the program convert_values")
    parser.add_argument("--rounds", type=int, default=2000)
    parser.add_argument("--store", action="store_true", help="put the times into uses.tsv")
    arguments = parser.parse_args()
    with tempfile.TemporaryDirectory(dir="/dev/shm") as name:
        times = calls(Path(name), arguments.library, arguments.rounds)
        if arguments.program:
            for target in ("e4m3fn", "half"):
                times[f"stream of singles to {target}, N(0, 1)"] = stream(Path(name), arguments.program, target)
    text = "use\tlibrary\tpeer\tof the peer\tlimit\tof the limit\n" + "".join(map(line, times, times.values()))
    print(text, end="")
    if arguments.store:
        (HERE / "uses.tsv").write_text(text)


def calls(folder, library, rounds):
    """The times of each side, by use, of calls and of arrays."""
    program = folder / "uses_bench"
    resources = subprocess.run(["clang", "-print-resource-dir"], capture_output=True, text=True, check=True).stdout
    builtins = Path(resources.strip()) / "lib" / "linux" / "libclang_rt.builtins-x86_64.a"
    subprocess.run(["g++", "-std=c++17", "-O2", f"-I{ROOT / 'include'}", HERE / "uses_bench.cpp", library, builtins,
                    "-lmpfr", "-lm", "-o", program], check=True)
    said = subprocess.run([program, str(rounds)], capture_output=True, text=True, check=True).stdout
    times = {}
    for use, side, nanoseconds in (line.split("\t") for line in said.splitlines()):
        times.setdefault(use, {})[side] = float(nanoseconds)
    return times


def stream(folder, program, target):
    """The times of a value of each side, for a file of singles that are normally distributed with deviation 1."""
    source = folder / "singles"
    if not source.exists():
        draw = random.Random("singles")
        some = array.array("f", (draw.gauss(0, 1) for _ in range(VALUES // 100))).tobytes()
        with open(source, "wb") as file:
            for _ in range(100):
                file.write(some)
    sides = {"library": [program, "single", target, "even"], "copy": ["cat"]}
    least = {}
    for _ in range(5):
        for side, command in sides.items():
            with open(source, "rb") as file, open(folder / "made", "wb") as made:
                begun = time.monotonic()
                subprocess.run(command, stdin=file, stdout=made, stderr=subprocess.DEVNULL, check=True)
                least[side] = min(time.monotonic() - begun, least.get(side, float("inf")))
    return {side: seconds * 1e9 / VALUES for side, seconds in least.items()}


def line(use, sides):
    """The line of a use: the fastest of its peers, and of what limits it."""
    peers = {side: time for side, time in sides.items() if side != "library" and side not in LIMITS}
    limits = {side: time for side, time in sides.items() if side in LIMITS}
    columns = [use, f"{sides['library']:.2f}"]
    for others in (peers, limits):
        name = min(others, key=others.get, default="-")
        columns += [f"{others[name]:.2f}" if others else "-", name]
    return "\t".join(columns) + "\n"


if __name__ == "__main__":
    sys.exit(main())
