#!/usr/bin/env python3
"""Makes every table and figure of the speed comparisons from the measured times in this folder.

    python3 evidence/speed/figures.py            writes figures.md, and the tables of README.md here and docs/SPEED.md
    python3 evidence/speed/figures.py --check    says which file has other figures

The times are nanoseconds, in uses.tsv, rust_crate.tsv, in_rust.tsv, fastest_of_others.tsv, machines.tsv and growth.tsv.
Means are geometric. docs/SPEED.md has to quote the phrases that `phrases` and `phrases_of_speed` write.
"""

import argparse
import math
import re
import sys
from pathlib import Path

HERE = Path(__file__).resolve().parent
ROOT = HERE.parent.parent
FIGURES = HERE / "figures.md"
MEASURED = HERE / "README.md"
SPEED = ROOT / "docs" / "SPEED.md"
SETS = ("normal", "denormal")
BEGIN = "<!-- made by evidence/speed/figures.py: {} -->"
END = "<!-- end -->"


def main():
    """Writes the files, or compares them."""
    parser = argparse.ArgumentParser(description="Makes the tables of figures.")
    parser.add_argument("--check", action="store_true", help="write nothing, and say what differs")
    arguments = parser.parse_args()
    crate, others, machines = rows_of("rust_crate.tsv"), rows_of("fastest_of_others.tsv"), rows_of("machines.tsv")
    wanted = {
        FIGURES: figures(crate, others, rows_of("growth.tsv")),
        MEASURED: with_tables(MEASURED, {
            "crate": crate_summary(crate),
            "others": others_summary(others),
            "machines": machines_summary(machines),
        }),
        SPEED: with_tables(SPEED, {"uses": uses_summary(rows_of("uses.tsv"))}),
    }
    if not arguments.check:
        for path, text in wanted.items():
            path.write_text(text)
        return 0
    faults = [f"{path.relative_to(ROOT)}: run evidence/speed/figures.py" for path, text in wanted.items()
              if not path.exists() or path.read_text() != text]
    text = " ".join(SPEED.read_text().split())
    quoted = phrases(crate, others) + phrases_of_speed(rows_of("in_rust.tsv"), machines)
    faults += [f"{SPEED.relative_to(ROOT)}: lacks: {phrase}" for phrase in quoted if phrase not in text]
    print("\n".join(faults) or "figures: docs/SPEED.md quotes those of evidence/speed")
    return 1 if faults else 0


def rows_of(name):
    """The rows of a file of tab-separated columns, by the names in its first line."""
    head, *lines = (HERE / name).read_text().splitlines()
    return [dict(zip(head.split("\t"), line.split("\t"))) for line in lines]


def phrases(crate, others):
    """What docs/SPEED.md has to say."""
    first, second = [ratio(row, "crate") for row in crate], [ratio(row, "other") for row in others]
    return [
        f"{min(first):.2f} to {max(first):.0f} times as fast as the Rust crate, "
        f"with a geometric mean of {mean(first):.2f} over {len(first)} cells",
        f"in each of {len(second)} cells, it was {min(second):.2f} to {max(second):.1f} times as fast, "
        f"with a geometric mean of {mean(second):.2f}, and slower in {sum(r < 1 for r in second)} of them",
    ]


def phrases_of_speed(in_rust, machines):
    """What docs/SPEED.md has to say beside these."""
    ratios = [ratio(row, "crate") for row in in_rust]
    more = [float(row["machine"]) - float(row["plain"]) for row in machines]
    return [
        f"{mean(ratios):.2f} times as fast over {len(ratios)} cells, and slower in {sum(r < 1 for r in ratios)} of them",
        f"{min(more):.0f} to {max(more):.0f} nanoseconds more than the plain call",
    ]


def ratio(row, other):
    """How many times as long the other takes."""
    return float(row[other]) / float(row["library"])


def mean(ratios):
    """Their geometric mean."""
    return math.exp(math.fsum(map(math.log, ratios)) / len(ratios))


def table(head, rows):
    """The lines of a table."""
    return ["| " + " | ".join(head) + " |", "|---" * len(head) + "|",
            *("| " + " | ".join(row) + " |" for row in rows)]


def cells(rows, operands, shown):
    """The table of a set, a line for each operation and a column for each format."""
    formats = list(dict.fromkeys(row["format"] for row in rows))
    found = {(row["operation"], row["format"]): shown(row) for row in rows if row["operands"] == operands}
    operations = dict.fromkeys(operation for operation, _ in found)
    return table(["", *formats], [[operation, *(found.get((operation, name), "-") for name in formats)]
                                  for operation in operations])


def uses_summary(rows):
    """What users do: the times of the library, of the best of other software, and of what limits it."""
    def other(time, name):
        return f"{time} ({name})" if time != "-" else "-"

    return table(["nanoseconds", "library", "other software", "limit"],
                 [[row["use"], row["library"], other(row["peer"], row["of the peer"]),
                   other(row["limit"], row["of the limit"])] for row in rows])


def crate_summary(rows):
    """The mean of each operation's ratios, with the least and the greatest, in each set."""
    lines = []
    for operation in [*dict.fromkeys(row["operation"] for row in rows), "all"]:
        line = [operation]
        for operands in SETS:
            ratios = [ratio(row, "crate") for row in rows
                      if row["operands"] == operands and operation in (row["operation"], "all")]
            line += [f"{mean(ratios):.2f}", f"{min(ratios):.2f} to {max(ratios):.2f}"]
        lines.append(line)
    return table(["", "normal", "least to greatest", "denormal", "least to greatest"], lines)


def others_summary(rows):
    """The ratio of each cell, in both sets."""
    both = {}
    for row in rows:
        both.setdefault((row["operation"], row["format"]), []).append(f"{ratio(row, 'other'):.2f}")
    joined = [{"operands": "", "operation": operation, "format": name, "shown": " / ".join(ratios)}
              for (operation, name), ratios in both.items()]
    joined.sort(key=lambda row: ("half", "single", "double", "quad", "x87").index(row["format"]))
    order = list(dict.fromkeys(row["operation"] for row in rows))
    head, line, *body = cells(joined, "", lambda row: row["shown"])
    return [head, line, *sorted(body, key=lambda text: order.index(text.split(" | ")[0].removeprefix("| ")))]


def machines_summary(rows):
    """The times of the plain call and of that of a machine, and how many more instructions the latter takes."""
    def shown(row):
        return f"{row['plain']} / {row['machine']} ({int(row['of machine']) - int(row['instructions']):+})"

    return cells([row | {"operands": ""} for row in rows], "", shown)


def figures(crate, others, growth):
    """The text of figures.md."""
    lines = ["# Measured times", "",
             "Made by `figures.py` from the files of tab-separated columns in this folder; `README.md` says what was",
             "measured, and how. Times are nanoseconds.", ""]
    lines += [f"- {phrase}" for phrase in phrases(crate, others)]
    for operands in SETS:
        lines += ["", f"## The Rust crate and LLVM, set {operands}", "",
                  "Library / Rust crate / LLVM, and in brackets crate/library: above 1 the library is faster.", "",
                  *cells(crate, operands,
                         lambda row: f"{row['library']} / {row['crate']} / {row['llvm']} ({ratio(row, 'crate'):.2f})")]
    for operands in SETS:
        lines += ["", f"## The fastest of other libraries, set {operands}", "",
                  "Library / other, its name, and in brackets other/library: above 1 the library is faster.", "",
                  *cells(others, operands,
                         lambda row: f"{row['library']} / {row['other']} {row['name']} ({ratio(row, 'other'):.2f})")]
    lines += ["", "## How times grow", "",
              "The size of a text is its hexadecimal digits, of a remainder the difference of the exponents, of a",
              "quotient the precision.", "",
              *table(["Subject", "Type", "Size", "Time", "Time / size"],
                     [[row["subject"], row["type"], row["size"], row["nanoseconds"],
                       f"{float(row['nanoseconds']) / int(row['size']):.2f}"] for row in growth])]
    return "\n".join(lines) + "\n"


def with_tables(path, tables):
    """The text of a file with the tables between their marks."""
    text = path.read_text()
    for name, lines in tables.items():
        begin = BEGIN.format(name)
        pattern = re.escape(begin) + ".*?" + re.escape(END)
        block = "\n".join([begin, "", *lines, "", END])
        text, count = re.subn(pattern, lambda _: block, text, flags=re.DOTALL)
        if count != 1:
            sys.exit(f"{path.relative_to(ROOT)}: {count} times: {begin}")
    return text


if __name__ == "__main__":
    sys.exit(main())
