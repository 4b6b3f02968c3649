#!/usr/bin/env python3
"""Shows that each mistake with a name gives a wrong result on a row that tells it apart. It needs cargo.

    python3 evidence/mistakes.py [--jobs N] [--list] [MISTAKE..]

Each mistake is one or more edits of a crate, `crates/CRATE/must-fail/MISTAKE*.edit`, one for each way that a built-in
format takes to the result. Each edit is made in a copy of the checkout, of which cargo builds `check_vectors`, which
computes a row, a command of `vectors` or a call. It prints the mistake, the edit, the row, the right result and the
wrong one, and how many seconds that took. The right results are also computed by the model (`exact`), first of all. The
status is 1 if a result with an edit is the right one, or if there is none; --list only prints the rows.

A result "none" means that the program stopped, for example at an overflow.
"""

import argparse
import queue
import re
import subprocess
import sys
import tempfile
import time
from concurrent.futures import ThreadPoolExecutor
from itertools import cycle
from pathlib import Path

import rows
from changed_copy import TOP, built, copy_to

# A tie of the least number of half, but for a digit after forty zeros.
JUST_ABOVE_TIE = "half parse even 0x1." + "0" * 40 + "1p-25\t0001 UNDERFLOW|INEXACT"
# 2^127 + 2^103 + 1, just above the midpoint of two singles.
LONG_INTEGER = "single int even 170141193601674033557522515689509748737\t7f000001 INEXACT"

THIRD = "half div even 3c00 4200\t3555 INEXACT"
LONG_THIRD = "double div even 3ff0000000000000 4008000000000000\t3fd5555555555555 INEXACT"
PAST_LARGEST = "half add zero 7bff 4c00\t7bff INEXACT"
HALF_QUANTUM = "half mul even 0001 3800\t0000 UNDERFLOW|INEXACT"
FUSED = "half fma down 0d89 09c8 8001\t0000 UNDERFLOW|INEXACT"
CANCELLED = "half fma down 3c00 3c00 bc00\t8000 OK"
PAIRS_PAST_LARGEST = (
    "dd add even f9500000000000007fefffffffffffff 00000000000000007c90000000000000\t"
    "7c8ffffffffffffe7fefffffffffffff INEXACT"
)


def quad(top, rest=""):
    """The bits of a quad that begin and end with these digits."""
    return top + "0" * (32 - len(top) - len(rest)) + rest


def call(*columns):
    """A row of a call: its seven columns."""
    return "\t".join(columns)


def wide_fused(mode, operands, value, status):
    """A row of a fused sum in quad."""
    return call("wide_mul_add_r", "quad", mode, " ".join(operands), value, status, "-")


ONE = quad("3fff")
QUAD_THIRD = f"quad div even {ONE} {quad('40008')}\t3ffd{'5' * 28} INEXACT"
# 2^-8247 times 1.5 * 2^-8247, which is one and a half quanta, less a quantum
QUAD_FUSED = wide_fused(
    "down", (quad("1fc8"), quad("1fc88"), quad("8", "1")), quad(""), "UNDERFLOW|INEXACT"
)
# more than half a quantum by the last of 106 digits
LONG_DENORMAL = "double mul even 1e5fe4da4f6d2b35 1e500d9e65f9c0b7\t0000000000000001 UNDERFLOW|INEXACT"
QUAD_CANCELLED = wide_fused("down", (ONE, ONE, quad("bfff")), quad("8"), "OK")
QUAD_PRODUCT = call(
    "wide_mul_r", "quad", "even", f"{quad('3fff', '1')} {quad('3fff', '3')}", quad("3fff", "4"), "INEXACT", "-"
)
TO_HALF = call("convert_r", "single>half", "even", "33000001", "0001", "UNDERFLOW|INEXACT", "loses_info=true")
ABOVE_ONE = call("round_to_integral", "half", "up", "3c01", "4000", "INEXACT", "-")
LONG_ABOVE_ONE = call("round_to_integral", "quad", "up", quad("3fff", "1"), quad("4"), "INEXACT", "-")
# An inexact result of each operation.
INEXACT = {
    "sum": PAST_LARGEST,
    "product": HALF_QUANTUM,
    "wide-product": QUAD_PRODUCT,
    "quotient": THIRD,
    "fused-sum": FUSED,
    "wide-fused-sum": QUAD_FUSED,
}
STEPS = call("c_fmod_steps", "half", "-", "7bff 0001", "0000", "OK", "steps=11 bound=40")

# The crate, the edit and its row, for each mistake.
MISTAKES = {
    "fused-sum-rounds-twice": [
        ("apfloat_arithmetic", "", FUSED),
        ("apfloat_arithmetic", "-wide", QUAD_FUSED),
    ],
    "one-guard-bit-no-sticky": [
        ("apfloat_conversions", "", JUST_ABOVE_TIE),
        ("apfloat_rounding", "-kernel", JUST_ABOVE_TIE),
        ("apfloat_rounding", "-low-word", LONG_INTEGER),
        ("apfloat_rounding", "-denormal", LONG_DENORMAL),
        ("apfloat_rounding", "-short", "half mul up 3c01 3c01\t3c03 INEXACT"),
        ("apfloat_rounding", "-long", "double mul up 3ff0000000000001 3ff0000000000001\t3ff0000000000003 INEXACT"),
        ("apfloat_rounding", "-sum", "half add up 3c00 0c01\t3c01 INEXACT"),
        ("apfloat_rounding", "-quotient", "half div up 3c00 3c01\t3bff INEXACT"),
        ("apfloat_rounding", "-below", "half mul up 3c01 0003\t0004 UNDERFLOW|INEXACT"),
        ("apfloat_conversions", "-whole", ABOVE_ONE),
        ("apfloat_conversions", "-long-whole", LONG_ABOVE_ONE),
    ],
    "overflow-always-infinity": [
        ("apfloat_rounding", "", "e4m3fn int zero 480\t7e INEXACT"),
        ("apfloat_rounding", "-past-largest", PAST_LARGEST),
    ],
    "underflow-before-rounding": [
        ("apfloat_rounding", "", "half mul even 0400 3bff\t0400 INEXACT"),
        ("apfloat_rounding", "", "half div up 07fe 3fff\t0400 INEXACT"),
    ],
    "underflow-by-the-pick-before-rounding": [
        ("apfloat_rounding", "", call("mul_r", "half+ieee+before", "even", "3c01 03ff", "0400", "UNDERFLOW|INEXACT", "-"))
    ],
    "exact-zero-keeps-left-sign": [
        ("apfloat_arithmetic", "", "half sub down 3c00 3c00\t8000 OK"),
        ("apfloat_arithmetic", "-word-sum", "half sub down 3c00 3c00\t8000 OK"),
        ("apfloat_arithmetic", "-u128-sum", f"quad sub down {ONE} {ONE}\t{quad('8')} OK"),
        ("apfloat_arithmetic", "-fused-sum", CANCELLED),
        ("apfloat_arithmetic", "-wide-fused-sum", QUAD_CANCELLED),
        ("apfloat_arithmetic", "-zeros", "half add even 8000 0000\t0000 OK"),
        ("apfloat_arithmetic", "-zero-product", "half fma down 0000 3c00 8000\t8000 OK"),
    ],
    "remainder-rounds-quotient": [
        ("apfloat_arithmetic", "", "half rem even 7bff 4200\tbc00 OK"),
        ("apfloat_arithmetic", "-truncated", "half mod even 7bff 0003\t0002 OK"),
    ],
    "conversion-drops-or-rounds-twice": [("apfloat_conversions", "", TO_HALF)],
    "nan-only-overflow-ignores-sign": [
        (
            "apfloat_rounding",
            "",
            call("convert_r", "single>e4m3fn", "up", "c3f00000", "fe", "INEXACT", "loses_info=true"),
        ),
        ("apfloat_rounding", "", call("add_r", "e5m2fnuz", "up", "ff ff", "ff", "INEXACT", "-")),
    ],
    "text-refuses-everything": [
        ("apfloat_conversions", "", "half parse even 0x1.ffep+15\t7c00 OVERFLOW|INEXACT"),
        ("apfloat_conversions", "-decimal", call("read_decimal", "half", "even", "1", "3c00", "OK", "-")),
    ],
    "text-reads-32-digits": [("apfloat_conversions", "", JUST_ABOVE_TIE)],
    "text-one-refusal-for-all": [
        ("apfloat_conversions", "", "single parse even 0x1\trefused: Hex strings require an exponent")
    ],
    "one-quiet-nan-pattern": [("apfloat_rounding", "", "half add even 7e01 7d00\t7e01 INVALID_OP")],
    "quotient-rest-more-than-half": [
        ("apfloat_arithmetic", "-word", THIRD),
        ("apfloat_arithmetic", "-guessed", LONG_THIRD),
        ("apfloat_arithmetic", "-u128", QUAD_THIRD),
    ],
    "integer-always-truncates": [
        ("apfloat_conversions", "", call("to_u128_r", "single", "even", "437f8000 8", "255", "INVALID_OP", "-")),
        (
            "apfloat_conversions",
            "-minus-half-invalid",
            call("to_u128_r", "single", "zero", "bf000000 8", "0", "INEXACT", "-"),
        ),
    ],
    "always-nan-or-left-operand": [
        ("apfloat_arithmetic", f"-{operation}{result}", row)
        for (operation, row), result in zip(INEXACT.items(), cycle(("", "-nan")))
    ],
    "status-always-ok": [
        ("apfloat_rounding", "", "half parse even 0x1p-25\t0000 UNDERFLOW|INEXACT"),
        ("apfloat_rounding", "", THIRD),
        ("apfloat_rounding", "-below", HALF_QUANTUM),
        ("apfloat_rounding", "-rest", HALF_QUANTUM),
        ("apfloat_conversions", "-integral-value", ABOVE_ONE),
        *(("apfloat_arithmetic", f"-{operation}", row) for operation, row in INEXACT.items()),
    ],
    # The edit counts these subtractions without making them: on the row of the next mistake there are 2^40.
    "remainder-subtracts-divisor-itself": [
        ("apfloat_arithmetic", "", call("c_fmod_steps", "e4m3fn", "-", "7e 3f", "3e", "OK", "steps=6 bound=9"))
    ],
    "step-count-zero-or-bound": [("apfloat_arithmetic", "", STEPS)],
    "conversion-drops-payload": [
        (
            "apfloat_rounding",
            "",
            call("convert_r", "half>single", "even", "7c01", "7fc02000", "INVALID_OP", "loses_info=false"),
        )
    ],
    "pair-sum-drops-error": [
        (
            "rustc_apfloat",
            "",
            "dd add even 3ff0000000000000 3c90000000000000\t3c900000000000003ff0000000000000 INEXACT",
        ),
        ("rustc_apfloat", "-anew", PAIRS_PAST_LARGEST),
    ],
    "split-low-part-zero": [
        (
            "rustc_apfloat",
            "",
            "dd div even 3ff0000000000000 4008000000000000\t3c755555555555563fd5555555555555 INEXACT",
        )
    ],
    "command-refuses-everything": [("commands", "", "half int even 464\t5f40 OK")],
    "keeps-negative-zero": [
        ("apfloat_rounding", "", "e4m3fnuz parse even -0x1p-30\t00 UNDERFLOW|INEXACT"),
        ("apfloat_rounding", "-few-quanta", "e4m3fnuz mul even 81 30\t00 UNDERFLOW|INEXACT"),
        ("apfloat_arithmetic", "-product", "e4m3fnuz mul even 00 81\t00 OK"),
        ("apfloat_arithmetic", "-negation", call("neg", "e4m3fnuz", "-", "00", "00", "-", "-")),
        (
            "apfloat_conversions",
            "-conversion",
            call("convert_r", "half>e4m3fnuz", "even", "8000", "00", "INEXACT", "loses_info=true"),
        ),
        ("apfloat_conversions", "-next-up", call("next_up", "e4m3fnuz", "-", "81", "00", "OK", "-")),
        ("apfloat_conversions", "-text", "e4m3fnuz parse even -0x0p0\t00 OK"),
    ],
    "pair-product-drops-low-cross-term": [
        (
            "rustc_apfloat",
            "",
            "dd mul even 3c755555555555563fd5555555555555 4008000000000000\t"
            "00000000000000003ff0000000000000 INEXACT",
        )
    ],
    "pair-sum-skips-closing-step": [
        (
            "rustc_apfloat",
            "",
            "dd add even 3ca00000000000003ff0000000000000 3c80000000000000bfefffffffffffff\t"
            "00000000000000003cb2000000000000 OK",
        ),
        ("rustc_apfloat", "-anew", PAIRS_PAST_LARGEST),
    ],
}


class Fault(Exception):
    """A try that shows nothing."""


def split(row):
    """The question of a row, and its result."""
    columns = row.split("\t")
    if len(columns) == 2:
        return columns
    question, result = columns[:4], [column for column in columns[4:] if column != "-"]
    return " ".join(column for column in question if column != "-"), " ".join(result)


def edited(edit, folder):
    """The texts of the files below a crate's folder with an edit made, by their paths."""
    texts, file, old = {}, None, None
    for line in edit.read_text(encoding="utf-8").split("\n"):
        if line.startswith("file: "):
            file = folder / line.removeprefix("file: ").strip()
            texts.setdefault(file, file.read_text(encoding="utf-8"))
        elif line.startswith("old: "):
            old = line.removeprefix("old: ")
        elif line.startswith("new:"):
            if texts[file].count(old) != 1:
                raise Fault(f"an old text stands {texts[file].count(old)} times in its file: {old.strip()}")
            texts[file] = texts[file].replace(old, line.removeprefix("new:").removeprefix(" "))
    return texts


def computed(program, row):
    """What `check_vectors` computes for a row."""
    ran = subprocess.run([program], input=row + "\n", capture_output=True, text=True, errors="replace", check=False)
    found = re.search(r"^  given: (.*)$", ran.stdout, re.MULTILINE)
    if found:
        return " ".join(word for word in found.group(1).split("\t") if word != "-")
    if "1 rows agree, 0 differ" in ran.stdout:
        return split(row)[1]
    # 101 is the status of a panic, as at an overflow.
    if ran.returncode == 101:
        return "none"
    raise Fault("check_vectors gave no result:\n" + (ran.stdout + ran.stderr)[-1500:])


def tried(copies, mistake, crate, suffix, row):
    """The result of a row with an edit made, or the fault of the try; and the seconds that it took."""
    edit = TOP / "crates" / crate / "must-fail" / f"{mistake}{suffix}.edit"
    begun = time.monotonic()
    copy = copies.get()
    kept = {}
    try:
        for file, text in edited(edit, copy / "crates" / crate).items():
            kept[file] = file.read_text(encoding="utf-8")
            file.write_text(text, encoding="utf-8")
        program, said = built(copy, "check_vectors")
        if program is None:
            raise Fault("cargo built no check_vectors:\n" + said[-1500:])
        result = computed(program, row)
    except (Fault, OSError) as fault:
        result = fault
    finally:
        for file, text in kept.items():
            file.write_text(text, encoding="utf-8")
        copies.put(copy)
    return result, time.monotonic() - begun


def without_rows(names):
    """The edits of these mistakes that have no row."""
    listed = {f"{crate}/{name}{suffix}" for name in names for crate, suffix, _ in MISTAKES[name]}
    for name in names:
        for edit in sorted(TOP.glob(f"crates/*/must-fail/{name}*.edit")):
            if f"{edit.parts[-3]}/{edit.stem}" not in listed:
                yield f"{edit.parts[-3]}/{edit.stem}"


def main():
    """Tries the edits, and prints a table."""
    parser = argparse.ArgumentParser(description=__doc__, formatter_class=argparse.RawDescriptionHelpFormatter)
    parser.add_argument("mistakes", nargs="*", metavar="MISTAKE")
    parser.add_argument("--jobs", type=int, default=1, help="how many copies are used at the same time")
    parser.add_argument("--list", action="store_true", help="only print the rows")
    words = parser.parse_args()
    unknown = [name for name in words.mistakes if name not in MISTAKES]
    if unknown:
        parser.error(f"no such mistake: {unknown[0]}")
    names = words.mistakes or list(MISTAKES)
    tries = [(name, *one) for name in names for one in MISTAKES[name]]
    failed = 0
    for row in dict.fromkeys(row for *_, row in tries):
        if rows.answered(row) != row:
            failed += 1
            print(f"the model has another result: {rows.answered(row)}")
    for edit in without_rows(names):
        failed += 1
        print(f"{edit}: no row")
    if words.list:
        for name, crate, suffix, row in tries:
            print(" | ".join([name, f"{crate}{suffix}", *split(row)]))
        return 1 if failed else 0
    with tempfile.TemporaryDirectory(prefix="mistakes-") as room:
        copies = queue.Queue()
        for number in range(words.jobs):
            copies.put(Path(room) / str(number))
            copy_to(Path(room) / str(number))
        with ThreadPoolExecutor(words.jobs) as pool:
            results = pool.map(lambda one: tried(copies, *one), tries)
            print("mistake | crate and way | row | right | wrong | seconds")
            for (name, crate, suffix, row), (result, seconds) in zip(tries, results, strict=True):
                question, right = split(row)
                is_shown = not isinstance(result, Fault | OSError) and result != right
                failed += not is_shown
                mark = "" if is_shown else " | NOT SHOWN"
                print(f"{name} | {crate}{suffix} | {question} | {right} | {result} | {seconds:.0f}{mark}", flush=True)
    print(f"{len(tries)} edits of {len(names)} mistakes, {failed} failed")
    return 1 if failed else 0


if __name__ == "__main__":
    sys.exit(main())
