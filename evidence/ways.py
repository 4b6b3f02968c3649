#!/usr/bin/env python3
"""Shows that each built-in format meets an edit of each mistake on its way to each result that it would spoil.

    python3 evidence/ways.py [--functions] [MISTAKE..]

A mistake with a name (`mistakes.py`) spoils the results of some operations. For each of them and each built-in format,
the model searches operands whose result is of the kind that the mistake is about, such as an inexact denormal one.
`check_vectors`, built by cargo without optimization from a copy in which no function becomes part of another one,
computes these rows under callgrind, which says which lines each row enters. One of them has to be a line that an edit
of the mistake changes. A line of the table has the mistake, the operation with the kind of its result, the formats, and
the edits on their way, or the reason for which there is no such result.

Of a mistake in `DECIDES`, each function that only some formats enter and whose contract speaks of what the mistake is
about also needs an edit, or calls one that has it. Edits of `evidence/wrong_bodies` count here, and are marked.

The status is 1 if a way or a function has no edit, or if the copy computes other results than the model. With
--functions each line is followed by how many functions all formats enter, and by those that only its formats do.

It needs cargo, valgrind, and two minutes of a processor.
"""

import argparse
import bisect
import itertools
import os
import re
import subprocess
import sys
import tempfile
from collections import defaultdict
from fractions import Fraction
from functools import cache, partial
from pathlib import Path
from typing import NamedTuple

from exact import calls, formats
from exact.bits import encoded
from exact.data import Finite, qnan, snan

TOP = Path(__file__).resolve().parent.parent
COPY = TOP / "target" / "ways"
BUILT_IN = (*formats.PROGRAM_FORMATS, *formats.LATER_FORMATS)

# What a contract of a function says that can make a mistake, and why those that have no edit cannot.
DECIDES = {"one-guard-bit-no-sticky": r"IsRoundedToOdd|StandsFor|IsCut |loss_at|IsPicked"}
WITHOUT = {
    "apfloat_rounding::rounding::from_word::odd_for": "the edit of `in_word` passes it no loss",
}


class Question(NamedTuple):
    """A call with its operands, and the operation and the format that it stands for."""

    operation: str
    format: str
    call: str
    kind: str
    mode: str
    operands: str

    @property
    def answer(self):
        """What the model answers."""
        return calls.answered(self.call, self.kind, self.mode, self.operands)

    @property
    def row(self):
        """The row of the call."""
        answer = self.answer
        more = " ".join(f"{name}={value}" for name, value in answer.more) or "-"
        return "\t".join([self.call, self.kind, self.mode, self.operands, answer.value, answer.flags, more])


# What results are of a kind: by the answers in each mode. The first word is the mode of the row.


def is_rounded_up(of, flags):
    """Whether a result has these flags and a rest of less than half."""
    return of("up").flags in flags and of("even").value == of("down").value != of("up").value


KINDS = {
    "inexact": ("up", lambda of, f: is_rounded_up(of, ("INEXACT",))),
    "denormal": ("up", lambda of, f: is_rounded_up(of, ("UNDERFLOW|INEXACT",))),
    "past all values": ("zero", lambda of, f: (of("zero").flags, of("even").flags) == ("INEXACT", "OVERFLOW|INEXACT")),
    "past the largest": (
        "zero",
        lambda of, f: (of("zero").flags, of("even").flags, of("up").flags)
        == ("INEXACT", "INEXACT", "OVERFLOW|INEXACT"),
    ),
    "normal by rounding": (
        "even",
        lambda of, f: (of("even").flags, of("even").value) == ("INEXACT", word(f, f.smallest_normalized))
        and of("down").value != of("even").value,
    ),
    "tiny before rounding": (
        "even",
        lambda of, f: (of("even").flags, of("even").value)
        == ("UNDERFLOW|INEXACT", word(f, f.smallest_normalized)),
    ),
}


def word(f, quanta, negative=False):
    """The bits of so many quanta, in hexadecimal digits."""
    return f"{encoded(f, Finite(negative, quanta)):0{f.hexadecimal_digits}x}"


def held(f, value):
    """The bits of a positive fraction, if it is a value of the format."""
    quanta = value * 2**f.scale
    if quanta.denominator != 1 or not 0 < quanta <= f.largest:
        return None
    quanta = int(quanta)
    return word(f, quanta) if quanta.bit_length() - (quanta & -quanta).bit_length() < f.precision else None


def two(exponent):
    """A power of two."""
    return Fraction(2) ** exponent


def values(f):
    """Some positive values of a format, as bits."""
    last = two(1 - f.precision)
    least, normal, largest = two(-f.scale), f.smallest_normalized * two(-f.scale), f.largest * two(-f.scale)
    chosen = [1, 1 + last, 2, 3, Fraction(3, 2), 1 - last / 2, Fraction(1, 2), Fraction(3, 4), normal,
              normal * (1 + last), normal * (2 - last), normal - least, 3 * least, least, largest,
              two(f.greatest_exponent - 1) * (1 + last)]
    return [bits for bits in (held(f, Fraction(value)) for value in chosen) if bits]


def near_sums(f):
    """Addends whose digits overlap in part, one of which is long."""
    last = two(1 - f.precision)
    top, largest = two(f.greatest_exponent), f.largest * two(-f.scale)
    return pairs(f, [(1, last / 4 * (1 + last)), (largest, largest), (largest, top * last / 4)])


def far_sums(f):
    """Addends of which one is below the last digit of the other."""
    return pairs(f, [(1, two(-f.scale)), (f.largest * two(-f.scale), two(-f.scale))])


def pairs(f, chosen):
    """Two operands each, if both are values of the format."""
    for one, other in chosen:
        words = held(f, Fraction(one)), held(f, Fraction(other))
        if all(words):
            yield " ".join(words)


def converted(f, g):
    """Values of the format g near the limits of the format f, and others that it does not have."""
    last, finer = two(1 - f.precision), two(1 - g.precision)
    normal, least = f.smallest_normalized * two(-f.scale), two(-f.scale)
    largest, top = f.largest * two(-f.scale), two(f.greatest_exponent)
    chosen = [1 + last / 4, 1 + finer, 1 + last / 8,
              normal / 2 * (1 + finer), normal / 2 + least / 4, normal / 2 + least / 8, least * (1 + finer),
              least * Fraction(5, 4), normal - least / 4, normal - least / 8, least / 2, least / 4,
              2 * top, top * 4, largest + top * last / 4, g.largest * two(-g.scale), two(-g.scale)]
    return [bits for bits in (held(g, Fraction(value)) for value in chosen) if bits]


def integers(f):
    """Short integers."""
    for place in sorted({min(f.greatest_exponent, limit) for limit in (60, f.precision + 2)}, reverse=True):
        yield from (str((1 << place) + rest) for rest in (1, 3, 2, 5) if place < 61)
    if f.greatest_exponent < 60:
        yield str(3 << f.greatest_exponent)


def long_integers(f):
    """Integers of up to 128 bits, for which the format may be too small."""
    place = min(f.greatest_exponent, 127)
    yield str((1 << place) + 1)
    yield str((1 << place) + (1 << max(place - f.precision - 1, 0)))
    yield str((1 << 128) - 1)
    yield str((f.largest >> f.scale) + 1 if f.greatest_exponent < 128 else 0)


def texts(f, zeros):
    """Hexadecimal texts, with as many digits of zero before the last one."""
    last = two(1 - f.precision)
    normal, least, largest = f.smallest_normalized * two(-f.scale), two(-f.scale), f.largest * two(-f.scale)
    top = two(f.greatest_exponent)
    for value in (1 + last / 4, normal / 2 + least / 4, normal - least / 4, 4 * top, largest + top * last / 4):
        exponent = value.denominator.bit_length() - 1
        digits, exponent = (value.numerator, -exponent) if exponent else (value.numerator, 0)
        yield f"0x{digits:x}{'0' * zeros}1p{exponent - 4 * zeros - 4}" if zeros else f"0x{digits:x}p{exponent}"


def decimals(f, is_long):
    """Decimal texts."""
    least, normal = two(-f.scale), f.smallest_normalized * two(-f.scale)
    near = [normal - least / 4, normal / 2 + least / 4, 4 * two(f.greatest_exponent)]
    texts = ["0.1", "0.3", "1.1", "1.3", "2.7", "1.7", "2.1", *(in_decimal(f, value) for value in near)]
    for text in texts:
        digits, _, exponent = text.partition("e")
        if is_long:
            digits += ("" if "." in digits else ".") + "0" * 60 + "1"
        yield f"{digits}e{exponent}" if exponent else digits


def in_decimal(f, value):
    """A positive fraction in some more digits than tell values of the format apart."""
    count = f.precision * 30103 // 100000 + 4
    exponent = (value.numerator.bit_length() - value.denominator.bit_length()) * 30103 // 100000 - count
    return f"{round(value / Fraction(10) ** exponent)}e{exponent}"


def products_of(f, count):
    """Operands from the values of a format."""
    return (" ".join(chosen) for chosen in itertools.product(values(f), repeat=count))


def scaled(f):
    """Values and powers of two."""
    normal = f.smallest_normalized * two(-f.scale)
    last = two(1 - f.precision)
    for value in (1 + last, 2 - last, normal * (1 + last), normal * (2 - last)):
        bits = held(f, value)
        for exponent in (f.least_exponent - 1, -1, -2, -f.precision + 1, f.greatest_exponent + 1):
            yield f"{bits} {exponent}"


# The operations: the call, and the operands to choose from.
OPERATIONS = {
    "near sum": ("add_r", near_sums),
    "far sum": ("add_r", far_sums),
    "product": ("mul_r", lambda f: products_of(f, 2) if f.precision <= 64 else ()),
    "wide product": ("wide_mul_r", lambda f: products_of(f, 2)),
    "quotient": ("div_r", lambda f: products_of(f, 2)),
    "root": ("sqrt_r", lambda f: products_of(f, 1)),
    "fused sum": ("mul_add_r", lambda f: products_of(f, 3) if f.precision <= 63 else ()),
    "wide fused sum": ("wide_mul_add_r", lambda f: products_of(f, 3)),
    "scaling": ("scale_b", scaled),
    "integer": ("from_u128_r", integers),
    "long integer": ("from_u128_r", long_integers),
    "text": ("from_str_r", lambda f: texts(f, 0)),
    "long text": ("from_str_r", lambda f: texts(f, 40)),
    "decimal": ("read_decimal", lambda f: decimals(f, False)),
    "long decimal": ("read_decimal", lambda f: decimals(f, True)),
    "integral value": ("round_to_integral", lambda f: products_of(f, 1)),
}

SUMS, PRODUCTS, FUSED = ("near sum", "far sum"), ("product", "wide product"), ("fused sum", "wide fused sum")
TEXTS = ("text", "long text", "decimal", "long decimal")
INTEGERS = ("integer", "long integer")
ARITHMETIC = (*SUMS, *PRODUCTS, "quotient", *FUSED)
BELOW = (*PRODUCTS, "quotient", *FUSED, "scaling", *TEXTS, "conversion")
BELOW_IN_IEEE = tuple(name for name in BELOW if not name.endswith("decimal"))
ROUNDED = (*ARITHMETIC, "root", *INTEGERS, *TEXTS, "integral value", "conversion")
ROUNDINGS = [(ROUNDED, "inexact"), (BELOW, "denormal")]
PAST = [
    (("near sum", *PRODUCTS, "quotient", *FUSED, "scaling", *INTEGERS, *TEXTS, "conversion"), "past all values"),
    ((*SUMS, *FUSED, "text", "conversion"), "past the largest"),
]
# The operations and the kinds of results that each mistake spoils.
SPOILED = {
    "fused-sum-rounds-twice": [(FUSED, "inexact"), (FUSED, "denormal")],
    "one-guard-bit-no-sticky": ROUNDINGS,
    "overflow-always-infinity": PAST,
    "underflow-before-rounding": [(BELOW, "normal by rounding")],
    "underflow-by-the-pick-before-rounding": [(BELOW_IN_IEEE, "tiny before rounding")],
    "text-reads-32-digits": [(("long text",), "inexact"), (("long text",), "denormal")],
    "quotient-rest-more-than-half": [(("quotient",), "inexact"), (("quotient",), "denormal")],
    "always-nan-or-left-operand": [(ARITHMETIC, "inexact")],
    "status-always-ok": [*ROUNDINGS, *PAST],
    "conversion-drops-or-rounds-twice": [(("conversion",), "inexact"), (("conversion",), "denormal")],
}


def why_absent(f, operation, kind):
    """Why an operation has no result of a kind in a format, if that is so."""
    if operation == "product" and f.precision > 64 or operation == "fused sum" and f.precision > 63:
        return "only the wide call takes so many digits"
    if operation == "integer" and kind == "inexact" and f.precision > 60:
        return "short integers are exact"
    if operation in INTEGERS and kind == "past all values":
        return "integers have at most 128 bits"
    if operation == "conversion":
        return "no built-in format has such values"
    return None


def chosen_rows(f, name, kind):
    """The rows of an operation in a format, the results of which are of a kind."""
    mode, is_of_kind = KINDS[kind]
    if name == "conversion":
        asked = [(f"conversion from {g.name}", "convert_r", f"{g.name}>{f.name}", converted(f, g))
                 for g in BUILT_IN if g is not f]
    else:
        call, operands = OPERATIONS[name]
        asked = [(name, call, f.name, operands(f))]
    for operation, call, form, candidates in asked:
        for operands in candidates:
            of = cache(partial(in_mode, call, form, operands))
            if is_of_kind(of, f):
                yield Question(f"{operation}, {kind}", f.name, call, form, mode, operands)
                break


def in_mode(call, form, operands, mode):
    """What a call answers in a mode."""
    return calls.answered(call, form, mode, operands)


# Mistakes about certain operands: the operation, the call, the mode and the operands, in a format.


def exact_zeros(f):
    """Sums that are exactly zero, whose left operand has the other sign."""
    if not f.has_negative_zero:
        return "zeros have no sign"
    zero, minus_zero, one, minus_one = word(f, 0), word(f, 0, True), bits_of(f, 1), bits_of(f, -1)
    fused = ["wide_mul_add_r", *(["mul_add_r"] if f.precision <= 63 else [])]
    return [("difference", "sub_r", f.name, "down", f"{one} {one}"),
            ("zeros", "add_r", f.name, "even", f"{minus_zero} {zero}"),
            *((call, call, f.name, "down", f"{one} {one} {minus_one}") for call in fused),
            *((f"{call}, zero product", call, f.name, "down", f"{zero} {one} {minus_zero}") for call in fused)]


def remainders(f):
    """Remainders of long quotients."""
    operands = f"{word(f, f.largest)} {word(f, 3)}"
    return [(call, call, f.name, "-", operands) for call in ("ieee_rem", "c_fmod")]


def counted_remainders(f):
    """Remainders whose steps are counted."""
    return [("c_fmod", "c_fmod_steps", f.name, "-", f"{word(f, f.largest)} {word(f, 3)}")]


def negative_overflows(f):
    """Results below all values, where the mode rounds up."""
    if f.has_infinity:
        return "has infinities"
    largest, minus = word(f, f.largest), word(f, f.largest, True)
    return [("sum", "add_r", f.name, "up", f"{minus} {minus}"),
            ("product", "mul_r", f.name, "up", f"{minus} {largest}"),
            ("wide product", "wide_mul_r", f.name, "up", f"{minus} {largest}"),
            ("quotient", "div_r", f.name, "up", f"{minus} {word(f, 1)}"),
            ("wide fused sum", "wide_mul_add_r", f.name, "up", f"{minus} {largest} {minus}"),
            ("text", "from_str_r", f.name, "up", "-0x1p9999"), ("decimal", "read_decimal", f.name, "up", "-1e9999"),
            ("scaling", "scale_b", f.name, "up", f"{minus} 5"), ("integer", "from_i128_r", f.name, "up", "-99999999"),
            *(("conversion", "convert_r", f"{g.name}>{f.name}", "up", word(g, g.largest, True))
              for g in (formats.SINGLE, formats.DOUBLE, formats.X87, formats.QUAD))]


def accepted_texts(f):
    """Texts that are read."""
    return [("text", "from_str_r", f.name, "even", "0x1.8p0"), ("decimal", "read_decimal", f.name, "even", "0.1"),
            ("infinity", "from_str_r", f.name, "even", "-inf"), ("NaN", "from_str_r", f.name, "even", "nan")]


def refused_texts(f):
    """Texts that are refused for different faults."""
    return [("text", "from_str_r", f.name, "even", "0x1"), ("decimal", "read_decimal", f.name, "even", "0x1")]


def payloads(f):
    """NaNs with a payload."""
    if not f.has_infinity:
        return "has no payloads"
    bits = f"{encoded(f, qnan(f, f.quiet_bit >> 1)):0{f.hexadecimal_digits}x}"
    return [("bits", "to_bits", f.name, "-", bits), ("sum", "add_r", f.name, "even", f"{bits} {bits_of(f, 1)}")]


def converted_payloads(f):
    """NaNs with a payload that the format keeps."""
    if not f.has_infinity:
        return "has no payloads"
    return [(f"conversion from {g.name}", "convert_r", f"{g.name}>{f.name}", "even",
             f"{encoded(g, snan(g, g.quiet_bit >> 1)):0{g.hexadecimal_digits}x}")
            for g in BUILT_IN if g.has_infinity and g is not f]


def whole_numbers(f):
    """Conversions to integers that do not round toward zero."""
    value, minus_half = bits_of(f, Fraction(3, 2)), bits_of(f, Fraction(-1, 2))
    return [("unsigned", "to_u128_r", f.name, "up", f"{value} 8"), ("signed", "to_i128_r", f.name, "up", f"{value} 8"),
            ("minus half", "to_u128_r", f.name, "zero", f"{minus_half} 8"),
            ("integral value", "round_to_integral", f.name, "up", value)]


def negative_zeros(f):
    """Results that would be a negative zero."""
    if f.has_negative_zero:
        return "has a negative zero"
    zero, minus, one, largest = word(f, 0), word(f, 1, True), bits_of(f, 1), word(f, f.largest)
    half = bits_of(f, Fraction(1, 2))
    return [("text", "from_str_r", f.name, "even", "-0x0p0"), ("small text", "from_str_r", f.name, "even", "-0x1p-99"),
            ("decimal", "read_decimal", f.name, "even", "-0.0"),
            ("small decimal", "read_decimal", f.name, "even", "-1e-99"),
            ("product", "mul_r", f.name, "even", f"{zero} {minus}"),
            ("small product", "mul_r", f.name, "even", f"{minus} {half}"),
            ("wide product", "wide_mul_r", f.name, "even", f"{zero} {minus}"),
            ("small wide product", "wide_mul_r", f.name, "even", f"{minus} {half}"),
            ("quotient", "div_r", f.name, "even", f"{zero} {minus}"),
            ("small quotient", "div_r", f.name, "even", f"{minus} {largest}"),
            ("sum", "add_r", f.name, "down", f"{one} {bits_of(f, -1)}"),
            ("fused sum", "mul_add_r", f.name, "down", f"{one} {one} {bits_of(f, -1)}"),
            ("small fused sum", "mul_add_r", f.name, "even", f"{minus} {minus} {zero}"),
            ("wide fused sum", "wide_mul_add_r", f.name, "down", f"{one} {one} {bits_of(f, -1)}"),
            ("zero product", "mul_add_r", f.name, "down", f"{zero} {minus} {zero}"),
            ("remainder", "ieee_rem", f.name, "-", f"{bits_of(f, -1)} {one}"),
            ("truncated remainder", "c_fmod", f.name, "-", f"{bits_of(f, -1)} {one}"),
            ("negation", "neg", f.name, "-", zero), ("sign", "copy_sign", f.name, "-", f"{zero} {minus}"),
            ("scaling", "scale_b", f.name, "even", f"{minus} -9"),
            ("integral value", "round_to_integral", f.name, "even", minus),
            ("neighbour", "next_up", f.name, "-", minus),
            *((f"conversion of {name}", "convert_r", f"{g.name}>{f.name}", "even", word(g, quanta, True))
              for g in (formats.HALF, formats.SINGLE, formats.DOUBLE, formats.X87, formats.QUAD)
              for name, quanta in (("zero", 0), ("a small value", 1)))]


SPECIAL = {
    "exact-zero-keeps-left-sign": exact_zeros,
    "remainder-rounds-quotient": remainders,
    "remainder-subtracts-divisor-itself": counted_remainders,
    "step-count-zero-or-bound": counted_remainders,
    "nan-only-overflow-ignores-sign": negative_overflows,
    "text-refuses-everything": accepted_texts,
    "text-one-refusal-for-all": refused_texts,
    "one-quiet-nan-pattern": payloads,
    "conversion-drops-payload": converted_payloads,
    "integer-always-truncates": whole_numbers,
    "keeps-negative-zero": negative_zeros,
}


def bits_of(f, value):
    """The bits of a number that the format has."""
    return word(f, int(abs(value) * 2**f.scale), value < 0)


def questions(mistake):
    """The questions of a mistake, and why some formats have none, by format and operation."""
    asked, absent = [], {}
    for f in BUILT_IN:
        if mistake == "underflow-by-the-pick-before-rounding":
            if not f.has_infinity or f in formats.LATER_FORMATS:
                absent[f.name, "all"] = "does not exist with the flags of IEEE 754"
                continue
            f = formats.FORMATS[f.name + "+ieee+before"]
        for operations, kind in SPOILED.get(mistake, ()):
            for name in operations:
                rows = list(chosen_rows(f, name, kind))
                asked += rows
                if not rows:
                    absent[f.name, f"{name}, {kind}"] = why_absent(f, name, kind)
        if mistake in SPECIAL:
            rows = SPECIAL[mistake](f)
            if isinstance(rows, str):
                absent[f.name, "all"] = rows
            else:
                asked += [Question(name, f.name, *question) for name, *question in rows]
    return asked, absent


def changed_lines(edit, folder):
    """The files and lines of a crate that an edit changes."""
    for line in edit.read_text(encoding="utf-8").split("\n"):
        if line.startswith("file: "):
            file = folder / line.removeprefix("file: ").strip()
            path = f"{folder.name}/{file.relative_to(folder / 'src').with_suffix('')}"
        elif line.startswith("old: "):
            old = line.removeprefix("old: ")
            if not old.strip().startswith(("///", "ghost use", "use ")):
                number = file.read_text(encoding="utf-8").split(old)[0].count("\n") + 1
                yield from ((path, one) for one in lines_of_expression(file, number))


def edits_of(mistake):
    """The edits of a mistake, and the lines that they change."""
    return {edit.stem: set(changed_lines(edit, edit.parents[1]))
            for edit in sorted(TOP.glob(f"crates/*/must-fail/{mistake}*.edit"))}


@cache
def edited_functions():
    """The edits in each function, those of `evidence/wrong_bodies` with a mark."""
    edits = defaultdict(set)
    for edit in TOP.glob("crates/*/must-fail/*.edit"):
        for place in changed_lines(edit, edit.parents[1]):
            edits[function_at(*place)].add(edit.stem)
    for edit in TOP.glob("evidence/wrong_bodies/*/*.edit"):
        for place in changed_lines(edit, TOP / "crates" / edit.parent.name):
            edits[function_at(*place)].add(f"{edit.stem} (wrong_bodies)")
    return edits


def lines_of_expression(file, line):
    """A line, and those above it back to the call or the value that it is a part of."""
    text, lines = [""] + file.read_text(encoding="utf-8").split("\n"), {line}
    while re.fullmatch(r"\s+[^=]*,", text[line]):
        line -= 1
        lines.add(line)
    return lines


@cache
def text_of(path):
    """The lines of a file by its crate and modules."""
    crate, _, module = path.partition("/")
    return (TOP / "crates" / crate / "src" / f"{module}.rt").read_text(encoding="utf-8").split("\n")


@cache
def functions_in(path):
    """The lines at which functions of a file begin, and their names."""
    head = re.compile(r"\s*(?:pub(?:\([^)]*\))? )?(?:const )?fn (\w+)")
    found = ((number, head.match(line)) for number, line in enumerate(text_of(path), 1))
    return [(number, match[1]) for number, match in found if match]


@cache
def function_at(path, line):
    """The function that a line is in."""
    starts = functions_in(path)
    at = bisect.bisect_right(starts, (line, "\uffff")) - 1
    return f"{path.replace('/', '::')}::{starts[at][1]}" if at >= 0 else path


def contract_and_body(path, line):
    """What a function ensures, and its body, by a line in it."""
    starts = [start for start, _ in functions_in(path)]
    at = bisect.bisect_right(starts, line)
    end = starts[at] - 1 if at < len(starts) else None
    head, _, body = "\n".join(text_of(path)[starts[at - 1] - 1:end]).partition("\n{\n")
    return head[head.find("ensures"):] if "ensures" in head else "", body.split("\n}")[0]


# What the eraser of the copy does with what it leaves out, so that all lines keep their numbers.
KEPT_LINES = [
    ("rust/erase/walk.rs", "Some(new) if new.is_empty() => lines.leave_out(),", """Some(new) if new.is_empty() => {
                lines.leave_out();
                lines.space(&"\\n".repeat(token.text.matches('\\n').count()));
            }"""),
    ("rust/erase/lines.rs", "if self.line.trim().is_empty() {", """if self.line.trim().is_empty() {
            self.text.push('\\n');
            return;
        }
        if false {"""),
    ("rust/erase/lines.rs", "let is_open = !self.line.trim().is_empty();", """if self.line.is_empty() {
            return self.text;
        }
        let is_open = !self.line.trim().is_empty();"""),
]


def made():
    """The copy, in which no function asks to be part of its callers, and erased lines keep their numbers."""
    for source in (*TOP.glob("rust/**/*"), TOP / "Cargo.toml", TOP / "Cargo.lock", *TOP.glob("crates/*/src/**/*.rt")):
        if source.is_file() and "target" not in source.parts[len(TOP.parts):]:
            text, name = never_inline(source.read_text(encoding="utf-8")), str(source.relative_to(TOP))
            for file, old, changed in KEPT_LINES:
                if file == name:
                    if text.count(old) != 1:
                        sys.exit(f"ways.py: the eraser has no one line: {old}")
                    text = text.replace(old, changed)
            write(COPY / name, text)


def never_inline(text):
    """A text in which no function asks to be part of its callers."""
    return text.replace("#[inline(always)]", "#[inline(never)]")


def write(file, text):
    """Writes a file, if it has another text: what is as old as its build is not built again."""
    file.parent.mkdir(parents=True, exist_ok=True)
    if not file.exists() or file.read_text(encoding="utf-8") != text:
        file.write_text(text, encoding="utf-8")


def built():
    """The program `check_vectors` of the copy, or what cargo says."""
    environment = os.environ | {"CARGO_TARGET_DIR": str(COPY / "target"), "CARGO_PROFILE_DEV_DEBUG": "line-tables-only"}
    command = ["cargo", "build", "--quiet", "--offline", "-p", "programs", "--bin", "check_vectors"]
    ran = subprocess.run(command, cwd=COPY, env=environment, capture_output=True, text=True, check=False)
    if ran.returncode:
        sys.exit(f"ways.py: cargo failed:\n{ran.stderr}")
    for source in COPY.glob("crates/*/src/**/*.rt"):
        crate, _, *path = source.relative_to(COPY / "crates").parts
        for erased in COPY.glob(f"target/debug/build/programs-*/out/{crate}/{Path(*path).with_suffix('.rs')}"):
            # A crate's root has more lines at its end.
            if erased.read_text(encoding="utf-8").count("\n") < source.read_text(encoding="utf-8").count("\n"):
                sys.exit(f"ways.py: the eraser leaves out lines of {'/'.join((crate, *path))}")
    return COPY / "target" / "debug" / "check_vectors"


def walked(program, rows):
    """The lines of the library's crates that each row enters: a set of files and lines for each row."""
    with tempfile.TemporaryDirectory(prefix="ways-") as name:
        folder = Path(name)
        (folder / "rows").write_text("".join(f"{row}\n" for row in rows), encoding="utf-8")
        checked = subprocess.run([program, folder / "rows"], capture_output=True, text=True, check=False)
        if checked.returncode:
            sys.exit(f"ways.py: the copy computes other results:\n{checked.stdout}{checked.stderr}")
        ran = subprocess.run(
            ["valgrind", "-q", "--tool=callgrind", "--compress-pos=no", "--compress-strings=no",
             "--dump-before=check_vectors::check::Check::take_row", f"--callgrind-out-file={folder / 'walked'}",
             program, folder / "rows"],
            capture_output=True, text=True, check=False)
        if ran.returncode:
            sys.exit(f"ways.py: valgrind failed:\n{ran.stdout}{ran.stderr}")
        dumps = [*(folder / f"walked.{number}" for number in range(2, len(rows) + 1)), folder / "walked"]
        return [lines_of(dump) for dump in dumps]


def lines_of(dump):
    """The files and lines that a part of the run entered."""
    entered, file = set(), None
    for line in dump.read_text(encoding="utf-8", errors="replace").split("\n"):
        if line[:1].isdigit():
            number = int(line.split(" ", 1)[0])
            if file and number:
                entered.add((file, number))
        elif line.startswith(("fl=", "fi=", "fe=")):
            found = re.search(r"/programs-[0-9a-f]+/out/(.*)\.rs$", line)
            file = found[1] if found else None
    return entered


def main():
    """Prints the table."""
    parser = argparse.ArgumentParser(description=__doc__, formatter_class=argparse.RawDescriptionHelpFormatter)
    parser.add_argument("mistakes", nargs="*", metavar="MISTAKE")
    parser.add_argument("--functions", action="store_true", help="also print the functions of each way")
    options = parser.parse_args()
    known = [*SPOILED, *SPECIAL]
    unknown = [name for name in options.mistakes if name not in known]
    if unknown:
        parser.error(f"no such mistake here: {unknown[0]}")
    names = options.mistakes or known
    asked = {name: questions(name) for name in names}
    rows = list(dict.fromkeys(question.row for name in names for question in asked[name][0]))
    made()
    entered = dict(zip(rows, walked(built(), rows), strict=True))
    failed = sum(report(name, *asked[name], entered, options.functions) for name in names)
    print(f"{len(names)} mistakes, {len(rows)} rows, {failed} ways or functions without an edit")
    return 1 if failed else 0


def report(mistake, asked, absent, entered, with_functions):
    """Prints the ways of a mistake, and counts those without an edit."""
    edits, cells = edits_of(mistake), defaultdict(lambda: defaultdict(list))
    for question in asked:
        covering = [edit for edit, lines in edits.items() if lines & entered[question.row]]
        operation = re.sub(" from [^,]*", "", question.operation)
        cells[operation][", ".join(covering) or "MISSING"].append(question)
    for (form, operation), reason in absent.items():
        cells[operation][reason or "MISSING: no operands are found"].append(Question(operation, form, "", "", "", ""))
    failed = 0
    for operation, groups in cells.items():
        for covering, these in groups.items():
            forms = dict.fromkeys(one.kind if ">" in one.kind else one.format for one in these)
            print(f"{mistake} | {operation} | {' '.join(forms)} | {covering}")
            failed += len(these) if covering.startswith("MISSING") else 0
        ways = [question for these in groups.values() for question in these if question.call]
        if with_functions and ways:
            print_functions(ways, entered)
    if mistake in DECIDES:
        failed += report_deciding(mistake, asked, entered)
    return failed


def functions_of(lines):
    """The functions that lines are in, of the crates that compute."""
    return {function_at(*place): place for place in lines if not place[0].startswith(("commands/", "formats_at"))}


def print_functions(ways, entered):
    """Prints how many functions all of some ways enter, and which others each format does."""
    by_format = defaultdict(set)
    for question in ways:
        by_format[question.format] |= functions_of(entered[question.row]).keys()
    shared = set.intersection(*by_format.values())
    print(f"    {len(shared)} functions of all formats")
    groups = defaultdict(list)
    for form, functions in by_format.items():
        groups[frozenset(functions - shared)].append(form)
    for functions, forms in groups.items():
        print(f"    {' '.join(forms)}: {' '.join(sorted(functions)) or 'no others'}")


def report_deciding(mistake, asked, entered):
    """Prints the functions that only some formats enter and that can make a mistake; counts those without an edit."""
    formats_of, places = defaultdict(set), {}
    for question in asked:
        for function, place in functions_of(entered[question.row]).items():
            formats_of[function].add(question.format)
            places[function] = place
    able = {function: contract_and_body(*place) for function, place in places.items()}
    able = {function: body for function, (ensured, body) in able.items() if re.search(DECIDES[mistake], ensured)}
    covered = {function for function in able if edited_functions().get(function) or function in WITHOUT}
    while True:
        names = {function.rsplit("::", 1)[1] for function in covered}
        more = {function for function, body in able.items() if names & set(re.findall(r"(\w+)\(", body))} - covered
        if not more:
            break
        covered |= more
    every, failed = set().union(*formats_of.values()), 0
    for function in sorted(able):
        if formats_of[function] != every:
            edits = ", ".join(sorted(edited_functions().get(function, ()))) or WITHOUT.get(function)
            said = edits or ("calls one of these" if function in covered else "MISSING")
            forms = " ".join(f.name for f in BUILT_IN if f.name in formats_of[function])
            print(f"{mistake} | {function} | {forms} | {said}")
            failed += said == "MISSING"
    return failed


if __name__ == "__main__":
    sys.exit(main())
