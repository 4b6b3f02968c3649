#!/usr/bin/env python3
"""Puts mistakes into the program `explain`, one at a time, and says which of them its stored texts show.

    python3 evidence/explained_mistakes.py [WORD]

Each mistake changes one branch of `compute.rs` or `picture.rs`. The program with it, which cargo builds in a copy, then
explains the commands of `tests/explanations/commands`, and has to write something else than
`tests/explanations/expected`. With a WORD only those are tried whose text has it.
"""

import subprocess
import sys
import tempfile
from pathlib import Path

from changed_copy import TOP, built, copy_to

TEXTS = TOP / "tests/explanations"
EXPLAIN = "rust/programs/src/bin/explain"

COMPUTE = [
    # how a word is read
    ("bits_of(word, 128).is_some()", "bits_of(word, S::BITS).is_some()"),
    ("{ Reading::Number } else", "{ Reading::Only } else"),
    ("word.strip_suffix('d')", "word.strip_suffix('q')"),
    ("return Some(number);", "let _ = number;"),
    ("match bits_of(word, S::BITS)", "match bits_of(word, 128)"),
    ("if number.is_some()", "if number.is_none()"),
    ("{ Reading::Bits } else", "{ Reading::Only } else"),
    ("        None => number,", "        None => None,"),
    ("read_decimal::<S>(text, Round::NearestTiesToEven)", "read_decimal::<S>(text, Round::TowardZero)"),
    ("answer.status.intersects(Status::INEXACT) })", "answer.status.intersects(Status::UNDERFLOW) })"),
    # the operands
    ("operands[1],", "operands[0],"),
    ("operands[2]))", "operands[1]))"),
    ("let b = operand(second);", "let b = operand(first);"),
    ("let c = operand(third);", "let c = operand(second);"),
    ("reading: given.reading,", "reading: Reading::Only,"),
    ("is_rounded: given.is_rounded }", "is_rounded: false }"),
    # the widths
    ("bits: S::BITS as u32,", "bits: S::PRECISION as u32,"),
    ("exponent: S::EXP_BITS as u32", "exponent: S::BITS as u32"),
    # the operations
    ("Operation::Value | Operation::Into(_) => Status::OK.and(x)", "Operation::Value | Operation::Into(_) => Status::OK.and(y)", "equal: no result is shown"),
    ("arithmetic.answer(x, y, round)", "arithmetic.answer(y, x, round)"),
    ("x.wide_mul_add_r(y, z, round)", "x.wide_mul_r(y, round)"),
    ("x.sqrt_r(round)", "x.sqrt_r(Round::TowardZero)"),
    # a value
    ("negative: x.is_negative(),", "negative: false,"),
    ("is_denormal: x.is_denormal(),", "is_denormal: false,"),
    ("Category::Zero => Meaning::Zero,", "Category::Zero => Meaning::Infinity,"),
    ("Category::Infinity => Meaning::Infinity,", "Category::Infinity => Meaning::QuietNan,"),
    ("if x.is_signaling()", "if x.is_negative()"),
    ("                Meaning::QuietNan", "                Meaning::SignalingNan"),
    ("saturating_sub(124)", "saturating_sub(100)"),
    ("x.abs()", "x"),
    ("whole >> zeros, last", "whole, last"),
    ("last.saturating_add(zeros as ExpInt)", "last"),
    ("Round::NearestTiesToEven, &mut loses_info", "Round::TowardPositive, &mut loses_info", "equal: every number is one of that format"),
    # the place
    ("let lower = computed(operation, x, y, z, Round::TowardNegative)", "let lower = computed(operation, x, y, z, Round::TowardZero)"),
    ("let upper = computed(operation, x, y, z, Round::TowardPositive)", "let upper = computed(operation, x, y, z, Round::NearestTiesToAway)"),
    ("if !status.intersects(Status::INEXACT)", "if !status.intersects(Status::UNDERFLOW)"),
    ("return if answer.is_finite()", "return if !answer.is_finite()"),
    ("else { Place::None };", "else { Place::Exact };"),
    ("!lower.is_finite() || !upper.is_finite()", "!lower.is_finite()"),
    ("!lower.is_finite() || !upper.is_finite()", "!upper.is_finite()"),
    ("answer.bitwise_eq(upper)", "answer.bitwise_eq(lower)"),
    ("    computed(operation, x, y, z, Round::TowardNegative)\n}", "    computed(operation, x, y, z, Round::NearestTiesToEven)\n}"),
    ("negative: downward.value.is_negative(),", "negative: false,"),
    ("is_cut: downward.status.intersects(Status::INEXACT),", "is_cut: false,"),
    ("is_cut: downward.status.intersects(Status::INEXACT),", "is_cut: true,"),
    # the way between the neighbours
    ("sub_r(lower, Round::TowardNegative)", "sub_r(lower, Round::NearestTiesToEven)"),
    ("exact.status.union(above.status)", "exact.status"),
    ("exact.status.union(above.status)", "above.status"),
    ("way.scalbn(6)", "way.scalbn(5)"),
    ("is_at_half && !is_cut", "is_at_half"),
    ("is_at_half && !is_cut", "!is_cut"),
    ("is_at_half || way > half", "way > half"),
    ("is_at_half || way > half", "is_at_half"),
    ("        Side::Lower\n", "        Side::Middle\n"),
]

PICTURE = [
    ("if let Operation::Value = question.operation", "if let Operation::SquareRoot = question.operation"),
    ("if count > 1", "if count > 2"),
    ("Some((_, name)) => writeln!(out, \", on {name}\\n\")", "Some((_, _name)) => writeln!(out, \"\\n\")"),
    ("NanSource::NoNan => writeln!(out, \"No operand", "NanSource::NoNan => writeln!(out, \"An operand"),
    ("\"An infinity times a zero", "\"A product"),
    ("\"The first NaN is taken", "\"A NaN is taken"),
    ("\"The first signaling NaN is taken", "\"A signaling NaN is taken"),
    ("\"The quiet one of two NaNs", "\"The first of two NaNs"),
    ("\"A result that is a NaN is the default NaN.", "\"The first NaN is taken, quieted."),
    ("FactorsFirst => \"A, B, C\"", "FactorsFirst => \"C, A, B\""),
    ("AddendFirst => \"C, A, B\"", "AddendFirst => \"A, B, C\""),
    ("AddendSecond => \"A, C, B\"", "AddendSecond => \"A, B, C\""),
    ("if count > 2", "if count > 1"),
    ("&explanation.operands[1]", "&explanation.operands[0]"),
    ("&explanation.operands[2]", "&explanation.operands[1]"),
    ("Reading::Bits => writeln!(out, \"        read as bits", "Reading::Bits => writeln!(out, \"        read as a number"),
    ("Reading::Number => writeln!(out, \"        read as a number", "Reading::Number => writeln!(out, \"        read as bits"),
    ("if operand.is_rounded", "if !operand.is_rounded"),
    *((name, "?") for name in (
        "sum A + B", "difference A - B", "product A * B", "quotient A / B", "remainder of A by B (nearest)",
        "remainder of A by B (cut)", "fused sum A * B + C", "square root of A")),
    *((rule, '"?"') for rule in (
        '"to nearest, ties to even"', '"toward positive"', '"toward negative"', '"toward zero"',
        '"to nearest, ties away from zero"')),
    # a value
    ("widths.bits > 80", "widths.bits > 64"),
    ("widths.bits > 80", "widths.bits > 128"),
    ("b\" = \"", "b\" is \""),
    ("Some(decimal) => write!(out, \"{decimal}\"),", "Some(_) => write!(out, \"?\"),"),
    ("\"{}{}\", sign_of(shown), word_of(shown.meaning)", "\"{}\", word_of(shown.meaning)"),
    ("if shown.negative { \"-\" } else { \"\" }", "if shown.negative { \"-\" } else { \"+\" }"),
    ("Meaning::Infinity => \"infinity\",\n        Meaning::S", "Meaning::Infinity => \"?\",\n        Meaning::S"),
    ("Meaning::SignalingNan => \"signaling NaN\"", "Meaning::SignalingNan => \"NaN\""),
    ("_ => \"NaN\"", "_ => \"?\""),
    ("bits.checked_shr(widths.bits.saturating_sub(1))", "bits.checked_shr(widths.bits)"),
    ("bits.checked_shr(rest)", "bits.checked_shr(0)"),
    ("if rest <= 52", "if rest < 52"),
    ("if rest <= 52", "if rest <= 64"),
    ("write_digits(bits, rest / 4, 4, out)", "write_digits(bits, rest / 4, 1, out)"),
    ("Meaning::Zero => write!(out, \"{sign}0\")", "Meaning::Zero => write!(out, \"0\")"),
    ("\", denormal\" } else { \"\" }", "\"\" } else { \"\" }"),
    ("\", denormal\" } else { \"\" }", "\", denormal\" } else { \", denormal\" }"),
    ("{sign}{significand} * 2^{exponent}{kind}", "{significand} * 2^{exponent}{kind}"),
    ("Meaning::Infinity => write!(out, \"{sign}infinity\")", "Meaning::Infinity => write!(out, \"infinity\")"),
    ("write!(out, \"not a number\")", "write!(out, \"?\")"),
    ("not a number, which raises INVALID_OP", "not a number"),
    # the place
    ("Place::None => Ok(()),", "Place::None => writeln!(out, \"?\"),"),
    ("The exact result is a value of the format.", "?"),
    ("            write_exact(exact, out)?;\n", ""),
    ("The exact result is beyond the largest value.", "?"),
    ("            write_exact(&between.exact, out)?;\n", ""),
    ("The exact result lies between two neighbours:", "?"),
    ("            write_way(widths, between, in_colour, out)?;\n", ""),
    ("            write_pick(round, between, out)\n", "            Ok(())\n"),
    ("let sign = if exact.negative { \"-\" }", "let sign = if exact.negative { \"\" }"),
    ("let more = if exact.is_cut", "let more = if !exact.is_cut"),
    ("a little more than ", ""),
    ("{more}{sign}{significand} * 2^{exponent}", "{more}{significand} * 2^{exponent}"),
    ("between.parts.min(WAY)", "between.parts.min(40)"),
    ("const WAY: u32 = 64;", "const WAY: u32 = 62;"),
    ("\"lower\", &between.lower", "\"lower\", &between.upper"),
    ("\"upper\", &between.upper", "\"upper\", &between.lower"),
    ("Side::Lower => \"below the middle\"", "Side::Lower => \"above the middle\""),
    ("Side::Middle => \"exactly in the middle\"", "Side::Middle => \"below the middle\""),
    ("Side::Upper => \"above the middle\"", "Side::Upper => \"below the middle\""),
    ("let taken = if between.takes_upper", "let taken = if !between.takes_upper"),
    ("(Round::NearestTiesToEven, Side::Middle) => \"Of", "(Round::NearestTiesToEven, Side::Upper) => \"Of"),
    ("(Round::NearestTiesToAway, Side::Middle) =>", "(Round::NearestTiesToAway, Side::Lower) =>"),
    ("The nearer one is taken,", "?"),
    ("The mode takes the upper neighbour,", "?"),
    ("The mode takes the lower neighbour,", "?"),
    ("The mode takes the neighbour nearer to zero,", "?"),
    # the flags
    ("if status.is_empty()", "if !status.is_empty()"),
    ("        if status.intersects(*flag.value()) {", "        if !status.intersects(*flag.value()) {"),
    ("label = b\"        \";", "label = b\"flags   \";"),
    *((clause, "?") for clause in (
        "no number results, or an operand is a signaling NaN", "a nonzero number divided by zero",
        "rounded, the result is past the largest value", "inexact, and below the smallest normal number",
        "the result is not the exact one")),
]


def main():
    """Tries the mistakes that have the word, if one is given."""
    wanted = sys.argv[1] if len(sys.argv) > 1 else ""
    tried = [("compute.rs", *mistake) for mistake in COMPUTE] + [("picture.rs", *mistake) for mistake in PICTURE]
    tried = [mistake for mistake in tried if wanted in mistake[1] + mistake[2]]
    hidden = 0
    with tempfile.TemporaryDirectory() as room:
        room = Path(room)
        copy_to(room)
        for file, old, new, *why in tried:
            result = result_with(room, file, old, new)
            hidden += result != "seen" and not why
            print(f"{result:8}{file}: {old!r} -> {new!r}", *why, flush=True)
    print(f"{len(tried)} mistakes, {hidden} not seen")
    sys.exit(1 if hidden else 0)


def result_with(room, file, old, new):
    """What comes of a mistake: `seen`, `HIDDEN` if the texts are those stored, `BAD` if it does not compile."""
    text = (TOP / EXPLAIN / file).read_text()
    if text.count(old) != 1:
        sys.exit(f"{file}: {text.count(old)} times: {old}")
    (room / EXPLAIN / file).write_text(text.replace(old, new))
    program, said = built(room, "explain")
    (room / EXPLAIN / file).write_text(text)
    if program is None:
        print(said)
        return "BAD"
    written = ""
    for line in (TEXTS / "commands").read_text().splitlines():
        run = subprocess.run([program, *line.split()], capture_output=True, text=True, check=False)
        written += run.stdout
    return "HIDDEN" if written == (TEXTS / "expected").read_text() else "seen"


if __name__ == "__main__":
    main()
