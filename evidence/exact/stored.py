"""Conversions with storage formats, and conversions that saturate or round with random digits.

A storage format is a list of fractions (`storage_formats.py`, `e3m4.py`).
"""

import conversion_modes
import e3m4
import storage_formats
from exact import conversions, words
from exact.bits import decoded
from exact.data import Finite, Infinite, is_nan, number
from exact.formats import E4M3FN, FORMATS
from exact.status import INEXACT, INVALID_OP, OVERFLOW
from exact.values import VALUES

FORMS = {form.name.lower(): form for form in (*storage_formats.FORMATS, e3m4.FORM)}

# The forms that have rounding to odd and with random digits.
ELEMENTS = [form.name.lower() for form in conversion_modes.ELEMENTS]

# The codes of the largest numbers without a sign, and that of the sign.
LARGEST = {"e2m1fn": 7, "e2m3fn": 31, "e3m2fn": 31, "e3m4": 0x6F, "e8m0fnu": 254, "ue4m3": 126}
SIGN = {"e2m1fn": 8, "e2m3fn": 32, "e3m2fn": 32, "e3m4": 0x80}

# What saturates beside numbers: infinities, and NaNs.
SATURATING = {"convert_saturate": (), "convert_saturate_finite": (Infinite,), "convert_saturate_all": (Infinite, None)}


def is_one(call, kind_word):
    """Whether a call is one of these."""
    ends = kind_word.split(">")
    return call in SATURATING or call == "convert_stochastic" or any(word in FORMS for word in ends)


def converted(call, kind_word, mode, operands):
    """The word of the value, the flags, and whether information is lost, or None if the call does not tell."""
    source, target = kind_word.split(">")
    word, *rest = operands.split(" ")
    if source in FORMS:
        return from_storage(call, source, VALUES[target], mode, int(word, 16))
    x = words.value_of(VALUES[source], word)
    if target in FORMS:
        random = tuple(map(int, rest)) if rest else None
        code, status, loses = to_storage(call, FORMATS[source], target, mode, x, random)
        return f"{code:0{-(-FORMS[target].bits // 4)}x}", status, loses
    kind = VALUES[target]
    value, status, loses = saturated(call, FORMATS[source], kind.format, mode, x)
    return words.word_of(kind, value), status, loses


def to_storage(call, source, name, mode, x, random):
    """The code of a value."""
    form = FORMS[name]
    if call in ("convert_odd", "convert_stochastic"):
        return conversion_modes.store(form, x, random, False, source)
    code, status, loses = form.store(source, x, mode)
    if call not in SATURATING:
        return code, status, loses
    if is_nan(x):
        return (LARGEST[name], INVALID_OP, None) if None in SATURATING[call] else (code, status, None)
    largest = LARGEST[name] + (SIGN[name] if x.negative and name in SIGN else 0)
    if isinstance(x, Infinite):
        changes = Infinite in SATURATING[call] and status != INVALID_OP
        return (largest, INEXACT, None) if changes else (code, status, None)
    return largest if status & OVERFLOW else code, status, None


def datum_of(name, code):
    """What a code means, if only its kind and its sign matter."""
    if name == "e3m4":
        return decoded(e3m4.E3M4, code)
    if name == "ue4m3":
        return decoded(E4M3FN, code)
    if name == "e8m0fnu":
        return decoded(E4M3FN, 0x7F) if code == 255 else Finite(False, 1)
    return Finite(FORMS[name].value(code)[0], 1)


def from_storage(call, name, kind, mode, code):
    """The word of the value of a code."""
    value, status, loses = FORMS[name].load(kind.format, code, mode)
    if call in SATURATING:
        x, loses = datum_of(name, code), None
        if is_nan(x):
            if None in SATURATING[call]:
                value, status = number(kind.format, False, kind.format.largest), INVALID_OP
        elif isinstance(x, Infinite):
            if Infinite in SATURATING[call]:
                value, status = number(kind.format, x.negative, kind.format.largest), INEXACT
        elif not isinstance(value, Finite):
            value = number(kind.format, x.negative, kind.format.largest)
    return words.word_of(kind, value), status, loses


def saturated(call, source, target, mode, x):
    """A conversion between formats that saturates."""
    kinds = SATURATING[call]
    if Infinite in kinds:
        return conversions.convert_finite(source, target, x, mode, None not in kinds)
    return conversions.convert_saturating(source, target, x, mode)
