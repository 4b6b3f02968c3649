"""What machines give: their NaNs, their integers, minima and maxima, and results flushed to zero.

The tables are those of docs/MACHINES.md, written once more.
"""

from dataclasses import replace
from typing import NamedTuple

from exact import conversions, integers
from exact.data import Finite, Infinite, is_nan, is_signaling, number, qnan, quieted
from exact.formats import FORMATS, Format, with_ieee_flags
from exact.operations import total_cmp
from exact.rounding import Mode
from exact.status import INEXACT, INVALID_OP, OK, UNDERFLOW


class Machine(NamedTuple):
    """The rules of a machine."""

    # Which of several NaNs: the first, the first or the last signaling one, the greater one, or the default.
    choice: str
    default_is_negative: bool
    tiny_before_rounding: bool
    # The order of operands in a fused sum; none if the machine has none.
    order: str | None
    # Whether the default takes the place of a quiet and of a signaling NaN that is added to an
    # infinity times a zero, and whether that is invalid with a quiet one.
    drops_quiet: bool
    drops_signaling: bool
    flags_quiet: bool
    # The integer of a NaN, signed and without a sign (none if there are no such conversions).
    signed_of_nan: str
    unsigned_of_nan: str | None
    # Whether what is out of range gives the integer of a NaN, and whether it is inexact.
    one_integer: bool
    integer_is_inexact: bool
    # The flags of a result that is flushed; none if no result is.
    flushed: int | None
    # Whether the payload of the default is all ones.
    default_has_ones: bool = False


X86_FLUSH, ARM_FLUSH = UNDERFLOW | INEXACT, UNDERFLOW

MACHINES = {
    "x86": Machine("first", True, False, "ABC", False, False, False, "least", "greatest", True, False, X86_FLUSH),
    "x87": Machine("greater", True, False, None, False, False, False, "least", None, True, False, None),
    "arm": Machine("signaling", False, True, "CAB", True, False, True, "zero", "zero", False, False, ARM_FLUSH),
    "arm_default_nan": Machine(
        "default", False, True, "CAB", True, True, True, "zero", "zero", False, False, ARM_FLUSH
    ),
    "arm_alternate": Machine("first", True, False, "ABC", False, False, False, "zero", "zero", False, False, X86_FLUSH),
    "risc_v": Machine("default", False, False, "ABC", True, True, True, "greatest", "greatest", False, False, None),
    "power": Machine("first", False, True, "ACB", False, False, True, "least", "zero", False, False, None),
    "s390x": Machine("signaling", False, True, "ABC", True, True, True, "least", "zero", False, True, None),
    "arm_alternate_default_nan": Machine(
        "default", True, False, "ABC", True, True, False, "zero", "zero", False, False, X86_FLUSH
    ),
    "webassembly": Machine("default", False, False, "ABC", True, True, True, "zero", "zero", False, False, None),
    "ptx": Machine("default", False, False, "ABC", True, True, True, "zero", "zero", False, False, X86_FLUSH, True),
    "mips_2008": Machine("signaling", False, False, "CAB", False, False, True, "zero", None, False, False, None),
    "loongarch": Machine("signaling", False, False, "CAB", False, False, True, "zero", "zero", False, False, None),
    "sparc": Machine(
        "last signaling", False, True, "ABC", False, False, True, "by sign", None, False, False, None, True
    ),
    "m68k": Machine("first", False, True, None, False, False, True, "by sign", None, False, False, None, True),
}

# Those that have integers modulo a power of two.
MODULO = ("arm", "arm_default_nan", "arm_alternate", "arm_alternate_default_nan", "risc_v")

# Those that have products of which an infinity times a zero is 2.
EXTENDED = MODULO[:4]

# The numbers of Arm's alternative half precision, and greater ones.
ALTERNATIVE_HALF = Format("alternative half", 0, 0, 11, -14, 47)

RULES = ("second", "second_quietly", "first_nan", "number_2008", "number_2019", "propagated")


def on_machine(word):
    """The format, the machine and whether results are flushed, of a word such as `single@x86+ftz`."""
    name, _, rest = word.partition("@")
    name_of_machine, _, option = rest.partition("+")
    machine = MACHINES[name_of_machine]
    form = with_ieee_flags(FORMATS[name])[machine.tiny_before_rounding]
    if option == "ftz" and machine.flushed is None:
        raise ValueError(f"{name_of_machine} does not flush")
    return form, machine, option == "ftz"


def is_given(source, word):
    """Whether a machine gives such rows, of a word such as `half@x86+ftz`, in which `source` is converted, if any."""
    target, _, rest = word.partition("@")
    machine, _, option = rest.partition("+")
    if (source, target, machine) == ("single", "bfloat", "x86"):
        return False
    return not (option == "ftz" and target == "half" and (source or machine == "x86"))


def default_nan(form, machine):
    """The default NaN."""
    return qnan(form, -1 if machine.default_has_ones else 0, machine.default_is_negative)


def taken(form, machine, data):
    """The NaN that a machine makes of operands of which one is a NaN."""
    nans = [x for x in data if is_nan(x)]
    signaling = [x for x in nans if is_signaling(form, x)]
    if machine.choice == "default":
        return default_nan(form, machine)
    if machine.choice == "first":
        return quieted(form, nans[0])
    if machine.choice == "signaling":
        return quieted(form, (signaling or nans)[0])
    if machine.choice == "last signaling":
        return quieted(form, (signaling or nans)[-1])
    if any(is_signaling(form, quieted(form, x)) for x in nans):
        return default_nan(form, machine)
    quiet = [x for x in nans if not is_signaling(form, x)]
    return quieted(form, max(quiet or nans, key=lambda x: (x.significand, not x.negative)))


def settled(form, machine, data, result):
    """A result as the machine gives it."""
    value, flags = result
    if not is_nan(value):
        return value, flags
    if not any(map(is_nan, data)):
        return default_nan(form, machine), flags
    return taken(form, machine, data), flags


def settled_fused(form, machine, data, result):
    """A fused sum as the machine gives it."""
    value, flags = result
    if not is_nan(value):
        return value, flags
    nans = [x for x in data if is_nan(x)]
    if not nans:
        return default_nan(form, machine), flags
    signaling = any(is_signaling(form, x) for x in nans)
    flags = INVALID_OP if signaling or (is_invalid_product(*data[:2]) and machine.flags_quiet) else OK
    if drops_addend(form, machine, data):
        return default_nan(form, machine), flags
    return taken(form, machine, [data["ABC".index(name)] for name in machine.order]), flags


def is_invalid_product(*factors):
    """Whether one is an infinity and the other a zero."""
    zeros = [x for x in factors if isinstance(x, Finite) and x.quanta == 0]
    return any(isinstance(x, Infinite) for x in factors) and bool(zeros)


def extended_product(form, machine, data, result):
    """A product as the machine gives it, except that an infinity times a zero is 2."""
    if is_invalid_product(*data):
        return number(form, data[0].negative != data[1].negative, 2 << form.scale), OK
    return settled(form, machine, data, result)


def drops_addend(form, machine, data):
    """Whether the default takes the place of a NaN that is added to an infinity times a zero."""
    drops = machine.drops_signaling if is_signaling(form, data[2]) else machine.drops_quiet
    return is_invalid_product(*data[:2]) and drops


def flushed(form, machine, result):
    """A result that is tiny as the zero of its sign, with the flags of flushing."""
    value, flags = result
    is_denormal = isinstance(value, Finite) and 0 < value.quanta < form.smallest_normalized
    if not (flags & UNDERFLOW or is_denormal):
        return result
    return number(form, value.negative, 0), machine.flushed


def to_integer(form, machine, signed, x, width, mode):
    """An integer as the machine gives it, with its flags."""
    end = 1 << width
    least, greatest = (-end // 2, end // 2 - 1) if signed else (0, end - 1)
    value, flags, _ = integers.to_integer(form, x, least, greatest, mode)
    if flags != INVALID_OP:
        return value, flags
    rule = machine.signed_of_nan if signed else machine.unsigned_of_nan
    by_sign = least if x.negative else greatest
    of_nan = {"zero": 0, "least": least, "greatest": greatest, "by sign": by_sign}[rule]
    if is_nan(x) or machine.one_integer:
        value = of_nan
    if machine.integer_is_inexact and not is_nan(x):
        flags |= INEXACT
    return value, flags


def to_integer_modulo(form, x, width):
    """The integer toward zero, modulo a power of two, with the flags of a signed integer of that width."""
    end = 1 << width - 1
    _, flags, _ = integers.to_integer(form, x, -end, end - 1, Mode.ZERO)
    if not isinstance(x, Finite):
        return 0, flags
    integer = x.quanta // (1 << form.scale)
    return ((-integer if x.negative else integer) + end) % (2 * end) - end, flags


def converted(source, target, machine, x, mode, flushes):
    """A conversion between formats as the machine gives it."""
    value, flags, _ = conversions.convert(source, target, x, mode)
    if flushes:
        value, flags = flushed(target, machine, (value, flags))
    if is_nan(x) and (
        machine.choice == "default"
        or machine.choice == "greater" and is_signaling(source, quieted(source, x))
    ):
        return default_nan(target, machine), flags
    return value, flags


def extremum(form, machine, rule, is_least, x, y):
    """A minimum or a maximum by a rule, with its flags."""
    nans = [z for z in (x, y) if is_nan(z)]
    signaling = any(is_signaling(form, z) for z in nans)
    flags = INVALID_OP if signaling or (rule == "second" and nans) else OK
    side = -1 if is_least else 1
    if rule in ("second", "second_quietly"):
        strictly = not nans and total_cmp(form, *map(without_sign_of_zero, (x, y))) == side
        return x if strictly else y, flags
    best = y if not nans and total_cmp(form, y, x) == side else x
    if rule == "first_nan":
        return nans[0] if nans else best, flags
    if rule == "number_2008" and (signaling or len(nans) == 2):
        return taken(form, machine, (x, y)), flags
    if rule == "number_2019" and len(nans) == 2:
        return default_nan(form, machine), flags
    if rule == "propagated" and nans:
        return taken(form, machine, (x, y)), flags
    if nans:
        return y if is_nan(x) else x, flags
    return best, flags


def ranged(form, code, x, y):
    """What VRANGE gives for the lower four bits of its imm8, with its flags."""
    for z in (x, y):
        if is_nan(z) and is_signaling(form, z):
            return quieted(form, z), INVALID_OP
    if is_nan(x) or is_nan(y):
        chosen = y if is_nan(x) and not is_nan(y) else x
    else:
        order = total_cmp(form, *(replace(z, negative=False) for z in (x, y))) if code & 2 else 0
        side = 1 if code & 1 else -1
        chosen = y if (order or total_cmp(form, x, y)) == -side else x
    return replace(chosen, negative=(x.negative, chosen.negative, False, True)[code >> 2]), OK


def to_alternative_half(form, x, mode):
    """The number and the bits of a value in the alternative half precision, with the flags."""
    sign = x.negative << 15
    if is_nan(x):
        return None, sign, INVALID_OP
    wide = with_ieee_flags(ALTERNATIVE_HALF)[form.tiny_before_rounding]
    rounded, flags = conversions.convert(form, wide, x, mode)[:2]
    if isinstance(rounded, Infinite) or rounded.quanta >> 41:
        return None, sign | 0x7fff, INVALID_OP
    lost = max(rounded.quanta.bit_length() - 11, 0)
    return rounded, sign | (lost << 10) + (rounded.quanta >> lost), flags


def of_alternative_half(bits):
    """The number of bits of the alternative half precision."""
    field, trailing = bits >> 10 & 31, bits & 1023
    return Finite(bool(bits >> 15), (1024 + trailing) << field - 1 if field else trailing)


def without_sign_of_zero(x):
    """A zero without a sign, since zeros are equal."""
    return Finite(False, 0) if isinstance(x, Finite) and x.quanta == 0 else x
