"""Computes tests/c/instructions: operations of machines with control words, as apfloat_instruction makes them.

    python3 evidence/instructions.py | diff - tests/c/instructions

Results are those of the tables in evidence/exact/machines.py. Whether a magnitude was rounded up is decided by the
exact result, a fraction: nothing is computed twice, and a result with fewer digits is a fraction that is rounded once.
"""

from dataclasses import replace
from fractions import Fraction

from exact import format_of, integers, machines, odd, operations, remainders
from exact.bits import decoded, encoded
from exact.calls import converted_to_odd
from exact.conversions import convert
from exact.data import Finite, Infinite, is_nan, number
from exact.drawing import Encoding, Generator
from exact.formats import FORMATS, X87_DOUBLE, X87_SINGLE, with_ieee_flags
from exact.machines import MACHINES, RULES
from exact.rounding import Mode
from exact.status import DIV_BY_ZERO, INEXACT, INVALID_OP, OVERFLOW, UNDERFLOW, names
from row_files import MODES, hexes

FORMS = ("half", "single", "double", "quad", "bfloat", "e5m2", "x87")
ARITHMETIC = {"add": "Sum", "sub": "Difference", "mul": "Product", "div": "Quotient", "fma": "FusedSum", "sqrt": "Root"}
REMAINDERS = {"rem": remainders.nearest_remainder, "mod": remainders.truncated_remainder}
COUNTS = {"sqrt": 1, "fma": 3, "round_to_integral": 1, "integral": 1, "convert": 1, "to_u128": 1, "to_i128": 1,
          "to_i128_modulo": 1}
CALLS = (*ARITHMETIC, *REMAINDERS, "round_to_integral", "integral", "convert", "to_u128", "to_i128", "least",
         "greatest")
LATER = {"to_i128_modulo": machines.MODULO, "mul_extended": machines.EXTENDED}
FLUSH, ZEROS, UP, UNMASKED = 1, 2, 4, 32
# What the bits of a precision round to.
PRECISIONS = {8: X87_SINGLE, 16: X87_DOUBLE}


def is_denormal(form, x):
    """Whether a value is a denormal number."""
    return isinstance(x, Finite) and 0 < x.quanta < form.smallest_normalized


def fraction(form, x):
    """The magnitude of a number."""
    return Fraction(x.quanta, 1 << form.scale)


def exact_magnitude(form, call, data):
    """The magnitude of an inexact exact result; of a root its square."""
    values = [format_of.value_of(form, x) for x in data]
    if call in ("add", "sub"):
        return abs(values[0] + values[1] if call == "add" else values[0] - values[1])
    if call in ("mul", "mul_extended", "fma"):
        return abs(values[0] * values[1] + (values[2] if call == "fma" else 0))
    return abs(values[0] / values[1]) if call == "div" else abs(values[0])


def integer_on(form, machine, call, mode, x, width):
    """An integer with its flags."""
    if call == "to_i128_modulo":
        return machines.to_integer_modulo(form, x, width)
    signed = call == "to_i128"
    if mode != odd.ODD:
        return machines.to_integer(form, machine, signed, x, width, mode)
    end = 1 << width
    integer, flags = odd.to_integer(form, x, *((-end // 2, end // 2 - 1) if signed else (0, end - 1)))
    if flags != INVALID_OP:
        return integer, flags
    return machines.to_integer(form, machine, signed, x, width, Mode.DOWN if x.negative else Mode.UP)


def places(form, value, flags):
    """The power of two by which an answer is moved where overflow and underflow are unmasked."""
    adjustment = 3 << form.exponent_bits - 2
    if flags & OVERFLOW:
        return -adjustment
    return adjustment if flags & UNDERFLOW or is_denormal(form, value) else 0


def unmasked(form, call, mode, control, data):
    """An operation, whose number is moved if the answer with masked exceptions overflows or is tiny."""
    value, flags = computed(form, call, mode, control, data)
    moved = places(form, value, flags)
    if moved == 0:
        return value, flags
    counted = form if call == "fma" else PRECISIONS.get(control & sum(PRECISIONS), form)
    wide = replace(counted, least_exponent=4 * form.least_exponent, greatest_exponent=4 * form.greatest_exponent)
    number_of_wide, flags_of_wide = format_of.computed(form, wide, ARITHMETIC[call], mode, data)
    quanta = fraction(wide, number_of_wide) * Fraction(2) ** (form.scale + moved)
    assert quanta.denominator == 1 and quanta <= form.largest
    assert quanta.numerator % (1 << max(0, quanta.numerator.bit_length() - form.precision)) == 0
    return Finite(value.negative, quanta.numerator), flags_of_wide | (OVERFLOW if moved < 0 else UNDERFLOW)


def computed(form, call, mode, control, data):
    """An operation, with the digits of the precision that is asked for."""
    narrow = PRECISIONS.get(control & sum(PRECISIONS))
    if narrow is None or call == "fma":
        return format_of.computed(form, form, ARITHMETIC[call], mode, data)
    narrow = with_ieee_flags(narrow)[form.tiny_before_rounding]
    value, flags = format_of.computed(form, narrow, ARITHMETIC[call], mode, data)
    if isinstance(value, Finite):
        value = Finite(value.negative, value.quanta << form.scale - narrow.scale)
    return value, flags


def valued(form, target, machine, call, rule, mode, control, data):
    """A value with its flags."""
    if call == "convert":
        x = data[0]
        converted = converted_to_odd(form, target, x) if mode == odd.ODD else convert(form, target, x, mode)[:2]
        value, flags = machines.flushed(target, machine, converted) if control & FLUSH else converted
        given = machines.converted(form, target, machine, x, Mode.ZERO, False)[0]
        return (given, flags) if is_nan(x) else (value, flags)
    if call in ("least", "greatest"):
        result = machines.extremum(form, machine, rule, call == "least", *data)
        # MINSS, and FMIN with FPCR.AH, do not flush.
        if rule == "second":
            return result
    elif call == "range":
        return machines.ranged(form, rule, *data)
    elif call in REMAINDERS:
        result = machines.settled(form, machine, data, REMAINDERS[call](form, *data))
    elif call == "round_to_integral":
        plain = odd.integral(form, *data) if mode == odd.ODD else integers.round_to_integral(form, *data, mode)
        result = machines.settled(form, machine, data, plain[:2])
    elif call == "integral":
        plain = odd.integral(form, *data) if mode == odd.ODD else operations.round_to_integral_in(form, *data, mode)
        result = machines.settled(form, machine, data, (plain[0], plain[1] & ~INEXACT))
    elif call == "mul_extended":
        product = format_of.computed(form, form, "Product", mode, data)
        result = machines.extended_product(form, machine, data, product)
    else:
        settle = machines.settled_fused if call == "fma" else machines.settled
        compute = unmasked if control & UNMASKED else computed
        result = settle(form, machine, data, compute(form, call, mode, control, data))
    return machines.flushed(form, machine, result) if control & FLUSH else result


def line(call, name, machine_name, mode, control, to, drawn):
    """A row: the call, FORMAT@MACHINE, the mode, the control word, `to`, the operands, and the answer."""
    machine = MACHINES[machine_name]
    form = FORMATS[name] if "+" in name else with_ieee_flags(FORMATS[name])[machine.tiny_before_rounding]
    data = [decoded(form, bits) for bits in drawn]
    denormal = any(is_denormal(form, x) for x in data)
    none_is_nan = not any(map(is_nan, data))
    if control & ZEROS:
        data = [number(form, x.negative, 0) if is_denormal(form, x) else x for x in data]
    target = form
    if call.startswith("to_"):
        value, flags = integer_on(form, machine, call, mode, data[0], to)
        bits = f"{value % (1 << 128):x}"
        is_up = flags & INEXACT and not flags & INVALID_OP and abs(value) > fraction(form, data[0])
    else:
        if call == "convert":
            target = with_ieee_flags(FORMATS[to])[machine.tiny_before_rounding]
        rule = to if call in ("least", "greatest", "range") else None
        value, flags = valued(form, target, machine, call, rule, mode, control, data)
        bits = hexes(target, encoded(target, value))
        is_up = False
        if flags & INEXACT and isinstance(value, Infinite):
            is_up = True
        elif flags & INEXACT and value.quanta:
            magnitude = fraction(target, value)
            if control & UNMASKED and call in ARITHMETIC:
                magnitude /= Fraction(2) ** places(form, value, flags)
            is_up = (magnitude**2 if call == "sqrt" else magnitude) > exact_magnitude(form, call, data)
    if not control & ZEROS:
        denormal = denormal and none_is_nan and not flags & (INVALID_OP | DIV_BY_ZERO)
    told = denormal + 2 * bool(control & UP and is_up)
    said = mode if mode == odd.ODD else mode.value
    asked = f"{said} {control} {to}"
    return "\t".join((call, f"{name}@{machine_name}", asked, hexes(form, *drawn), bits, names(flags), str(told)))


def special(form, draw):
    """Bits of a special operand."""
    sign = draw.between(0, 1) << form.bits - 1
    magnitudes = [0, 1, encoded(form, number(form, False, form.smallest_normalized)), encoded(form, Infinite(False)),
                  encoded(form, number(form, False, form.largest)), encoded(form, number(form, False, 1 << form.scale)),
                  encoded(form, Infinite(False)) + 1,
                  encoded(form, Infinite(False)) + (1 << form.precision - 2) + draw.between(0, 3)]
    magnitudes += [magnitudes[2] - 1, magnitudes[2] + 1, magnitudes[4] - 1]
    return sign | magnitudes[draw.between(0, len(magnitudes) - 1)]


def operand(form, draw):
    """Bits of an operand."""
    choice = draw.between(0, 9)
    encoding = Encoding(form)
    if choice < 3:
        return special(form, draw)
    if choice < 5:
        return encoding.operand("denormal", draw)
    if choice < 6:
        return encoding.normal(draw.between(0, 1), draw.wide_word(),
                               draw.between(form.least_exponent, form.greatest_exponent))
    return encoding.operand("normal", draw)


def long_integer(form, width, draw):
    """Bits of a number whose digits are around the ends of integers."""
    greatest = min(form.greatest_exponent, width + form.precision + 1)
    return Encoding(form).normal(draw.between(0, 1), draw.wide_word(), draw.between(-2, greatest))


def infinity_and_zero(form, draw):
    """Bits of an infinity and a zero in either order."""
    first = draw.between(0, 1)
    magnitudes = [encoded(form, Infinite(False)), 0]
    return [draw.between(0, 1) << form.bits - 1 | magnitudes[first ^ place] for place in (0, 1)]


def drawn_line(draw, call, machine_name, turn):
    """A row of a call on a machine."""
    name = FORMS[turn % len(FORMS)]
    mode = (*MODES, odd.ODD)[draw.between(0, len(MODES))]
    control = draw.between(0, 7)
    if MACHINES[machine_name].flushed is None:
        control &= UP
    to = 0
    if call == "convert":
        to = FORMS[draw.between(0, len(FORMS) - 1)]
    elif call.startswith("to_"):
        to = (8, 16, 31, 32, 64, 128)[draw.between(0, 5)]
    elif call in ("least", "greatest"):
        to = RULES[draw.between(0, len(RULES) - 1)]
    form = FORMATS[name]
    if call == "to_i128_modulo" and turn >= len(FORMS):
        drawn = [long_integer(form, to, draw)]
    elif call == "mul_extended" and turn >= 3 * len(FORMS):
        drawn = infinity_and_zero(form, draw)
    else:
        drawn = [operand(form, draw) for _ in range(COUNTS.get(call, 2))]
    return line(call, name, machine_name, mode, control, to, drawn)


def rows(draw):
    """Rows of each call, machine and format by turns."""
    for machine_name, machine in MACHINES.items():
        for call in CALLS:
            if call == "fma" and machine.order is None or call == "to_u128" and machine.unsigned_of_nan is None:
                continue
            for turn in range(14):
                yield drawn_line(draw, call, machine_name, turn)
    for call, names_of_machines in LATER.items():
        for machine_name in names_of_machines:
            for turn in range(28):
                yield drawn_line(draw, call, machine_name, turn)


def line_of_half(call, name, machine_name, mode, control, bits):
    """A row of the alternative half precision, from a value of a format or to one; results are flushed only to one."""
    machine, to_half = MACHINES[machine_name], call == "to_alternative_half"
    form = with_ieee_flags(FORMATS[name])[machine.tiny_before_rounding]
    half = machines.ALTERNATIVE_HALF
    rounding = Mode.ZERO if mode == odd.ODD else mode
    told = 0
    if to_half:
        x = decoded(form, bits)
        denormal = is_denormal(form, x)
        if control & ZEROS and denormal:
            x = number(form, x.negative, 0)
        value, result, flags = machines.to_alternative_half(form, x, rounding)
        told = int(denormal)
        operand, result, source, target = hexes(form, bits), f"{result:04x}", form, half
    else:
        x = machines.of_alternative_half(bits)
        converted = converted_to_odd(half, form, x) if mode == odd.ODD else convert(half, form, x, mode)[:2]
        value, flags = machines.flushed(form, machine, converted) if control & FLUSH else converted
        operand, result, source, target = f"{bits:04x}", hexes(form, encoded(form, value)), half, form
    if control & UP and flags & INEXACT:
        is_up = isinstance(value, Infinite) or fraction(target, value) > fraction(source, x)
        told += 2 * is_up
    said = mode if mode == odd.ODD else mode.value
    return "\t".join((call, f"{name}@{machine_name}", f"{said} {control} 0", operand, result, names(flags), str(told)))


def near_half(form, draw):
    """Bits of a value near the ends and between the numbers of the alternative half precision."""
    exponent = (draw.between(-26, -13), draw.between(15, 18), draw.between(-14, 16))[draw.between(0, 2)]
    exponent = max(form.least_exponent, min(form.greatest_exponent, exponent))
    digits = form.precision - 1
    trailing = draw.wide_word() % (1 << digits)
    kept = min(digits, 11)
    if draw.between(0, 1):
        trailing = (trailing >> digits - kept << digits - kept) + draw.between(-1, 1)
    if draw.between(0, 2) == 0:
        trailing = -1 - draw.between(0, 1) * (1 << max(digits - 11, 0))
    return Encoding(form).normal(draw.between(0, 1), trailing % (1 << digits), exponent)


def rows_of_ranges(draw):
    """Rows of VRANGE, with pairs of the same magnitude."""
    for turn in range(12 * 16):
        name = FORMS[turn % len(FORMS)]
        form = FORMATS[name]
        drawn = [operand(form, draw), operand(form, draw)]
        if turn % 3 == 2:
            drawn[1] = drawn[0] ^ draw.between(0, 1) << form.bits - 1
        yield line("range", name, "x86", MODES[0], draw.between(0, 7), turn % 16, drawn)


def rows_of_halves(draw):
    """Rows of the alternative half precision of Arm."""
    for machine_name in machines.EXTENDED:
        for turn in range(12 * len(FORMS)):
            name, form = FORMS[turn % len(FORMS)], FORMATS[FORMS[turn % len(FORMS)]]
            mode, control = (*MODES, odd.ODD)[draw.between(0, len(MODES))], draw.between(0, 7)
            bits = operand(form, draw) if turn % 3 == 0 else near_half(form, draw)
            yield line_of_half("to_alternative_half", name, machine_name, mode, control, bits)
        for turn in range(4 * len(FORMS)):
            mode, control = (*MODES, odd.ODD)[draw.between(0, len(MODES))], draw.between(0, 7)
            bits = draw.word() % (1 << 16)
            yield line_of_half("from_alternative_half", FORMS[turn % len(FORMS)], machine_name, mode, control, bits)


def with_digits(form, draw, count, exponent):
    """Bits of a number with up to so many digits and this exponent."""
    lost = form.precision - count
    trailing = draw.word() % (1 << form.precision - 1) >> lost << lost
    return Encoding(form).normal(draw.between(0, 1), trailing, exponent)


def near_points(form, call, count, draw):
    """Bits of operands whose result is halfway between numbers of so many digits, or next to that."""
    exponent = draw.between(-9, 9)
    if call in ("add", "sub"):
        above = draw.between(-1, 1)
        trailing = above % (1 << form.precision - 1)
        half = Encoding(form).normal(draw.between(0, 1), trailing, exponent - count - (above < 0))
        return [with_digits(form, draw, count, exponent), half]
    if call == "sqrt":
        root = (draw.word() >> 64 - count | 1 << count - 1) << 1 | 1
        square = root * root + draw.between(-1, 1)
        lost = max(0, square.bit_length() - form.precision)
        return [encoded(form, number(form, False, square >> lost << lost + form.scale - 2 * count))]
    return [with_digits(form, draw, count, exponent), with_digits(form, draw, draw.between(2, 3), 1)]


def near_end(form, call, count, draw):
    """Bits of operands whose result is near the least or the greatest numbers."""
    if draw.between(0, 1):
        end = form.least_exponent - draw.between(-2, count + 2)
    else:
        end = form.greatest_exponent - draw.between(-2, 0)
    if call in ("mul", "div"):
        own = draw.between(end // 2 - 99, end // 2 + 99)
        other = end - own if call == "mul" else own - end
        return [with_digits(form, draw, form.precision - draw.between(0, 62), e) for e in (own, other)]
    end = max(form.least_exponent, min(end, form.greatest_exponent))
    other = max(form.least_exponent, end - draw.between(0, count + 2))
    denormal = Encoding(form).denormal(draw.between(0, 1), draw.word(), draw)
    first = with_digits(form, draw, count, end)
    return [first, denormal if draw.between(0, 3) == 0 else with_digits(form, draw, form.precision, other)]


def rows_of_precisions(draw):
    """Rows of the precision control of x87."""
    form = FORMATS["x87"]
    for precision, narrow in PRECISIONS.items():
        for call in CALLS:
            if call in ("fma", "to_u128"):
                continue
            for turn in range(48 if call in ARITHMETIC else 2):
                mode = (*MODES, odd.ODD)[turn % (len(MODES) + 1)]
                to = {"convert": "double", "to_i128": 32, "least": RULES[0], "greatest": RULES[0]}.get(call, 0)
                count = COUNTS.get(call, 2)
                if call not in ARITHMETIC or turn % 4 == 3:
                    drawn = [operand(form, draw) for _ in range(count)]
                elif turn % 4 == 2 and call != "sqrt":
                    drawn = near_end(form, call, narrow.precision, draw)
                else:
                    drawn = near_points(form, call, narrow.precision, draw)
                name = "x87+ieee+before" if turn % 5 == 4 else "x87"
                yield line(call, name, "x87", mode, precision | draw.between(0, 1) * UP, to, drawn)


def with_any_exponent(form, exponent, draw):
    """Bits of a number with up to all digits and about this exponent, which may be a denormal one."""
    digits = draw.wide_word() % (1 << form.precision - 1) | 1 << form.precision - 1
    lost = draw.between(0, form.precision - 1)
    places = max(form.least_exponent - form.precision + 1, min(exponent, form.greatest_exponent)) - form.least_exponent
    digits = digits >> lost << lost
    quanta = digits << places if places > 0 else max(1, digits >> -places)
    return encoded(form, number(form, bool(draw.between(0, 1)), quanta))


def past_ends(form, call, draw):
    """Bits of operands whose result is around or past the greatest or the least numbers."""
    below = draw.between(0, 1)
    end = form.least_exponent if below else form.greatest_exponent
    reach = form.precision + 2 if draw.between(0, 2) else form.greatest_exponent
    end += draw.between(-reach, 2) if below else draw.between(-2, reach)
    if call in ("add", "sub"):
        return [with_any_exponent(form, end - draw.between(0, 3), draw) for _ in range(2)]
    own = draw.between(end // 2 - form.precision, end // 2 + form.precision)
    other = own - end if call == "div" else end - own
    drawn = [with_any_exponent(form, exponent, draw) for exponent in (own, other)]
    return [*drawn, with_any_exponent(form, end - draw.between(-1, form.precision + 2), draw)][:COUNTS.get(call, 2)]


def rows_of_unmasked(draw):
    """Rows of unmasked overflow and underflow."""
    names_of_formats = [name for name in FORMS if name != "half"]
    for machine_name in ("x87", "power", "s390x"):
        for call in (*ARITHMETIC, "rem", "convert", "integral", "to_i128", "least"):
            if call == "fma" and machine_name == "x87":
                continue
            for turn in range(36 if call in ARITHMETIC else 2):
                mode = (*MODES, odd.ODD)[turn // len(names_of_formats) % (len(MODES) + 1)]
                name = names_of_formats[turn % len(names_of_formats)]
                to = {"convert": "single", "to_i128": 32, "least": RULES[0]}.get(call, 0)
                form = FORMATS[name]
                if call in ARITHMETIC and turn % 5 and call != "sqrt":
                    drawn = past_ends(form, call, draw)
                else:
                    drawn = [operand(form, draw) for _ in range(COUNTS.get(call, 2))]
                yield line(call, name, machine_name, mode, UNMASKED | draw.between(0, 1) * UP, to, drawn)
    form = FORMATS["x87"]
    for precision in PRECISIONS:
        for call in ("add", "sub", "mul", "div"):
            for turn in range(18):
                mode = (*MODES, odd.ODD)[turn % (len(MODES) + 1)]
                drawn = past_ends(form, call, draw)
                name = "x87+ieee+before" if turn % 5 == 4 else "x87"
                yield line(call, name, "x87", mode, UNMASKED | precision | draw.between(0, 1) * UP, 0, drawn)


def main():
    """Prints the file."""
    print("# Operations of machines with control words. Computed by evidence/instructions.py.")
    draw = Generator()
    parts = (rows, rows_of_precisions, rows_of_unmasked, rows_of_ranges, rows_of_halves)
    print("\n".join(row for part in parts for row in part(draw)))


if __name__ == "__main__":
    main()
