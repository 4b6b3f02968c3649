"""Long decimal texts in a short form, which tests/c/short_forms.h spells out as well.

In a text, {12:1000} stands for the digits 12 a thousand times, {3*5^1075} for the digits of that
integer, and {3*5^1075-1} for those of the integer below it.
"""

import re

_PART = re.compile(r"\{([0-9]+)(?::([0-9]+)|\*([0-9]+)\^([0-9]+)([+-][0-9]+)?)\}")

# Shorter ones are written as they are.
_LONG = 60


def spelled_out(form):
    """The text that a form stands for."""
    return _PART.sub(lambda part: part_spelled_out(*part.groups()), form)


def part_spelled_out(digits, count, base, power, change):
    """The text of what is between two braces."""
    if count:
        return digits * int(count)
    return str(int(digits) * int(base) ** int(power) + int(change or 0))


def repeated(digits, count):
    """Digits that are repeated."""
    return f"{{{digits}:{count}}}" if len(digits) * count > _LONG else digits * count


def product(factor, base, power, change):
    """The digits of factor * base^power + change, and how many they are."""
    digits = str(factor * base**power + change)
    if len(digits) <= _LONG:
        return digits, len(digits)
    return f"{{{factor}*{base}^{power}{f'{change:+}' if change else ''}}}", len(digits)
