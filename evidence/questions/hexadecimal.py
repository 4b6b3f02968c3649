"""Values in hexadecimal digits."""

from exact.formats import FORMATS, LATER_FORMATS, PROGRAM_FORMATS
from questions.operands import Operands
from questions.operations import row, word_of

_FORMATS = [form.name for form in (*PROGRAM_FORMATS, *LATER_FORMATS)]


def question(choices):
    """A call without its answer."""
    operands = Operands(choices, FORMATS[choices.choice(_FORMATS)])
    name, word = operands.form.name, word_of(operands, operands.any())
    if choices.random() < 0.4:
        return row("write_hex", name, "-", word)
    most = -(-(operands.form.precision - 1) // 4)
    count = choices.choice([choices.randint(0, most), choices.randint(0, 2), most, 31])
    return row("write_hex_rounded", name, operands.mode().value, f"{word} {count}")
