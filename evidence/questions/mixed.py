"""Commands of the program `vectors`, and conversions."""

from exact.formats import PROGRAM_FORMATS
from exact.pairs import PAIRS
from exact.rounding import Mode
from exact.values import VALUES

_NAMES = [known.name for known in PROGRAM_FORMATS]
_OPERATIONS = {"add": 2, "sub": 2, "mul": 2, "div": 2, "rem": 2, "mod": 2, "fma": 3}


def question(choices):
    """A command or a conversion."""
    return choices.choice([command, command, conversion])(choices)


def command(choices):
    """A command without its reply."""
    name = choices.choice([*_NAMES, PAIRS.name])
    kind = PAIRS if name == PAIRS.name else VALUES[name]
    mode = choices.choice(list(Mode)).value
    operation = choices.choice([*_OPERATIONS, "int", "parse"])
    if operation == "int":
        operands = [str(choices.getrandbits(choices.randint(1, 128)))]
    elif operation == "parse":
        operands = [text(choices, kind)]
    else:
        operands = bits_of_operands(choices, kind, _OPERATIONS[operation])
    return " ".join([name, operation, mode, *operands]) + "\t"


def conversion(choices):
    """A conversion between two formats, without its answer."""
    source, target = choices.choice(_NAMES), choices.choice(_NAMES)
    mode = choices.choice(list(Mode)).value
    (operand,) = bits_of_operands(choices, VALUES[source], 1)
    return f"convert_r\t{source}>{target}\t{mode}\t{operand}\t\t\tloses_info="


def bits_of_operands(choices, kind, count):
    """The bits of so many operands, as hexadecimal digits."""
    limits = [kind.zero(), kind.smallest(), kind.smallest_normalized(), kind.largest(),
              kind.infinity(), kind.qnan(1), kind.snan(1)]
    operands = []
    for _ in range(count):
        near = kind.encoded(choices.choice(limits))
        if operands and choices.random() < 0.5:
            near = operands[-1]
        operand = choices.choice([choices.getrandbits(kind.bits), near])
        if choices.random() < 0.5:
            operand += choices.randint(-3, 3)
        if choices.random() < 0.3:
            operand ^= 1 << kind.bits - 1
        operands.append(operand % (1 << kind.bits))
    return [f"{operand:0{kind.hexadecimal_digits}x}" for operand in operands]


def text(choices, kind):
    """A hexadecimal literal near the limits of a kind of values, or near 1."""
    around = choices.choice([kind.least_exponent - kind.precision, kind.greatest_exponent, 0])
    exponent = around + choices.randint(-3, kind.precision)
    digits = f"{choices.getrandbits(4 * choices.randint(1, kind.precision // 4 + 3)):x}"
    return f"{choices.choice(['', '-'])}0x1.{digits}p{exponent}"
