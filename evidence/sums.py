"""python3 evidence/sums.py PROGRAM: compares what the program `reduce_values` writes with the model.

Streams are drawn from a seed: values of each format, some of which cancel, and blocks of each form. The results are
those of `reductions.py` and `block_dots.py`. It prints what differs, and ends with 1 if something does.
"""

import subprocess
import sys
import tempfile
from pathlib import Path
from random import Random

from block_dots import result as result_of_blocks
from blocks import ELEMENTS
from exact.formats import FORMATS
from exact.status import names
from reductions import CALLS, drawn_terms, result
from row_files import MODES

FORMATS_OF_VALUES = (
    "half single double bfloat e5m2 e4m3fn e4m3fnuz e4m3 e5m2fnuz e4m3b11fnuz tf32 quad x87".split()
)

FORMS = {"mxfp8e5m2": 0, "mxfp8e4m3": 1, "mxfp6e3m2": 2, "mxfp6e2m3": 3, "mxfp4": 4}

# Lengths of streams of values, and of two that are not read at once.
COUNTS = (0, 1, 2, 7, 50)
LONG = 40_000


def width(form):
    """How many bytes a value takes in a stream."""
    return 4 if form.name == "tf32" else -(-form.bits // 8)


def value_case(random, form, call, mode, count):
    """Words, a stream, a file and what is to be written."""
    sides = [drawn_terms(form, random, count) for _ in range(2)]
    left, right = [b"".join(bits.to_bytes(width(form), "little") for bits in side) for side in sides]
    return [call, form.name, mode.value], left, right if call == "dot" else None, result(form, call, *sides, mode)


def packed(element, codes):
    """The codes of a block in bytes, the first in the lowest bits."""
    number = sum(code << element.bits * place for place, code in enumerate(codes))
    return number.to_bytes(len(codes) * element.bits // 8, "little")


def stream_of(vector):
    """A vector of MX as a stream of blocks."""
    (element, _), length, scales, codes = vector
    blocks = [codes[place : place + length] for place in range(0, len(codes), length)]
    return b"".join(bytes([scale]) + packed(element, block) for scale, block in zip(scales, blocks))


def value_cases(random):
    """Cases of each format, and of streams that are not read at once."""
    for index, name in enumerate(FORMATS_OF_VALUES):
        for count in COUNTS:
            call, mode = CALLS[(index + count) % len(CALLS)], random.choice(MODES)
            yield value_case(random, FORMATS[name], call, mode, count)
    for call in ("sum", "dot"):
        yield value_case(random, FORMATS["e5m2"], call, random.choice(MODES), LONG)


def block_cases(random):
    """Cases of blocks."""
    for name, place in FORMS.items():
        for target in ("half", "single", "double", "e4m3fn", "quad"):
            mode = random.choice(MODES)
            length, count = random.choice((4, 8, 32)), random.randrange(4)
            vectors = []
            for _ in range(2):
                scales = [random.randrange(100, 150) for _ in range(count)]
                codes = [random.randrange(1 << ELEMENTS[place].bits) for _ in range(count * length)]
                vectors.append(((ELEMENTS[place], None), length, scales, codes))
            words = ["--block-length", str(length), "dot_blocks", name, target, mode.value]
            yield words, *map(stream_of, vectors), result_of_blocks(FORMATS[target], *vectors, mode)


def main(program):
    random = Random(12)
    differences = 0
    with tempfile.TemporaryDirectory() as room:
        other = Path(room) / "other"
        for words, left, right, (bits, status) in (*value_cases(random), *block_cases(random)):
            if right is not None:
                other.write_bytes(right)
                words = [*words, str(other)]
            done = subprocess.run([program, *words], input=left, capture_output=True, check=False)
            written = f"{done.returncode} {done.stdout.decode()}{done.stderr.decode()}"
            if written != f"0 {bits} {names(status)}\n":
                differences += 1
                print(f"{' '.join(words)}: {written.strip()}, not {bits} {names(status)}")
    return int(differences > 0)


if __name__ == "__main__":
    sys.exit(main(sys.argv[1]))
