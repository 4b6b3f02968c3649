#!/usr/bin/env python3
"""Converts a stream of values from format to format, as the program `convert_values` does.

    python3 evidence/streams.py [--saturate | --saturate-finite | --saturate-all] FROM TO MODE < FILE > OTHER

A value is its bits, the lowest byte first; those of x87 take 10 bytes, and those of tf32 4. An
unfinished value at the end is ignored.
"""

import functools
import sys

from exact.bits import decoded, encoded
from exact.conversions import convert, convert_finite, convert_saturating
from exact.formats import LATER_FORMATS, PROGRAM_FORMATS
from exact.rounding import Mode

_FORMATS = {known.name: known for known in (*PROGRAM_FORMATS, *LATER_FORMATS)}
_SATURATING = {
    "--saturate": convert_saturating,
    "--saturate-finite": functools.partial(convert_finite, keeps_nans=True),
    "--saturate-all": functools.partial(convert_finite, keeps_nans=False),
}


def main():
    """Converts standard input to standard output."""
    saturates = sys.argv[1] in _SATURATING
    *formats, mode = sys.argv[2 if saturates else 1:]
    source, target = (_FORMATS[word] for word in formats)
    mode = Mode(mode)
    conversion = _SATURATING[sys.argv[1]] if saturates else convert
    values = sys.stdin.buffer.read()
    size = bytes_of(source)
    for place in range(0, len(values) - size + 1, size):
        x = decoded(source, int.from_bytes(values[place:place + size], "little") % (1 << source.bits))
        y = conversion(source, target, x, mode)[0]
        sys.stdout.buffer.write(encoded(target, y).to_bytes(bytes_of(target), "little"))


def bytes_of(form):
    """How many bytes a value takes. Three are four."""
    size = -(-form.bits // 8)
    return 4 if size == 3 else size


if __name__ == "__main__":
    main()
