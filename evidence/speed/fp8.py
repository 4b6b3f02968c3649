#!/usr/bin/env python3
"""Times conversions of float32 tensors to narrow formats and back, in turn with ml_dtypes and numpy.

    python3 evidence/speed/fp8.py LIBRARY.so [--count N] [--rounds N] [--store]

LIBRARY.so is the shared library for C, as packaging/install or cargo makes it. *Python* is the module's call, with what
it does around the library's; *C* is that call alone, of apfloat_convert_array, from memory to memory. *Others* is
ml_dtypes, if it is installed, and for half numpy itself: they count nothing and raise no flags. A time is that of one
value in nanoseconds, the fastest of N rounds, in each of which every side converts the whole tensor once. All results
have to be the same. numpy is needed. --store puts the table into evidence/speed/README.md.
"""

import argparse
import ctypes
import os
import subprocess
import sys
import time
from pathlib import Path

ROOT = Path(__file__).resolve().parent.parent.parent
PAGE = ROOT / 'evidence' / 'speed' / 'README.md'
BEGIN, END = '<!-- made by evidence/speed/fp8.py -->', '<!-- end -->'
# Each format's type in ml_dtypes or numpy, which is its name there, and the type of its bits.
FORMATS = {
    'e4m3fn': ('float8_e4m3fn', 'u1'), 'e5m2': ('float8_e5m2', 'u1'), 'e4m3fnuz': ('float8_e4m3fnuz', 'u1'),
    'bfloat': ('bfloat16', 'u2'), 'half': ('float16', 'u2'),
}
SINGLE, NEAREST_EVEN = 2, 0


def main():
    """Measures all cells, and prints or stores the table."""
    parser = argparse.ArgumentParser(description='Times conversions of tensors to narrow formats and back.')
    parser.add_argument('library', type=Path, help='the shared library for C')
    parser.add_argument('--count', type=int, default=1 << 20, help='how many values a tensor has')
    parser.add_argument('--rounds', type=int, default=20)
    parser.add_argument('--store', action='store_true', help='put the table into evidence/speed/README.md')
    arguments = parser.parse_args()
    os.environ['APFLOAT_LIBRARY'] = str(arguments.library.resolve())
    sys.path.insert(0, str(ROOT / 'python'))
    library = ctypes.CDLL(os.environ['APFLOAT_LIBRARY'])
    rows = []
    for kind, tensor in tensors(arguments.count).items():
        for name in FORMATS:
            measured = [least(sides, arguments.rounds, arguments.count) for sides in both_ways(library, name, tensor)]
            rows.append((kind, name, *measured))
            print(f'{kind}, {name}: done', file=sys.stderr)
    print(table(rows), end='')
    if arguments.store:
        store(table(rows), arguments.count)


def tensors(count):
    """Tensors by what their values are like."""
    import numpy
    draw = numpy.random.default_rng(1)
    near = draw.standard_normal(count)
    # From values that vanish to those that overflow, in the formats of eight bits.
    far = numpy.exp2(draw.uniform(-20, 18, count)) * draw.choice([-1, 1], count)
    return {'normal': near.astype(numpy.float32), 'spread': far.astype(numpy.float32)}


def both_ways(library, name, tensor):
    """The sides that convert a tensor to a format, and those that convert it back, by their names."""
    import numpy
    import apfloat
    format, (peer_name, bits) = getattr(apfloat, name), FORMATS[name]
    codes = format.array(tensor)
    there = {'Python': lambda: format.array(tensor).bits, 'C': by_c(library, SINGLE, format.code, tensor, bits)}
    back = {'Python': lambda: numpy.asarray(codes, dtype=numpy.float32),
            'C': by_c(library, format.code, SINGLE, codes.bits.copy(), 'f4')}
    peer = peer_type(peer_name)
    if peer is not None:
        of_peer = codes.bits.copy().view(peer)
        there['others'] = lambda: tensor.astype(peer).view(bits)
        back['others'] = lambda: of_peer.astype(numpy.float32)
    return there, back


def peer_type(name):
    """The type of numpy or ml_dtypes with this name, if it is there."""
    import numpy
    if hasattr(numpy, name):
        return getattr(numpy, name)
    try:
        import ml_dtypes
    except ImportError:
        return None
    return getattr(ml_dtypes, name)


def by_c(library, source, target, values, element):
    """The call of the library alone."""
    import numpy
    results = numpy.empty(len(values), dtype=element)
    # More than an apfloat_array_answer takes.
    answer = (ctypes.c_uint64 * 16)()
    given = (ctypes.c_void_p(values.ctypes.data), ctypes.c_size_t(values.nbytes))
    place = (ctypes.c_void_p(results.ctypes.data), ctypes.c_size_t(results.nbytes))

    def convert(_kept=values):
        code = library.apfloat_convert_array(source, NEAREST_EVEN, target, *given, *place, answer)
        if code:
            sys.exit(f'apfloat_convert_array returned {code}')
        return results

    return convert


def least(sides, rounds, count):
    """The nanoseconds of a value by each side; the results have to be the same, but for the bits of a NaN."""
    import numpy
    # numpy warns of overflows.
    numpy.seterr(all='ignore')
    results = {name: side() for name, side in sides.items()}
    times = dict.fromkeys(sides, float('inf'))
    for _ in range(rounds):
        for name, side in sides.items():
            start = time.perf_counter()
            side()
            times[name] = min(times[name], time.perf_counter() - start)
    first, *others = results.values()
    if any(not numpy.array_equal(first, other, equal_nan=first.dtype.kind == 'f') for other in others):
        print(f'different results: {", ".join(results)}', file=sys.stderr)
    return {name: spent * 1e9 / count for name, spent in times.items()}


def table(rows):
    """The table of all cells."""
    columns = ('Python', 'C', 'others')
    lines = ['| Values, format | to it: Python | C | others | back: Python | C | others |', '|---' * 7 + '|']
    for kind, name, *ways in rows:
        cells = [f'{way[column]:.1f}' if column in way else '-' for way in ways for column in columns]
        lines.append(f'| {kind}, `{name}` | {" | ".join(cells)} |')
    return '\n'.join(lines) + '\n'


def store(text, count):
    """Puts the table into the page."""
    commit = subprocess.check_output(['git', 'rev-parse', '--short=8', 'HEAD'], cwd=ROOT, text=True).strip()
    before, made = PAGE.read_text().split(BEGIN)
    said = f'At commit `{commit}`, nanoseconds of a value in a tensor of {count:,}:\n\n{text}'
    PAGE.write_text(f'{before}{BEGIN}\n\n{said}\n{END}{made.split(END, 1)[1]}')


if __name__ == '__main__':
    main()
