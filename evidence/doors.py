#!/usr/bin/env python3
"""python3 evidence/doors.py [--check]: the table of docs/LIBRARY.md of what each way into the library has.

Each cell is the name that shows it: the first one that the sources of that way declare and that fits the pattern below.
The proved library has a name for every row. A row with an empty cell has its reason below the table. Without --check
the page is written; with it, the script says how the page differs from the sources, and exits with 1 if it does.
"""

import pathlib
import re
import sys

TOP = pathlib.Path(__file__).resolve().parent.parent
PAGE = TOP / 'docs' / 'LIBRARY.md'

# The ways, each with its files and the forms that declare a NAME there.
WAYS = {
    'Proved library': ('crates/*/src/**/*.rt', (r'^\s*pub (?:fn|struct|enum|trait) NAME\b', r'^    fn NAME\(')),
    'Rust crate': ('rust/rustc_apfloat/src/*.rs', (r'^\s*(?:pub )?(?:fn|struct|enum|trait) NAME\b', r'^    NAME \{ ')),
    'C': ('include/apfloat.h', (r'^apfloat_error NAME\(', r'^    NAME = ')),
    'C++': ('include/apfloat.hpp',
            (r'^\s*(?:class|struct) NAME\b', r'^[^/=(]*[>&* ]NAME\(', r'`NAME`', r'std::NAME\b')),
    'Python': ('python/apfloat.py', (r'^\s*(?:def|class) NAME\b',)),
    'Programs': ('rust/programs/src/bin/**/*.rs crates/commands/src/**/*.rt crates/convert_values/src/**/*.rt',
                 (r'"NAME"', r'^usage: NAME ', r'\[NAME[ \]]')),
}

HEADING = f'| | {" | ".join(list(WAYS)[1:])} |'

# What there is, with a pattern of its names in each way.
ROWS = (
    ('flags of IEEE 754', 'IeeeFlags', 'IeeeFlags', 'APFLOAT_IEEE_FLAGS', 'ieee', 'ieee', r'\+ieee'),
    ('machines', 'settled', 'settled', 'apfloat_machine', 'on_machine', 'machine', '--machine'),
    ('decimals with these flags', 'read_decimal', 'from_str_r', 'apfloat_read_decimal', r'read_decimal|decimal_of',
     '__call__', None),
    ('digits of any count', 'write_digits', 'write_digits', 'apfloat_write_digits', 'scientific', '__format__',
     'write_digits'),
    ('hexadecimal output', 'write_hex', 'write_hex', 'apfloat_write_hex', 'hexfloat', 'hex', 'write_hex'),
    ('pairs as other formats', 'pair_to_format', 'to_format', r'apfloat_\w*pair\w*', r'pair_(?:to|from)\w*',
     r'as_pair|from_pair', 'dd'),
    ('augmented operations', 'augmented_add', 'augmented_add', r'apfloat_augmented\w*', r'augmented\w*',
     r'augmented\w*', 'augmented_add'),
    ('payloads as values', 'get_payload', 'get_payload', r'apfloat_\w*payload\w*', r'get_payload', r'payload',
     'get_payload'),
    ('exact reductions', 'dot_r', 'dot', r'apfloat_\w*dot', 'dot', 'dot', 'reduce_values'),
    ('arrays', 'ArrayConversion', 'map', 'apfloat_map_array', 'map_array', 'Array', 'convert_values'),
    ('storage formats', 'StoredFloat', 'StoredFloat', r'apfloat_to_storage|APFLOAT_E2M1FN', 'stored', r'Stored\w*',
     'e2m1fn'),
    ('blocks of MX', 'quantize_block', 'Block', 'apfloat_quantize_blocks', 'quantize_blocks', 'mx', '--block'),
    ('blocks of NVFP4', 'quantize_nvfp4_block', 'Nvfp4Block', r'apfloat_\w*nvfp4\w*', 'quantize_nvfp4', r'\w*nvfp4\w*',
     'quantize_nvfp4_block'),
    ('formats of P3109', 'Projected', 'Projected', r'apfloat_\w*(?:p3109|project)\w*|APFLOAT_BINARY\w+',
     r'\w*(?:p3109|project)\w*', r'\w*(?:p3109|project)\w*', 'binary8p3se'),
    ('rounding to odd', 'to_odd', 'to_odd', r'APFLOAT_TO_ODD|apfloat_\w*odd', r'to_\w*odd', r'\w*to_odd', 'add_odd'),
    ('random digits', 'RandomDigits', 'RandomDigits', r'APFLOAT_RANDOM_DIGITS|apfloat_\w*(?:random|stochastic)\w*',
     r'\w*(?:random|stochastic)\w*', r'\w*(?:random|stochastic)\w*', '--stochastic'),
    ('what a conversion did', 'Counts', 'Counts', 'apfloat_convert_array', 'convert_array', 'report',
     'report_conversion'),
    ("a format's constants", 'Semantics', 'Constants', 'apfloat_format_facts', 'numeric_limits', 'finfo', None),
    ('formats chosen at run time', 'BuiltInFormat', 'AnyFloat', 'APFLOAT_HALF', 'any_value', 'Format', 'half'),
)

# Why C, and with it C++ and Python, or the programs have an empty cell in a row.
REASONS = {
    'decimals with these flags': {'Programs': 'rows lack them'},
    "a format's constants": {'Programs': '`docs/FORMATS.md` has them'},
}


def declared(patterns, globs, forms):
    """The name that each pattern finds in the files, or an empty text."""
    text = '\n'.join(path.read_text() for glob in globs.split() for path in sorted(TOP.glob(glob)))
    for pattern in patterns:
        found = [match for form in forms if pattern
                 for match in [re.search(form.replace('NAME', f'({pattern})'), text, re.MULTILINE)] if match]
        yield found[0][1] if found else ''


def table():
    """The lines of the table, and of the reasons."""
    cells = [list(declared([row[1 + place] for row in ROWS], *way)) for place, way in enumerate(WAYS.values())]
    lacking = [row[0] for row, name in zip(ROWS, cells[0]) if not name]
    if lacking:
        raise SystemExit(f'the proved library lacks {", ".join(lacking)}')
    ways = list(WAYS)[1:]
    yield HEADING
    yield '|---' * (1 + len(ways)) + '|'
    empty = []
    for row, names in zip(ROWS, zip(*cells[1:])):
        yield '|'.join(['', f' {row[0]} ', *[f' `{name}` ' if name else ' ' for name in names], ''])
        lacking = [way for way, name in zip(ways, names) if not name]
        if lacking:
            empty.append(f'{row[0]}, {", ".join(reasons(row[0], lacking))}')
    if empty:
        yield ''
        yield f'Empty cells: {"; ".join(empty)}.'


def reasons(row, lacking):
    """Why these ways lack what the row is about."""
    if 'C' in lacking:
        yield REASONS[row]['C']
    elif lacking != ['Programs']:
        yield f'{" and ".join(way for way in lacking if way != "Programs")} by the functions of C alone'
    if 'Programs' in lacking:
        yield REASONS[row]['Programs']


def main(words):
    """Writes the page, or compares it."""
    if words not in ([], ['--check']):
        print(__doc__.splitlines()[0], file=sys.stderr)
        return 2
    page = PAGE.read_text()
    start = page.index(HEADING)
    end = page.index('\n\n## ', start)
    made = page[:start] + '\n'.join(table()) + page[end:]
    if not words:
        PAGE.write_text(made)
        return 0
    for old, new in zip(page.splitlines(), made.splitlines()):
        if old != new:
            print(f'docs/LIBRARY.md has:  {old}\nthe sources declare: {new}')
    return made != page


if __name__ == '__main__':
    sys.exit(main(sys.argv[1:]))
