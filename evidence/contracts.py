#!/usr/bin/env python3
"""Makes the tables of contracts in docs/MODEL.md from the sources in crates/.

    python3 evidence/contracts.py            writes them
    python3 evidence/contracts.py --check    says whether they are those that the sources give

A row has the calls with the same statement: the relation that their clauses (`ensures`) begin with, or the function
that the result equals. A call of `Float` has the statement of the field of `meaning` that its clause names, for formats
and for pairs. Theorems are functions with an empty body; those that a result is the only one are left out.
"""

import pathlib
import re
import sys

TOP = pathlib.Path(__file__).resolve().parent.parent
CRATES = TOP / 'crates'
PAGE = TOP / 'docs' / 'MODEL.md'
BEGIN, END = '<!-- made by evidence/contracts.py -->', '<!-- end -->'
# Public modules for the crates above, which no user calls.
INSIDE = {'exponents', 'formatting', 'large', 'lanes', 'words', 'cuts', 'picks', 'grid_points', 'statuses', 'flagged',
          'built_in_formats', 'order', 'products'}
# What a clause says of what it is about, before it says what the result is.
ASIDE = {'IsWithin', 'IsTrue', 'IsPositive', 'IsMember', 'IsBetween', 'AreAtMost', 'IsOneLower', 'IsSingle', 'IsOwn',
         'IsExactly', 'AreLookedUp', 'IsStoredBy', 'IsOffered'}
# Functions of the language's library, words of clauses, and functions of no use to a caller.
PLAIN = {'self', 'if', 'up', 'down', 'neg_ℤ', 'ltb', 'eqb', 'bits', 'pos', 'finite', 'length', 'exponent', 'flags',
         'true', 'false', '2', 'target', 'width', 'found', 'with_status', 'narrowed', 'fields_of'}
LIBRARIES = ('apfloat_ieee', 'rustc_apfloat', 'apfloat_decimals', 'apfloat_digits', 'ieee_operations', 'round_to_odd',
             'apfloat_machines', 'fast_bits', 'small_formats', 'p3109_formats', 'apfloat_arrays', 'apfloat_c',
             'arrays_for_c', 'commands')
HEAD = re.compile(r'^( *)pub (?:const )?(?:extern "C" )?fn (\w+)', re.M)
RELATION = re.compile(r'\b((?:Is|Are|Has|Gives|Leads|Stays)[A-Z]\w*)')


def clauses(text, start):
    """The clauses of the function that begins there, and whether its body is empty."""
    end = re.compile(r'^ *\{\}?$|;$', re.M).search(text, start)
    head = text[start:end.start() if end else None]
    found = re.findall(r'ensures (?:\w+ )?\{(.*?)\}(?=;?\s*(?:ensures|requires|$))', head, re.S)
    return found, end is not None and end.group().strip() == '{}'


def statement(found):
    """What the clauses say, in one name: the first relation, or else the function that the result equals."""
    for clause in found:
        for name in RELATION.findall(clause.split('→')[-1]):
            if name not in ASIDE:
                return name
    for clause in found:
        equal = re.match(r'\s*result(?:\.\w+)? ≡ \(?(\w+)', clause)
        if equal and equal[1] not in PLAIN:
            return equal[1]
    return None


def exported(crate):
    """The names of a crate's `pub use`, and its public modules, whose functions are public too."""
    names, modules = set(), ['lib']
    for module in modules:
        text = (CRATES / crate / 'src' / f'{module}.rt').read_text()
        for used in re.findall(r'^pub use ([^;]+);', text, re.M):
            names.update(re.findall(r'\w+', used))
        folder = '' if module == 'lib' else f'{module}/'
        modules += [folder + name for name in re.findall(r'^pub mod (\w+);', text, re.M) if name not in INSIDE]
    return names, {module.split('/')[-1] for module in modules}


def calls_of(crate):
    """The public calls of a crate with their statements, and its theorems."""
    names, modules = exported(crate)
    calls, theorems = {}, []
    for path in sorted((CRATES / crate / 'src').rglob('*.rt')):
        text = path.read_text()
        for head in HEAD.finditer(text):
            indent, name = head.groups()
            found, empty = clauses(text, head.start())
            if indent:
                owner = re.findall(r'^impl(?:<[^>]*>)? (\w+)(?:<[^>]*>)? \{', text[:head.start()], re.M)
                if not owner or owner[-1] not in names | {'IeeeFloat', 'DoubleFloat'}:
                    continue
                name = name if owner[-1] == 'IeeeFloat' else f'{owner[-1]}::{name}'
            elif name not in names and path.stem not in modules and not name.startswith('apfloat_'):
                continue
            said = statement(found)
            if empty and not indent:
                theorems += [] if re.search('_have_one_answer$|(?<!_rounding)_once$', name) else [name]
            elif said and name not in calls.get(said, []):
                calls.setdefault(said, []).append(name)
    return calls, theorems


def meaning_of(path):
    """The relation that each field of a `Meaning` is."""
    return {field: next(iter(RELATION.findall(said)), said.split()[0])
            for field, said in re.findall(r'^      (\w+) = ((?:.|\n)*?);', path.read_text(), re.M)}


def of_float():
    """The rows of the calls of `Float`."""
    formats = meaning_of(CRATES / 'apfloat_ieee/specs/FormatMeaning.antt')
    pairs = meaning_of(CRATES / 'rustc_apfloat/specs/double_doubles/PairMeaning.antt')
    text = (CRATES / 'apfloat_base/src/float.rt').read_text()
    calls = {}
    for head in re.finditer(r'^    (?:final )?fn (\w+)', text, re.M):
        found, _ = clauses(text, head.start())
        fields = re.findall(r'meaning\.(\w+)', ' '.join(found))
        if len(set(fields)) == 1 or head[1] == 'to_bits':
            calls.setdefault(fields[0], []).append(head[1])
    return [f'- {joined(names)}: `{formats[field]}`, `{pairs[field]}`' for field, names in calls.items()
            if not field.startswith('the_')]


def listed(names):
    """The names, but of calls that stand for many of their kind the first alone."""
    return [name for name in names if not re.match(r'compare_(quiet|signaling)_', name)]


def joined(names):
    """Names as a page has them."""
    return ' '.join(f'`{name}`' for name in names)


def made():
    """What stands between the marks."""
    lines = ['**`Float`**, of a format and of pairs of doubles:', '', *of_float()]
    for crate in LIBRARIES:
        calls, theorems = calls_of(crate)
        same = [names[0] for said, names in calls.items() if names == [said] or names[0].split('::')[-1] == said]
        lines += ['', f'**`{crate}`**', '']
        lines += [f'- {joined(listed(names))}: `{said}`' for said, names in calls.items() if names[0] not in same]
        if same:
            lines.append(f'- The functions of the same names: {joined(same)}')
        if theorems:
            lines.append(f'- Theorems: {joined(theorems)}')
    return '\n'.join([BEGIN, '', *lines, '', END])


def main(words):
    """Writes the tables, or compares them."""
    text = PAGE.read_text()
    wanted, count = re.subn(re.escape(BEGIN) + '.*?' + re.escape(END), lambda _: made(), text, flags=re.S)
    if count != 1:
        sys.exit(f'docs/MODEL.md: {count} times: {BEGIN}')
    if words == ['--check']:
        print('contracts: docs/MODEL.md has those of crates/' if text == wanted else
              'contracts: docs/MODEL.md: run evidence/contracts.py')
        return text != wanted
    PAGE.write_text(wanted)
    return 0


if __name__ == '__main__':
    sys.exit(main(sys.argv[1:]))
