#!/usr/bin/env python3
"""python3 evidence/names_in_docs.py: whether the pages name what is there.

Every file, crate, function, definition and script between backticks on a page has to be in the tree, and every page of
docs/ that a file names has to exist. Prints what is not there, with page and line, and exits with 1 if there is any.
"""

import pathlib
import re
import subprocess
import sys

TOP = pathlib.Path(__file__).resolve().parent.parent
# Names of other software, and of what is made and not stored.
ELSEWHERE = {
    'ml_dtypes', 'testfloat_gen', 'softfloat_roundPackToF32', 'SOFTFLOAT_8086_SSE', 'PROVED.md', 'third.c',
}
ENDINGS = '.rt .antt .py .c .cpp .rs .h .hpp .tsv .edit .md .sh .toml .txt'.split()
# Folders that a build or an installation makes.
MADE = re.compile(r'(^|/)(out|target|installed|OUT|PREFIX|share|lib|bin)(/|$)|\.(a|so|gz|whl|crate)\b|^apfloat-')


def tracked():
    """The files of the repository, those that were not committed yet too."""
    said = subprocess.check_output(['git', 'ls-files', '-co', '--exclude-standard'], cwd=TOP, text=True)
    return [path for path in said.splitlines() if (TOP / path).is_file()]


def words_of(paths):
    """Every word of the files, and the names of files and folders."""
    found = set()
    for path in paths:
        for part in pathlib.PurePath(path).parts:
            found |= {part, part.split('.')[0]}
        if path.endswith('.md') or path.startswith('tests/rows/') and path.endswith('.tsv'):
            continue
        try:
            text = (TOP / path).read_text()
        except UnicodeDecodeError:
            continue
        found.update(re.findall(r'[A-Za-z_][A-Za-z0-9_]*', text))
        found.update(re.findall(r'[A-Za-z][A-Za-z0-9]*(?:[-_][A-Za-z0-9]+)+', text))
    return found


def is_name(word):
    """Whether a word can only be a name of code: it has an underscore, or capitals inside."""
    return '_' in word.strip('_') or re.fullmatch(r'[A-Z]+[a-z0-9]+[A-Z]\w*', word) is not None


def spans(text):
    """The texts between backticks outside blocks of code, each with its line."""
    inside = False
    for number, line in enumerate(text.splitlines(), 1):
        if line.startswith('```'):
            inside = not inside
        if inside or line.startswith('    '):
            continue
        for span in re.findall(r'``(.+?)``|`([^`]+)`', line):
            yield number, span[0] or span[1]


def is_there(path, paths):
    """Whether a path of the page is one of the tree, from the top, from crates/, or from a folder within."""
    pattern = re.sub(r'[A-Z]{2,}|\*', '*', path).removesuffix('/')
    for start in ('', 'crates/', 'crates/*/', 'crates/*/src/', 'crates/*/specs/', 'crates/*/proofs/', 'rust/',
                  'rust/programs/src/bin/*/', 'evidence/', 'tests/', 'tests/rows/'):
        whole = start + path
        if whole in paths or next(TOP.glob(start + pattern), None) is not None:
            return True
    return False


def faults_of(page, words, paths):
    """What a page names and the tree lacks."""
    for number, span in spans((TOP / page).read_text()):
        for word in re.findall(r'[\w./*:<>{}$@+-]+', span):
            word = word.rstrip('.:')
            if '/' in word and re.fullmatch(r'[\w./*-]+', word) and not MADE.search(word):
                first = word.split('/')[0]
                if first in {path.split('/')[0] for path in paths} or pathlib.PurePath(word).suffix in ENDINGS:
                    if not is_there(word, paths):
                        yield f'{page}:{number}: no file: {word}'
                continue
            if pathlib.PurePath(word).suffix in ENDINGS and re.fullmatch(r'[\w.-]+', word) and not MADE.search(word):
                if word not in words | ELSEWHERE:
                    yield f'{page}:{number}: no file: {word}'
                continue
            for name in re.findall(r'[A-Za-z_]\w*', word):
                if is_name(name) and not {name, name.removeprefix('D')} & (words | ELSEWHERE):
                    yield f'{page}:{number}: no name: {name}'


def pages_named(paths):
    """The pages that a file names and that do not exist."""
    for path in paths:
        try:
            text = (TOP / path).read_text()
        except UnicodeDecodeError:
            continue
        for page in sorted(set(re.findall(r'\bdocs/[A-Z_]+\.md', text))):
            if page not in paths:
                yield f'{path}: no page: {page}'


def main():
    """Prints the faults."""
    paths = set(tracked())
    words = words_of(paths)
    faults = list(pages_named(sorted(paths)))
    for page in sorted(path for path in paths if path.endswith('.md')):
        faults += faults_of(page, words, paths)
    print('\n'.join(faults) or 'names_in_docs: every name on the pages is there')
    return 1 if faults else 0


if __name__ == '__main__':
    sys.exit(main())
