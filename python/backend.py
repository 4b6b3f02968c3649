"""Makes the wheel of the module apfloat, as pip asks for it (PEP 517), from a checkout and without a network.

The wheel has the module as a package, with the mark of its type hints and the shared library. That is the one which
cargo builds from rust/apfloat or, if APFLOAT_LIBRARY is set, a copy of the file that it names. What is going on is said
on the standard error output and, since pip keeps that to itself, on the terminal.
"""

import base64
import hashlib
import json
import os
import pathlib
import shutil
import subprocess
import sys
import sysconfig
import time
import tomllib
import zipfile

HERE = pathlib.Path(__file__).resolve().parent
CRATE = HERE.parent / 'rust' / 'apfloat' / 'Cargo.toml'
# So often, in seconds, it is said that cargo is still at work.
BETWEEN = 15
# What the module looks for in its own folder.
LIBRARY = {'darwin': 'libapfloat.dylib', 'win32': 'apfloat.dll'}.get(sys.platform, 'libapfloat.so')


def build_wheel(wheel_directory, config_settings=None, metadata_directory=None):
    """Writes the wheel into a folder, and returns its name."""
    with open(HERE / 'pyproject.toml', 'rb') as file:
        project = tomllib.load(file)['project']
    about = f'{project["name"]}-{project["version"]}'
    tag = 'py3-none-' + sysconfig.get_platform().replace('-', '_').replace('.', '_')
    files = {
        'apfloat/__init__.py': (HERE / 'apfloat.py').read_bytes(),
        'apfloat/py.typed': b'',
        f'apfloat/{LIBRARY}': library().read_bytes(),
        f'{about}.dist-info/METADATA': lines(
            'Metadata-Version: 2.1', f'Name: {project["name"]}', f'Version: {project["version"]}',
            f'Summary: {project["description"]}', f'Requires-Python: {project["requires-python"]}'),
        f'{about}.dist-info/WHEEL': lines(
            'Wheel-Version: 1.0', 'Generator: apfloat', 'Root-Is-Purelib: false', f'Tag: {tag}'),
    }
    record = f'{about}.dist-info/RECORD'
    files[record] = lines(*[entry(name, data) for name, data in files.items()], f'{record},,')
    wheel = f'{about}-{tag}.whl'
    with zipfile.ZipFile(pathlib.Path(wheel_directory) / wheel, 'w', zipfile.ZIP_DEFLATED) as archive:
        for name, data in files.items():
            # The same files make the same wheel: no file has the time of the build.
            described = zipfile.ZipInfo(name, (1980, 1, 1, 0, 0, 0))
            described.compress_type = zipfile.ZIP_DEFLATED
            described.external_attr = 0o100644 << 16
            archive.writestr(described, data)
    return wheel


def build_sdist(sdist_directory, config_settings=None):
    """There is none, since the library is built from other folders of the checkout."""
    sys.exit('apfloat: there are only wheels: `pip wheel ./python` makes one')


def library():
    """The shared library."""
    named = os.environ.get('APFLOAT_LIBRARY')
    if named:
        if not os.path.isfile(named):
            sys.exit(f'apfloat: APFLOAT_LIBRARY names {named}, which is no file')
        say(f'taking {named}, which APFLOAT_LIBRARY names')
        return pathlib.Path(named)
    instead = 'or set APFLOAT_LIBRARY to a shared library that is built, as packaging/install makes one'
    if not CRATE.is_file():
        sys.exit(f'apfloat: there is no {CRATE}: build in a checkout, {instead}')
    top = CRATE.parent.parent.parent
    built = top / os.environ.get('CARGO_TARGET_DIR', 'target') / 'release' / LIBRARY
    if is_current(built, top):
        say(f'taking {built}, which is built of the text of this checkout')
        return built
    cargo = shutil.which('cargo')
    if cargo is None:
        sys.exit(f'apfloat: there is no cargo, which builds the library: install Rust, {instead}')
    # The library of the documentation's command, into the same folder: neither build undoes the other.
    command = [cargo, 'build', '--release', '--offline', '-p', 'apfloat', '--message-format',
               'json-render-diagnostics']
    say(f'cargo builds {LIBRARY}, which takes minutes of a processor; APFLOAT_LIBRARY=FILE takes one that is there')
    messages = [json.loads(line) for line in said_by(command, top, instead).splitlines()]
    for message in messages:
        for path in map(pathlib.Path, message.get('filenames', [])):
            if path.name == LIBRARY:
                return path
    sys.exit(f'apfloat: cargo built no {LIBRARY}')


def is_current(built, top):
    """Whether a library is there, and no file is newer that it is built of."""
    if not built.is_file():
        return False
    sources = [top / 'Cargo.toml', *(top / '.cargo').glob('*.toml'), *(top / 'rust').rglob('*.rs'),
               *(top / 'rust').rglob('*.toml'), *(top / 'crates').glob('*/src/**/*.rt')]
    return all(source.stat().st_mtime < built.stat().st_mtime for source in sources)


def said_by(command, folder, instead):
    """What cargo says on its standard output, once it has ended well."""
    begun = time.monotonic()
    with subprocess.Popen(command, cwd=folder, stdout=subprocess.PIPE) as running:
        while True:
            try:
                said, _ = running.communicate(timeout=BETWEEN)
                break
            except subprocess.TimeoutExpired:
                say(f'cargo has been compiling for {time.monotonic() - begun:.0f} seconds')
    if running.returncode:
        sys.exit(f'apfloat: cargo failed: see its message above, {instead}')
    say(f'cargo took {time.monotonic() - begun:.0f} seconds')
    return said


def say(text):
    """Says what is going on."""
    line = f'apfloat: {text}\n'
    sys.stderr.write(line)
    sys.stderr.flush()
    if not sys.stderr.isatty():
        try:
            with open('/dev/tty', 'w', encoding='utf-8') as terminal:
                terminal.write(line)
        except OSError:
            # There is no terminal.
            pass


def entry(name, data):
    """What RECORD says of a file."""
    digest = base64.urlsafe_b64encode(hashlib.sha256(data).digest()).decode().rstrip('=')
    return f'{name},sha256={digest},{len(data)}'


def lines(*texts):
    """A text of lines."""
    return ''.join(text + '\n' for text in texts).encode()
