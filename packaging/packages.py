#!/usr/bin/env python3
"""Makes the packages for Python, Rust and Go out of examples/: each gets the library in it, and builds nothing of it where it is used.

Below FOLDER/examples stand afterwards the wheel python/gate-VERSION-py3-none-PLATFORMS.whl, with the shared library in it; the crates
rust and rust/gate-sys, the latter with the archive in `lib`; and the module go with archive and header. `packaging/release` packs the same.
The wheel has fixed times, and nothing in it is compressed, so that the same files give the same bytes by each version of Python.
"""
import argparse
import base64
import hashlib
import io
import os
import re
import subprocess
import sys
import zipfile

root = os.path.dirname(os.path.dirname(os.path.abspath(__file__)))
sys.path.insert(0, root)
from tools import library

ARCHIVE, SHARED = f'lib/{library.ARCHIVE}', f'lib/{library.SHARED}'
HEADER = 'include/gate.h'
PYTHON, RUST, GO = 'examples/python', 'examples/rust', 'examples/go'
# One library for both: of a C library it takes six functions by names that glibc and musl have, and musl reads no versions of names.
PLATFORMS = ['manylinux_2_17_x86_64', 'musllinux_1_1_x86_64']
TAG = f'py3-none-{".".join(PLATFORMS)}'
# The least time that a wheel can have.
TIME = (1980, 1, 1, 0, 0, 0)

METADATA = """\
Metadata-Version: 2.1
Name: gate
Version: {version}
Summary: A proved validator and sandbox for WebAssembly, over libgate
Requires-Python: >=3.10
Description-Content-Type: text/markdown

{readme}"""
WHEEL = """\
Wheel-Version: 1.0
Generator: gate
Root-Is-Purelib: false
""" + ''.join(f'Tag: py3-none-{it}\n' for it in PLATFORMS)

# Where versions stand, which are those of the header.
OF_CRATE = r'(?<!-)version = "([\d.]+)"'
VERSIONS = {
    HEADER: r'#define GATE_VERSION "(.*)"', f'{PYTHON}/gate/__init__.py': r"__version__ = '(.*)'",
    f'{RUST}/Cargo.toml': OF_CRATE, f'{RUST}/Cargo.lock': OF_CRATE, f'{RUST}/gate-sys/Cargo.toml': OF_CRATE,
}


def version(files):
    """The version of the packages, which all of them have to name."""
    found = {place: set(re.findall(pattern, files[place].decode())) for place, pattern in VERSIONS.items()}
    named = found[HEADER]
    others = [place for place, versions in found.items() if versions != named]
    if others or len(named) != 1:
        sys.exit(f'packages: {", ".join(others)} and {HEADER} have not the same version')
    return named.pop()


def record(files, place):
    """The list of a wheel's files with their sums, the list itself among them without one."""
    lines = []
    for name, held in files.items():
        total = base64.urlsafe_b64encode(hashlib.sha256(held).digest()).rstrip(b'=').decode()
        lines.append(f'{name},sha256={total},{len(held)}\n')
    return ''.join([*lines, f'{place},,\n']).encode()


def wheel(files, named):
    """The bytes of the wheel."""
    info = f'gate-{named}.dist-info'
    sources = {place: held for place, held in files.items() if place.startswith(f'{PYTHON}/gate/')}
    held = {os.path.relpath(place, PYTHON): sources[place] for place in sorted(sources)}
    held[f'gate/{library.SHARED}'] = contents_of(files, SHARED)
    held[f'{info}/METADATA'] = METADATA.format(version=named, readme=files[f'{PYTHON}/README.md'].decode()).encode()
    held[f'{info}/WHEEL'] = WHEEL.encode()
    held[f'{info}/RECORD'] = record(held, f'{info}/RECORD')
    written = io.BytesIO()
    with zipfile.ZipFile(written, 'w', zipfile.ZIP_STORED) as file:
        for name, bytes_ in held.items():
            entry = zipfile.ZipInfo(name, TIME)
            entry.create_system, entry.external_attr = 3, 0o100644 << 16
            file.writestr(entry, bytes_)
    return written.getvalue()


def contents_of(files, place):
    """The bytes of a file, or of that which a link beside it leads to."""
    held = files[place]
    return held if isinstance(held, bytes) else contents_of(files, os.path.join(os.path.dirname(place), held))


def added(files):
    """What comes to the files of a release, which are given by their places: bytes, or the text of a link."""
    named, archive = version(files), files[ARCHIVE]
    return {
        f'{PYTHON}/gate-{named}-{TAG}.whl': wheel(files, named), f'{RUST}/gate-sys/{ARCHIVE}': archive,
        # Go takes along what lies beside its own files, and no folder without any.
        f'{GO}/{library.ARCHIVE}': archive, f'{GO}/{os.path.basename(HEADER)}': files[HEADER],
    }


def read(path):
    with open(path, 'rb') as file:
        return file.read()


def main(folder, to):
    """Writes the sources of the packages, and what is added, below a folder."""
    listed = subprocess.run(['git', 'ls-files', '-z', PYTHON, RUST, GO, HEADER], cwd=root, capture_output=True, text=True, check=True)
    files = {place: read(os.path.join(root, place)) for place in listed.stdout.split('\0')[:-1] if not place.endswith('.gitignore')}
    for place in (ARCHIVE, SHARED):
        files[place] = read(os.path.join(folder, os.path.basename(place)))
    for place, held in {**files, **added(files)}.items():
        if place.startswith('examples/'):
            path = os.path.join(to, place)
            os.makedirs(os.path.dirname(path), exist_ok=True)
            with open(path, 'wb') as file:
                file.write(held)


if __name__ == '__main__':
    parser = argparse.ArgumentParser(description=__doc__, formatter_class=argparse.RawDescriptionHelpFormatter)
    parser.add_argument('--library', metavar='FOLDER', required=True, help='where tools/library.py put the library')
    parser.add_argument('--to', metavar='FOLDER', required=True, help='where the packages are put')
    words = parser.parse_args()
    main(words.library, words.to)
