"""The modules of the tests: those of the project's tables, and some by hand."""
from __future__ import annotations

import importlib.util
import os
import unittest
from collections.abc import Iterator
from types import ModuleType

from gate import Settings

HERE = os.path.dirname(os.path.abspath(__file__))
ROOT = os.path.join(HERE, '..', '..', '..')
EXAMPLES = os.path.join(ROOT, 'examples')
HOST = os.path.join(HERE, '..', 'host.py')
PLUGIN_HOST = os.path.join(HERE, '..', 'plugin_host.py')

HEADER = b'\0asm\1\0\0\0'
# One body that gives i32 where nothing is wanted.
ILL_TYPED = HEADER + bytes.fromhex('01 04 01 60 00 00 03 02 01 00 0a 06 01 04 00 41 00 0b')
# One body that begins with the two bytes of memory.fill, which Core 1.0 does not have.
FILL = HEADER + bytes.fromhex('01 04 01 60 00 00 03 02 01 00 0a 06 01 04 00 fc 0b 0b')
# A start function that does not exist.
NO_START = HEADER + bytes.fromhex('08 01 00')
# The bytes of another version.
VERSION_2 = b'\0asm\2\0\0\0'
# A memory of one page, of at most two, with 5 at 8, and a global count, exported. The start function stores 7 at 0. handle stores the
# byte at 16 and its argument, added, at 32, and adds 1 to count, which it gives; trap sets count to 100, and traps; grow is memory.grow.
GOES_ON = HEADER + bytes.fromhex(
    '01 09 02 60 01 7f 01 7f 60 00 00 03 05 04 00 01 00 01 05 04 01 01 01 02 06 06 01 7f 01 41 00 0b 07 20 04'
    '06 68 61 6e 64 6c 65 00 00 04 74 72 61 70 00 01 04 67 72 6f 77 00 02 05 63 6f 75 6e 74 03 00 08 01 03 0a 34 04'
    '18 00 41 20 41 10 2d 00 00 20 00 6a 3a 00 00 23 00 41 01 6a 24 00 23 00 0b 08 00 41 e4 00 24 00 00 0b'
    '06 00 20 00 40 00 0b 09 00 41 00 41 07 3a 00 00 0b 0b 07 01 00 41 08 0b 01 05')
# A memory of one page, and a second data segment, of two bytes at 65,535.
SEGMENT_OUTSIDE = HEADER + bytes.fromhex('05 03 01 00 01 0b 10 02 00 41 00 0b 01 00 00 41 ff ff 03 0b 02 00 00')
# `half`, whose first token is f32.const 0.
HALF = HEADER + bytes.fromhex('01 04 01 60 00 00 03 02 01 00 07 08 01 04 68 61 6c 66 00 00 0a 0a 01 08 00 43 00 00 00 00 1a 0b')
# `f` turns for ever: each turn costs one unit, and its entry one.
LOOP = HEADER + bytes.fromhex('01 04 01 60 00 00 03 02 01 00 07 05 01 01 66 00 00 0a 09 01 07 00 03 40 0c 00 0b 0b')
# The start function is `unreachable`.
START_TRAPS = HEADER + bytes.fromhex('01 04 01 60 00 00 03 02 01 00 08 01 00 0a 05 01 03 00 00 0b')
# alloc gives 8, and handle an answer of two bytes at 65,535, which lies outside its memory of one page.
LIAR = HEADER + bytes.fromhex(
    '01 0c 02 60 01 7f 01 7f 60 02 7f 7f 01 7e 03 03 02 00 01 05 03 01 00 01 07 12 02 05 61 6c 6c 6f 63 00 00'
    '06 68 61 6e 64 6c 65 00 01 0a 13 02 04 00 41 08 0b 0c 00 42 ff ff 03 42 20 86 42 02 84 0b')
RESULTS = 20
# `many` of type [] -> [i32 x 20] gives 0, 1 .. 19.
MANY = (HEADER + bytes([1, 4 + RESULTS, 1, 0x60, 0, RESULTS]) + b'\x7f' * RESULTS + bytes([3, 2, 1, 0]) + b'\x07\x08\x01\x04many\0\0'
        + bytes([10, 2 * RESULTS + 4, 1, 2 * RESULTS + 2, 0]) + b''.join(bytes([0x41, n]) for n in range(RESULTS)) + b'\x0b')


def example(name: str) -> bytes:
    """The bytes of a file in `examples`."""
    with open(os.path.join(EXAMPLES, name), 'rb') as file:
        return file.read()


def tables() -> ModuleType:
    """`tests/rows.py` of the project, which reads its tables of modules. No release has it."""
    if not os.path.exists(os.path.join(ROOT, 'tests', 'rows.py')):
        raise unittest.SkipTest('the tables stand in the repository')
    spec = importlib.util.spec_from_file_location('rows', os.path.join(ROOT, 'tests', 'rows.py'))
    assert spec is not None and spec.loader is not None
    rows = importlib.util.module_from_spec(spec)
    spec.loader.exec_module(rows)
    return rows


def settings_of(options: str) -> Settings:
    """The settings of words such as `--fuel 5 --pages 2`."""
    words = options.split()
    return Settings(**{word[2:]: int(number) for word, number in zip(words[::2], words[1::2])})


def judged() -> Iterator[tuple[str, bytes, str]]:
    """The name, the module and the verdict line of each row of check.tsv."""
    rows = tables()
    for name, module, line, _ in rows.rows('check.tsv'):
        yield name, rows.bytes_of(module), line


def run_rows() -> Iterator[tuple[str, bytes, bytes, Settings, bytes, int]]:
    """The name, the module, the calls, the settings, the answer and the status of each row of run.tsv."""
    rows = tables()
    for name, module, calls, options, text, status in rows.rows('run.tsv'):
        yield name, rows.bytes_of(module), rows.text_of(calls), settings_of(options), rows.text_of(text), int(status)
