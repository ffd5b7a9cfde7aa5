#!/usr/bin/env python3
"""Cuts a text of calls at newlines, into the files 00000000.calls, 00000001.calls .. of a folder.

Each piece is within the limits of `gate run`, but one of a single line that is longer than they allow. The pieces one after
the other are the text. An empty text is one empty piece.
"""
from __future__ import annotations

import argparse
import os
import sys
from collections.abc import Iterable, Iterator

# The limits of a text of calls (docs/FORMATS.md).
MOST_LINES = 100_000
MOST_BYTES = 4_194_304


def pieces(text: Iterable[bytes], most_lines: int) -> Iterator[bytes]:
    """The pieces of these lines."""
    lines: list[bytes] = []
    length = 0
    for line in text:
        if len(lines) == most_lines or (lines and length + len(line) > MOST_BYTES):
            yield b''.join(lines)
            lines, length = [], 0
        lines.append(line)
        length += len(line)
    yield b''.join(lines)


def cut(path: str, folder: str, most_lines: int) -> None:
    """Writes the pieces of a file, or of standard input for `-`."""
    with (sys.stdin.buffer if path == '-' else open(path, 'rb')) as text:
        for number, piece in enumerate(pieces(text, most_lines)):
            with open(os.path.join(folder, f'{number:08}.calls'), 'wb') as file:
                file.write(piece)


def line_count(word: str) -> int:
    lines = int(word)
    if not 1 <= lines <= MOST_LINES:
        raise ValueError
    return lines


def main() -> int:
    parser = argparse.ArgumentParser(description=__doc__, formatter_class=argparse.RawDescriptionHelpFormatter)
    parser.add_argument('calls', metavar='CALLS', help='the text; - for standard input')
    parser.add_argument('folder', metavar='FOLDER', help='where the pieces go')
    parser.add_argument('--lines', type=line_count, default=10_000, metavar='N', help='the most lines of a piece (1 to 100,000; 10,000)')
    words = parser.parse_args()
    try:
        cut(words.calls, words.folder, words.lines)
    except OSError as fault:
        print(f'cut_calls: {fault}', file=sys.stderr)
        return 74
    return 0


if __name__ == '__main__':
    sys.exit(main())
