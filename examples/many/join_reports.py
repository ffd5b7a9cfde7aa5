#!/usr/bin/env python3
"""Joins the answers of the pieces of a text of calls, and prints what one run of the whole text prints.

FOLDER has the pieces as NUMBER.calls (`cut_calls.py`), and beside each what `gate run` printed for it, as NUMBER.report.
Numbers of lines are shifted by the calls before, and the totals are summed. Where the lines of a piece are refused, the answer
is the first refused line, with its number in the whole text; where the module is refused, it is the verdict line.

The exit status is that of one run: 0, 2 or 3; it is 70 where a piece has no report, or one that is not whole.
"""
from __future__ import annotations

import argparse
import os
import re
import sys
from collections.abc import Iterator
from dataclasses import astuple, dataclass
from typing import BinaryIO

TOTAL = re.compile(rb'total (\d+) values (\d+) traps (\d+) exhausted (\d+) refused (\d+) no-memory (\d+) fuel (\d+)\n')
REFUSED_LINE = re.compile(rb'accepted\ncalls line (\d+) refused\n')
TOO_LARGE = b'accepted\ncalls too-large\n'
REFUSED_MODULE = re.compile(rb'refused [^\n]+\n')

REPORTED, MODULE_REFUSED, CALLS_REFUSED, NO_REPORT = 0, 2, 3, 70


@dataclass(frozen=True)
class Total:
    """The numbers of the last line of a report."""

    calls: int = 0
    values: int = 0
    traps: int = 0
    exhausted: int = 0
    refused: int = 0
    no_memory: int = 0
    fuel: int = 0

    def __add__(self, other: Total) -> Total:
        return Total(*(one + two for one, two in zip(astuple(self), astuple(other))))

    def line(self) -> bytes:
        return (b'total %d values %d traps %d exhausted %d refused %d no-memory %d fuel %d\n' % astuple(self))


@dataclass(frozen=True)
class Answer:
    """An answer that is no report, and its status."""

    text: bytes
    status: int


class NoReport(Exception):
    """A piece has no report, or one that is not whole."""


def read(path: str) -> bytes:
    with open(path, 'rb') as file:
        return file.read()


def total_of(text: bytes) -> Total | None:
    """The total of a report; None of another text, and of a report that is not whole."""
    last = text.rfind(b'\n', 0, -1) + 1
    told = TOTAL.fullmatch(text, last)
    total = told and Total(*map(int, told.groups()))
    return total if total and text.count(b'\n') == total.calls + 1 else None


def refusal_of(text: bytes, before: int) -> Answer | None:
    """What is refused, where something is, `before` being the calls of the pieces before."""
    line = REFUSED_LINE.fullmatch(text)
    if line:
        return Answer(b'accepted\ncalls line %d refused\n' % (before + int(line[1])), CALLS_REFUSED)
    if text == TOO_LARGE:
        return Answer(text, CALLS_REFUSED)
    return Answer(text, MODULE_REFUSED) if REFUSED_MODULE.fullmatch(text) else None


def sum_up(reports: list[str]) -> Total | Answer:
    """The total of all reports, or the first refusal."""
    total = Total()
    for path in reports:
        text = read(path) if os.path.exists(path) else b''
        counted = total_of(text)
        if counted is None:
            refused = refusal_of(text, total.calls)
            if refused is None:
                raise NoReport(f'{path}: no whole report')
            return refused
        total += counted
    return total


def shifted(text: bytes, before: int) -> Iterator[bytes]:
    """The lines of the calls of a report, `before` added to the number of each."""
    for line in text.split(b'\n')[:-2]:
        number, rest = line.split(b' ', 1)
        yield b'%d %b\n' % (before + int(number), rest)


def join(reports: list[str], out: BinaryIO) -> int:
    """Writes the joined answer. It reads each report twice, so that nothing is written before all are known."""
    total = sum_up(reports)
    if isinstance(total, Answer):
        out.write(total.text)
        return total.status
    before = 0
    for path in reports:
        lines = list(shifted(read(path), before))
        out.writelines(lines)
        before += len(lines)
    out.write(total.line())
    return REPORTED


def main() -> int:
    parser = argparse.ArgumentParser(description=__doc__, formatter_class=argparse.RawDescriptionHelpFormatter)
    parser.add_argument('folder', metavar='FOLDER', help='the pieces and their reports')
    folder = parser.parse_args().folder
    names = sorted(name for name in os.listdir(folder) if name.endswith('.calls'))
    try:
        return join([os.path.join(folder, name[:-len('calls')] + 'report') for name in names], sys.stdout.buffer)
    except NoReport as fault:
        print(f'join_reports: {fault}', file=sys.stderr)
        return NO_REPORT


if __name__ == '__main__':
    sys.exit(main())
