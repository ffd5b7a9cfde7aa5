#!/usr/bin/env python3
"""A host in small: judges modules and runs their calls, over libgate.

    host.py check NAME                          prints the verdict line of a file
    host.py check -                             reads names of files, one a line, and prints for each its verdict line,
                                                or `cannot be read`
    host.py run MODULE CALLS FUEL FRAMES PAGES  prints what `gate run` prints
    host.py call MODULE NAME [i32:N|i64:N ..]   prints how the call ends, as a report does after the number of its line

The exit status is that of the program: 0, 2 for a refused module (but not of `check -`), 3 for refused calls, 64 for wrong
words, 70 where memory is refused, 74 for a file that cannot be read.
"""
from __future__ import annotations

import argparse
import os
import sys
from collections.abc import Iterator
from typing import NoReturn

import gate


class Parser(argparse.ArgumentParser):
    def error(self, message: str) -> NoReturn:
        self.print_usage(sys.stderr)
        self.exit(64, f'host: {message}\n')


def read(path: str) -> bytes:
    with open(path, 'rb') as file:
        return file.read()


def names() -> Iterator[str]:
    for line in sys.stdin.buffer:
        yield os.fsdecode(line.rstrip(b'\n'))


def check(words: argparse.Namespace) -> int:
    if words.name == '-':
        return check_named()
    verdict = gate.check(read(words.name))
    print(verdict)
    return 0 if verdict else 2


def check_named() -> int:
    status = 0
    for name in names():
        try:
            print(gate.check(read(name)))
        except OSError:
            print('cannot be read')
            status = 74
    return status


def run(words: argparse.Namespace) -> int:
    settings = gate.Settings(words.fuel, words.frames, words.pages)
    report = gate.run(read(words.module), read(words.calls), settings)
    sys.stdout.buffer.write(report.text)
    return report.status


def call(words: argparse.Namespace) -> int:
    with gate.Module(read(words.module)) as module:
        try:
            print(module.call(os.fsencode(words.name), *map(gate.value_of, words.values)))
        except gate.BadArguments:
            print(gate.EndKind.BAD_ARGUMENTS.word)
    return 0


def parser() -> Parser:
    made = Parser(description=__doc__, formatter_class=argparse.RawDescriptionHelpFormatter)
    commands = made.add_subparsers(required=True, metavar='COMMAND')
    checking = commands.add_parser('check', help='judge')
    checking.add_argument('name', metavar='NAME')
    checking.set_defaults(does=check)
    running = commands.add_parser('run', help='run a text of calls')
    running.add_argument('module', metavar='MODULE')
    running.add_argument('calls', metavar='CALLS')
    for limit in 'fuel', 'frames', 'pages':
        running.add_argument(limit, metavar=limit.upper(), type=int)
    running.set_defaults(does=run)
    calling = commands.add_parser('call', help='call one export')
    calling.add_argument('module', metavar='MODULE')
    calling.add_argument('name', metavar='NAME')
    calling.add_argument('values', metavar='VALUE', nargs='*')
    calling.set_defaults(does=call)
    return made


def main() -> int:
    words = parser().parse_args()
    try:
        return int(words.does(words))
    except gate.ModuleRefused as refused:
        print(refused.verdict)
        return 2
    except ValueError as fault:
        print(f'host: {fault}', file=sys.stderr)
        return 64
    except MemoryError:
        print('host: no memory', file=sys.stderr)
        return 70
    except OSError as fault:
        print(f'host: {fault}', file=sys.stderr)
        return 74


if __name__ == '__main__':
    sys.exit(main())
