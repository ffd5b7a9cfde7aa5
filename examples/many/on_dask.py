#!/usr/bin/env python3
"""Judges modules, or runs a text of calls in pieces, on the workers of a Dask cluster (Debian: python3-distributed).

    $ ./on_dask.py tcp://one:8786 check a.wasm b.wasm                 # `NAME: verdict` for each file, in this order
    $ ./on_dask.py tcp://one:8786 run fold.wasm calls --fuel 1000     # the report of all calls, as one run prints it

Each worker needs the package `gate` for Python, and no file: modules and pieces go to it, and verdicts and reports come back. Where a
worker is gone, another one does again what that one had. Each call has an instance of its own, so the answer is the same.

The status is 0, 2 or 3, as that of `gate run`; it is 70 where a module has no verdict or a piece no report: Dask gives a task up once four
workers were lost over it.
"""
from __future__ import annotations

import argparse
import os
import sys
import tempfile
from collections.abc import Iterable

from distributed import Client, as_completed

import cut_calls
import join_reports

LIMITS = {'fuel': 1_000_000, 'frames': 1_024, 'pages': 256}


def verdict_of(module: bytes) -> str:
    """On a worker: the verdict on a module."""
    import gate
    return str(gate.check(module))


def report_of(module: bytes, calls: bytes, limits: dict[str, int]) -> bytes:
    """On a worker: what `gate run` prints for a piece of the calls."""
    import gate
    return gate.run(module, calls, gate.Settings(**limits)).text


def read(path: str) -> bytes:
    with open(path, 'rb') as file:
        return file.read()


def check(client: Client, paths: list[str]) -> int:
    """Prints the verdict on each module."""
    status = 0
    for path, future in [(path, client.submit(verdict_of, read(path), pure=False)) for path in paths]:
        if future.exception() is None:
            print(f'{path}: {future.result()}')
        else:
            print(f'on_dask: {path}: {future.exception()!r}', file=sys.stderr)
            status = join_reports.NO_REPORT
    return status


def fetch(client: Client, module: bytes, pieces: Iterable[bytes], limits: dict[str, int], folder: str) -> list[str]:
    """Runs the pieces, and writes each report that there is into a file of the folder; answers the names of all, in order."""
    # Handed out by a task, so that it is there again where the worker that has it is gone.
    shared = client.submit(bytes, module, pure=False)
    futures = [client.submit(report_of, shared, piece, limits, pure=False) for piece in pieces]
    paths = {future.key: os.path.join(folder, f'{number:08}.report') for number, future in enumerate(futures)}
    for done, future in enumerate(as_completed(futures), 1):
        if future.exception() is not None:
            print(f'on_dask: {future.exception()!r}', file=sys.stderr)
        else:
            with open(paths[future.key], 'wb') as file:
                file.write(future.result())
        print(f'on_dask: {done} of {len(paths)} pieces', file=sys.stderr, flush=True)
    return list(paths.values())


def run(client: Client, module: str, calls: str, most_lines: int, limits: dict[str, int]) -> int:
    """Prints the report of a text of calls."""
    with tempfile.TemporaryDirectory() as folder, open(calls, 'rb') as text:
        reports = fetch(client, read(module), cut_calls.pieces(text, most_lines), limits, folder)
        try:
            return join_reports.join(reports, sys.stdout.buffer)
        except join_reports.NoReport as fault:
            print(f'on_dask: {fault}', file=sys.stderr)
            return join_reports.NO_REPORT


def main() -> int:
    parser = argparse.ArgumentParser(description=__doc__, formatter_class=argparse.RawDescriptionHelpFormatter)
    parser.add_argument('scheduler', metavar='SCHEDULER', help='its address, as tcp://one:8786')
    commands = parser.add_subparsers(dest='command', required=True)
    checks = commands.add_parser('check', help='judges modules')
    checks.add_argument('paths', metavar='MODULE', nargs='+')
    runs = commands.add_parser('run', help='runs a text of calls')
    runs.add_argument('module', metavar='MODULE')
    runs.add_argument('calls', metavar='CALLS')
    runs.add_argument('--lines', type=cut_calls.line_count, default=10_000, metavar='N', help='the most lines of a piece (10,000)')
    for name, default in LIMITS.items():
        runs.add_argument(f'--{name}', type=int, default=default, metavar='N', help=f'as that of gate run ({default:,})')
    words = parser.parse_args()
    with Client(words.scheduler) as client:
        if words.command == 'check':
            return check(client, words.paths)
        return run(client, words.module, words.calls, words.lines, {name: getattr(words, name) for name in LIMITS})


if __name__ == '__main__':
    sys.exit(main())
