"""The modules and calls of the tables (rows.py), and mutants of these modules."""
import os
import random
import re
from typing import NamedTuple

from tests import rows
from tests.hosting.processes import started

MUTANTS, SEED = 1000, 20261127
# Longer modules are neither mutated, nor tried with refused requests and under valgrind.
SHORT = 4096
DEFAULTS = {'--fuel': 1_000_000, '--frames': 1024, '--pages': 256}


class Module(NamedTuple):
    path: str
    line: str
    length: int


class Run(NamedTuple):
    name: str
    module: str
    calls: str
    limits: list
    text: bytes
    status: int
    length: int


def mutant(module, chance):
    bytes_ = bytearray(module)
    for _ in range(chance.randint(1, 3)):
        at = chance.randrange(len(bytes_) + 1)
        how = chance.randrange(4)
        if how == 0:
            bytes_.insert(at, chance.choice((0, 1, 0x0B, 0x40, 0x7F, 0x80, chance.randrange(256))))
        elif at < len(bytes_):
            if how == 1:
                del bytes_[at]
            elif how == 2:
                bytes_[at] ^= 1 << chance.randrange(8)
            else:
                bytes_[at] = chance.randrange(256)
    return bytes(bytes_)


def modules_of_tables(work):
    for n, (_, spelled, line, _) in enumerate(rows.rows('check.tsv')):
        path, module = os.path.join(work, f'row{n:04}.wasm'), rows.bytes_of(spelled)
        rows.write(path, module)
        yield Module(path, line, len(module)), module


def mutants(pool, program, work, modules):
    """Mutants of short modules, with the line that the program prints."""
    chance, paths = random.Random(SEED), []
    for n in range(MUTANTS):
        module = mutant(chance.choice(modules), chance)
        paths.append((os.path.join(work, f'zmutant{n:04}.wasm'), len(module)))
        rows.write(paths[-1][0], module)
    answers = pool.map(lambda it: started([program, 'check', it[0], '--workers', '1'])[0], paths)
    return [Module(path, line.decode().rstrip('\n'), length) for (path, length), line in zip(paths, answers)]


def limits_of(options):
    chosen = {**DEFAULTS, **dict(re.findall(r'(--\w+)[ =](\d+)', options))}
    return [str(chosen[name]) for name in DEFAULTS]


def runs_of_tables(work):
    for n, (name, spelled, calls, options, text, status) in enumerate(rows.rows('run.tsv')):
        module, path = rows.bytes_of(spelled), os.path.join(work, f'run{n:04}')
        rows.write(path + '.wasm', module)
        rows.write(path + '.calls', rows.text_of(calls))
        yield Run(name, path + '.wasm', path + '.calls', limits_of(options), rows.text_of(text), int(status), len(module))


def runs_by_call(runs):
    """The short reports by the limits that `call` has."""
    return [it for it in runs if it.status == 0 and it.limits == limits_of('') and len(it.text) < SHORT]
