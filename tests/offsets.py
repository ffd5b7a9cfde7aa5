"""Holds the offsets that `gate explain` tells beside those of wasm-validate and of V8, on mutants of real modules.

Each mutant of a module in the FOLDERs is explained, validated by wasm-validate, and compiled by node, where these are on the machine. A
mutant on which the program ends by a signal or with another status than 0 and 2, or of whose refusal it says nothing but the verdict,
is an error: it is written below --keep, where that is given, and the status is 1. Printed is of each kind of refusal how often the peer
tells the same offset, one within the token, its end, one before or after it, tells none, or accepts the module; then some mutants of which
a peer tells another offset. A peer that stops elsewhere is not wrong: a body has more than one place where it can be said to go wrong.

    python3 -m tests.offsets --program out/gate --mutants 3000 examples
"""
import collections
import concurrent.futures
import json
import os
import random
import re
import shutil
import subprocess
import sys
import tempfile
from typing import NamedTuple

from tools import arguments
from tools.files import ROOT, write

LIMIT = 120
# Longer modules are not mutated: a byte of them seldom matters.
MOST_BYTES = 1 << 16
ANSWERS = ['same', 'within', 'end', 'before', 'after', 'untold', 'accepts']
# How many numbers follow the opcode of an instruction; of a branch table the first says how many more. Other bytes that follow.
NUMBERS = {**dict.fromkeys((0x02, 0x03, 0x04, 0x0C, 0x0D, 0x0E, 0x10, *range(0x20, 0x25), *range(0x3F, 0x43)), 1),
           **dict.fromkeys((0x11, *range(0x28, 0x3F)), 2)}
BYTES = {0x43: 4, 0x44: 8}
# Compiles the modules whose names stand on standard input, a line each, and prints a line for each.
COMPILES = '''
const fs = require('fs');
for (const name of fs.readFileSync(0, 'utf8').split('\\n').filter(Boolean)) {
    let said = null;
    try { new WebAssembly.Module(fs.readFileSync(name)); } catch (error) { said = error.message; }
    console.log(JSON.stringify(said));
}
'''


class Place(NamedTuple):
    """Bytes of a module; none where reading stopped. `kind` is what is said without its numbers."""

    kind: str
    begin: int | None
    end: int | None


class Peer(NamedTuple):
    """What another program says: nothing of a module that it accepts."""

    said: str | None
    offset: int | None


class Fault(Exception):
    """What the program may not do."""


def modules(folders):
    """The short modules in these folders, in the order of their names."""
    paths = [os.path.join(at, name) for folder in folders for at, _, names in os.walk(folder) for name in names if name.endswith('.wasm')]
    return [held for held in map(read, sorted(paths)) if len(held) <= MOST_BYTES]


def read(path):
    with open(path, 'rb') as file:
        return file.read()


def mutant(module, chance):
    """A module with one to three bytes put in, left out, or changed."""
    held = bytearray(module)
    for _ in range(chance.randint(1, 3)):
        at, how = chance.randrange(len(held) + 1), chance.randrange(4)
        if how == 0:
            held.insert(at, chance.choice((0, 1, 0x0B, 0x40, 0x7F, 0x80, chance.randrange(256))))
        elif at < len(held) and how == 1:
            del held[at]
        elif at < len(held):
            held[at] = held[at] ^ 1 << chance.randrange(8) if how == 2 else chance.randrange(256)
    return bytes(held)


# What the programs say.

def plain(words):
    """Words without numbers, bytes and names."""
    words = re.sub(r'"[^"]*"|\b(?!be\b)(?:0x)?(?:[0-9a-f]*\d[0-9a-f]*|[0-9a-f]{2})\b', 'N', words)
    return re.sub(r'\bis (?!N,)[\w.]+, ', 'is INSTRUCTION, ', words)[:90]


def number_at(held, at):
    """A number in LEB128, and the offset after it."""
    value = shift = 0
    while True:
        value, shift, at = value | (held[at] & 0x7F) << shift, shift + 7, at + 1
        if held[at - 1] < 0x80:
            return value, at


def end_of(held, at):
    """The offset after the instruction that begins there."""
    opcode, at = held[at], at + 1
    numbers = NUMBERS.get(opcode, 0)
    while numbers:
        value, at = number_at(held, at)
        numbers += value + 1 if opcode == 0x0E else 0
        opcode, numbers = (None if opcode == 0x0E else opcode), numbers - 1
    return at + BYTES.get(opcode, 0)


def place_of(text, held):
    """Where an explanation says that the module is refused, which has these bytes."""
    lines = dict((line[:10].rstrip(), line[10:]) for line in reversed(text.splitlines()[1:]))
    kind = plain(text.splitlines()[0] + ': ' + lines.get('because', lines.get('hint', 'nothing')))
    refused = re.search(r'^ +> 0x([0-9a-f]+) ', text, re.M)
    if refused:
        return Place(kind, int(refused[1], 16), end_of(held, int(refused[1], 16)))
    stop = (re.search(r', byte 0x([0-9a-f]+)$', lines.get('token') or lines.get('item', ''))
            or re.match(r'byte 0x([0-9a-f]+) ', lines.get('because', '')))
    return Place(kind, int(stop[1], 16), int(stop[1], 16)) if stop else Place(kind, None, None)


def explained(program, path):
    """What the program says of a module: nothing of an accepted one."""
    ran = subprocess.run([program, 'explain', path], capture_output=True, text=True, timeout=LIMIT)
    if ran.returncode not in (0, 2):
        raise Fault(f'status {ran.returncode}: {ran.stdout + ran.stderr}')
    if ran.returncode == 2 and len(ran.stdout.splitlines()) < 2:
        raise Fault(f'nothing but the verdict: {ran.stdout!r}')
    return place_of(ran.stdout, read(path)) if ran.returncode == 2 else None


def validated(tool, path):
    """What wasm-validate says."""
    ran = subprocess.run([tool, path], capture_output=True, text=True, errors='replace', timeout=LIMIT)
    found = re.search(r'\b([0-9a-f]{7}): error: (.*)', ran.stderr)
    if ran.returncode == 0:
        return Peer(None, None)
    return Peer(found[2], int(found[1], 16)) if found else Peer(ran.stderr[:200], None)


def compiled(tool, paths):
    """What node says of each module, in one process."""
    ran = subprocess.run([tool, '-e', COMPILES], input='\n'.join(paths), capture_output=True, text=True, check=True)
    for said in map(json.loads, ran.stdout.splitlines()):
        found = re.search(r'@\+(\d+)', said or '')
        yield Peer(said, int(found[1]) if found else None)


# What is held beside what.

def answer(place, peer):
    """How a peer's offset stands to the place that the program tells."""
    if peer.said is None:
        return 'accepts'
    if peer.offset is None:
        return 'untold'
    if peer.offset == place.begin:
        return 'same'
    if place.begin < peer.offset <= place.end:
        return 'end' if peer.offset == place.end else 'within'
    return 'before' if peer.offset < place.begin else 'after'


def table(places, said):
    """The answers of a peer, kind by kind; those that tell another offset."""
    counts, others = collections.defaultdict(collections.Counter), collections.defaultdict(list)
    for number, place in places.items():
        if place.begin is not None:
            counts[place.kind][answer(place, said[number])] += 1
            if answer(place, said[number]) in ('before', 'after', 'accepts'):
                others[place.kind].append(number)
    return counts, others


def show(name, places, said, most):
    counts, others = table(places, said)
    print(f'\n{name}: {"  ".join(ANSWERS)}')
    for kind, found in sorted(counts.items(), key=lambda it: -it[1].total()):
        print('  '.join(f'{found[it]:{len(it)}}' for it in ANSWERS), kind, sep='  ')
    for kind, numbers in others.items():
        print(f'\n{name}, another offset: {kind}')
        for number in numbers[:most]:
            place, peer = places[number], said[number]
            print(f'    mutant {number}: {place.begin} to {place.end}; {name} {peer.offset}: {plain(peer.said or "accepted")}')


def examined(words, paths, pool):
    """The places that the program tells, by the numbers of mutants, and how many it accepts; the mutants on which it is at fault."""
    places, accepted, faults = {}, 0, {}
    for number, job in enumerate([pool.submit(explained, words.program, path) for path in paths]):
        try:
            place = job.result()
            accepted += place is None
            if place is not None:
                places[number] = place
        except (Fault, subprocess.TimeoutExpired) as fault:
            faults[number] = fault
    return places, accepted, faults


def keep(folder, paths, faults):
    os.makedirs(folder, exist_ok=True)
    for number in faults:
        shutil.copyfile(paths[number], os.path.join(folder, os.path.basename(paths[number])))


def run(words, work):
    chance, found, paths = random.Random(words.seed), modules(words.folders), []
    if not found:
        sys.exit('offsets: no module in these folders')
    for number in range(words.mutants):
        paths.append(os.path.join(work, f'mutant{number:05}.wasm'))
        write(paths[-1], mutant(chance.choice(found), chance))
    with concurrent.futures.ThreadPoolExecutor(words.workers) as pool:
        places, accepted, faults = examined(words, paths, pool)
        validator, node = shutil.which('wasm-validate'), shutil.which('node')
        refused = [paths[number] for number in places]
        if validator:
            show('wasm-validate', places, dict(zip(places, pool.map(lambda it: validated(validator, it), refused))), words.show)
        if node:
            show('node', places, dict(zip(places, compiled(node, refused))), words.show)
    for number, fault in faults.items():
        print(f'offsets: mutant {number}: {fault}')
    if words.keep:
        keep(words.keep, paths, faults)
    told = sum(place.begin is not None for place in places.values())
    left = [name for name, tool in (('wasm-validate', validator), ('node', node)) if not tool]
    print(f'\noffsets: {len(paths)} mutants of {len(found)} modules: {accepted} accepted, {len(places)} refused, {told} with an offset, '
          f'{len(faults)} faults; left out: {", ".join(left) or "none"}')
    return 1 if faults else 0


def main():
    parser = arguments.parser(__doc__)
    parser.add_argument('folders', metavar='FOLDER', nargs='+', help='where modules lie, at any depth')
    parser.add_argument('--program', default=os.path.join(ROOT, 'out', 'gate'), help='the program (default: out/gate)')
    parser.add_argument('--mutants', type=int, default=2000, metavar='N', help='how many (default: 2000)')
    parser.add_argument('--seed', type=int, default=1, metavar='N', help='of the mutants (default: 1)')
    parser.add_argument('--show', type=int, default=3, metavar='N', help='how many mutants of each kind are shown (default: 3)')
    parser.add_argument('--workers', type=int, default=4, metavar='N', help='how many processes at once (default: 4)')
    parser.add_argument('--keep', metavar='FOLDER', help='where mutants on which the program is at fault are kept')
    words = parser.parse_args()
    with tempfile.TemporaryDirectory() as work:
        return run(words, work)


if __name__ == '__main__':
    sys.exit(main())
