"""Runs generated modules through `check` and `run`, and ends at the first difference.

Modules are generated ones (tools/ordinary_modules.py, tools/random_modules.py, short ones of tools/worst_cases, and small ones with loops,
calls, memory, tables, traps), the same with bytes changed, cut or doubled, and random bytes after a header. A generator that says
the verdict of a module is held to it. Each is judged and run by one worker, and then with other numbers of workers and pieces,
two of them the least and the greatest and three at random, with stacks of 64 KiB, and with the address space held to what was drawn:
those answers must be equal to that of one worker. Where memory is held, and once more where one request for it is refused
(tests/refuse_memory.c), they may be out of memory (status 70, nothing on standard output; a call's line `no-memory`).
A crash, a run of ten minutes or another answer ends the soak. It prints seeds and counts; a seed makes the same run again.

Where node is installed, its answers are compared too (tests/answers.js): whether `WebAssembly.validate` accepts the module, and
how each call ends on a fresh instance, by its values or its trap. A module is passed over, and counted, where node refuses it by
a limit of its own, and where the part that `gate` refuses may spell what was added after Core 1.0; a call is where it ended for
want of fuel, frames or memory, and where its memory may grow past the pages that `gate` was given.
"""
import os
import random
import resource
import shutil
import subprocess
import sys
import tempfile
import time

from tests.beside_node import Node
from tools import arguments, ordinary_modules
from tools.encoding import HEADER, section, signed, sized, unsigned, vector
from tools.files import ROOT
from tools.random_modules import typed_module
from tools.reports import may_report
from tools.worst_cases import FAMILIES, module_of

refuser_source = os.path.join(ROOT, 'tests', 'refuse_memory.c')
PIECES = [1, 2, 7, 16, 100, 1_000, 65_535]
HELD = [None, 8 << 20, 12 << 20, 16 << 20, 24 << 20, 64 << 20, 256 << 20, 1 << 30]
# A number past most of the requests that a small module makes.
MOST_REQUESTS = 400
NUMBERS = {b'\x7F': ('i32', [0, 1, -1, 5, 1000, -2 ** 31]), b'\x7E': ('i64', [0, 1, -1, 2 ** 40, 2 ** 63 - 1, -2 ** 63])}
I32 = [0x6A, 0x6B, 0x6C, 0x6D, 0x6E, 0x6F, 0x70, 0x71, 0x72, 0x73, 0x74, 0x75, 0x76, 0x77, 0x78, 0x46, 0x47, 0x48, 0x4E, 0x4F]


def small_body(r, functions):
    # A body of [i32] -> [i32] with two locals more: statements that may trap, loop or call, and a value.
    def value(depth):
        pick = r.random()
        if depth == 0 or pick < 0.3:
            if r.random() < 0.7:
                return b'\x20' + bytes([r.randrange(3)])
            return b'\x41' + signed(r.choice([0, 1, -1, 7, 65535, 65536, -2 ** 31, 2 ** 31 - 1]))
        if pick < 0.7:
            return value(depth - 1) + value(depth - 1) + bytes([r.choice(I32)])
        if pick < 0.8:
            return value(depth - 1) + r.choice([b'\x28\x02\x00', b'\x2D\x00\x00', b'\x2E\x01\x08'])
        if pick < 0.86:
            return value(depth - 1) + b'\x10' + unsigned(r.randrange(functions))
        if pick < 0.92:
            return value(depth - 1) + value(depth - 1) + b'\x11\x00\x00'
        if pick < 0.96:
            return value(depth - 1) + b'\x40\x00'
        return value(depth - 1) + bytes([r.choice([0x45, 0x67, 0x68, 0x69, 0xC0, 0xC1])])

    def statement(labels):
        pick = r.random()
        if pick < 0.4:
            return value(2) + b'\x21' + bytes([r.randrange(3)])
        if pick < 0.55:
            return value(1) + value(1) + r.choice([b'\x36\x02\x00', b'\x3A\x00\x04'])
        if pick < 0.65 and labels:
            return value(1) + b'\x0D' + unsigned(r.randrange(labels))
        if pick < 0.75 and labels < 4:
            return b'\x02\x40' + b''.join(statement(labels + 1) for _ in range(r.randrange(1, 4))) + b'\x0B'
        if pick < 0.85 and labels < 4:
            return b'\x03\x40' + b''.join(statement(labels + 1) for _ in range(r.randrange(1, 3))) + b'\x0B'
        if pick < 0.95 and labels < 4:
            return value(1) + b'\x04\x40' + statement(labels + 1) + b'\x05' + statement(labels + 1) + b'\x0B'
        return value(1) + b'\x1A'

    code = b'\x01\x02\x7F' + b''.join(statement(0) for _ in range(r.randrange(1, 6))) + value(2) + b'\x0B'
    return sized(code)


def small_module(r):
    count = r.randrange(1, 6)
    table = vector([unsigned(r.randrange(count)) for _ in range(r.randrange(4))])
    exports = vector([b'\x01' + bytes([97 + k]) + b'\x00' + bytes([k]) for k in range(count)])
    written = signed(r.choice([0, 65530, 65536, 70000])) + b'\x0B' + vector([bytes([r.randrange(256)]) for _ in range(r.randrange(8))])
    parts = [section(1, b'\x02\x60\x01\x7F\x01\x7F\x60\x00\x00'),
             section(3, vector([b'\0'] * count)),
             section(4, b'\x01\x70\x00' + unsigned(r.choice([0, 3, 8]))),
             section(5, b'\x01\x01\x01' + unsigned(r.choice([1, 2, 40]))),
             section(7, exports),
             section(9, b'\x01\x00\x41\x00\x0B' + table),
             section(10, vector([small_body(r, count) for _ in range(count)])),
             section(11, b'\x01\x00\x41' + written)]
    return HEADER + b''.join(parts)


def changed(r, module):
    bytes_of = bytearray(module)
    for _ in range(r.randrange(1, 4)):
        at = r.randrange(len(bytes_of))
        pick = r.random()
        if pick < 0.6:
            bytes_of[at] = r.choice([0, 1, 0x0B, 0x7F, 0x80, 0xFF, r.randrange(256)])
        elif pick < 0.8:
            del bytes_of[at:at + r.randrange(1, 5)]
        else:
            bytes_of[at:at] = bytes_of[at:at + r.randrange(1, 9)]
        bytes_of = bytes_of or bytearray(b'\0')
    return bytes(bytes_of)


def candidate(r):
    # A module, the types of the parameters of its exports as far as they are known, and how its verdict begins, where that is known.
    if r.random() < 0.02:
        return HEADER + r.randbytes(r.randrange(200)), {}, b''
    module, exports, verdict = generated(r)
    return (changed(r, module), exports, b'') if r.random() < 0.45 else (module, exports, verdict)


def generated(r):
    pick = r.random()
    if pick < 0.5:
        module, parameters = typed_module(r)
        return module, dict(zip('abcdef', parameters)), b'accepted'
    if pick < 0.75:
        return small_module(r), dict.fromkeys('abcde', [b'\x7F']), b'accepted'
    if pick < 0.88:
        name = r.choice([*FAMILIES])
        form = r.choice(FAMILIES[name][0])
        verdict = b'accepted' if form.endswith('accepted') else b'refused'
        return module_of(name, form, r.choice([300, 1_000, 4_000]), r.randrange(2 ** 32)), {'f': []}, verdict
    kind = r.choice(ordinary_modules.KINDS)
    size = r.choice([2_000, 40_000] if kind in ('lists', 'labels') else [2_000, 40_000, 300_000])
    return ordinary_modules.module(kind, size, r.randrange(2 ** 32)), {'f': [b'\x7F'] * 2}, b'accepted'


def calls_of(r, exports):
    def line():
        name = r.choice([*exports]) if exports and r.random() < 0.95 else r.choice([*'abcdef', 'nothing'])
        types = [it if it in NUMBERS else b'\x7F' for it in exports.get(name, [b'\x7F'])]
        return '\t'.join([name] + [f'{NUMBERS[it][0]}:{r.choice(NUMBERS[it][1])}' for it in types]) + '\n'
    return ''.join(line() for _ in range(r.randrange(1, 40))).encode() + (b'' if r.random() < 0.95 else b'a\ti32:-0\n')


def held_to(bytes_of):
    def hold():
        resource.setrlimit(resource.RLIMIT_STACK, (64 * 1024, 64 * 1024))
        if bytes_of:
            resource.setrlimit(resource.RLIMIT_AS, (bytes_of, bytes_of))
    return hold


def answer(words, held=None, **named):
    env = {**os.environ, **named} if named else None
    # Long enough for the lowest priority on a busy machine.
    try:
        ran = subprocess.run(words, capture_output=True, timeout=600, preexec_fn=held_to(held), env=env)
    except subprocess.TimeoutExpired:
        return 'no end', b'', b''
    return ran.returncode, ran.stdout, ran.stderr


def is_short(want, got):
    # Whether this is the answer that is wanted, but for what ran out of memory.
    is_report = got[0] == want[0] == 0 and got[1] and got[2] == b'' and want[1] != b'accepted\n'
    return got == (70, b'', b'gate: no memory\n') or is_report and may_report(want[1].decode(), got[1].decode())


class Soak:
    """The program beside node, where that is installed, and what was compared."""

    def __init__(self, gate, node, one, seed, folder):
        self.gate, self.node, self.one, self.seed, self.r = gate, node, one, seed, random.Random(seed)
        self.path, self.calls, self.refuser = (os.path.join(folder, name) for name in ('module.wasm', 'calls', 'refuse.so'))
        if one or not shutil.which('cc'):
            self.refuser = None
        else:
            subprocess.run(['cc', '-O1', '-shared', '-fPIC', '-o', self.refuser, refuser_source, '-ldl'], check=True)
        names = ['modules', 'accepted', 'reported', 'calls', 'answers', 'out of memory']
        self.count = dict.fromkeys(names + (['verdicts like node', 'calls like node', 'own limits', 'later features'] if node else []), 0)

    def end(self, why):
        kept = f'soak-{self.seed}-{self.count["modules"]}'
        os.replace(self.path, kept + '.wasm')
        os.replace(self.calls, kept + '.calls')
        sys.exit(f'seed {self.seed}: {why}; kept as {kept}')

    def ways(self):
        # How many work, what they take at once, what the address space is held to, and what the environment says.
        r = self.r
        for workers, piece in ((1, 1), (64, 65_535), *((r.randrange(1, 65), r.choice(PIECES)) for _ in range(3))):
            yield workers, piece, r.choice(HELD), {}
        if self.refuser:
            refused = {'LD_PRELOAD': self.refuser, 'REFUSED': str(r.randrange(1, MOST_REQUESTS))}
            yield r.choice([1, 2, 4, 64]), r.choice(PIECES), None, refused

    def compare(self, words, want):
        # With the answers of other numbers of workers, and of little memory.
        for workers, piece, held, named in self.ways():
            got = answer(words + ['--workers', str(workers), '--piece', str(piece)], held, **named)
            self.count['answers'] += 1
            if got != want:
                self.count['out of memory'] += 1
                if not (held or named) or not is_short(want, got):
                    self.end(f'{words[1:]} with {workers} workers, piece {piece}, {held} bytes, {named}: {got}, and not {want}')

    def turn(self):
        # One module.
        module, exports, verdict = candidate(self.r)
        text = calls_of(self.r, exports)
        for name, contents in ((self.path, module), (self.calls, text)):
            with open(name, 'wb') as file:
                file.write(contents)
        fuel, frames, pages = (self.r.choice(it) for it in (['0', '10', '20000'], ['1', '3', '200'], ['0', '2', '64']))
        limits = ['--fuel', fuel, '--frames', frames, '--pages', pages]
        commands = [self.gate, 'check', self.path], [self.gate, 'run', self.path, self.calls] + limits
        checked, reported = wants = [answer(words + ['--workers', '1']) for words in commands]
        if checked[0] not in (0, 2) or reported[0] not in (0, 2, 3) or not checked[1].startswith(verdict):
            self.end(f'ended with {wants}; its verdict begins with {verdict}')
        for words, want in zip(commands, wants):
            if not self.one:
                self.compare(words, want)
        if self.node:
            report = reported[1] if reported[0] == 0 else None
            differs = self.node.difference(self.path, module, checked[1], text, report, int(pages), self.count)
            if differs:
                self.end(differs)
        self.count['modules'] += 1
        self.count['accepted'] += checked[0] == 0
        self.count['reported'] += reported[0] == 0
        self.count['calls'] += text.count(b'\n') if reported[0] == 0 else 0


def main(gate, one, seconds, seed):
    print(f'seed {seed}' + ('' if shutil.which('node') else ', without node'), flush=True)
    node, end = Node() if shutil.which('node') else None, time.time() + seconds
    try:
        with tempfile.TemporaryDirectory() as folder:
            soak = Soak(gate, node, one, seed, folder)
            while time.time() < end:
                soak.turn()
                if soak.count['modules'] % 500 == 0:
                    print(soak.count, flush=True)
            print('no difference:', soak.count)
    finally:
        if node:
            node.end()


if __name__ == '__main__':
    parser = arguments.parser(__doc__)
    parser.add_argument('gate', metavar='GATE', help='the program')
    parser.add_argument('seconds', metavar='SECONDS', nargs='?', type=float, default=3600, help='how long; an hour where none is given')
    parser.add_argument('seed', metavar='SEED', nargs='?', type=int, default=random.randrange(2 ** 32),
                        help='at random where none is given')
    parser.add_argument('--one', action='store_true', help='one worker alone, beside node: many more modules')
    words = parser.parse_args()
    main(os.path.abspath(words.gate), words.one, words.seconds, words.seed)
