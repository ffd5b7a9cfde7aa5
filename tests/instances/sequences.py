"""Sequences of calls, reads and writes on instances, by the library and by node.

Modules are those of tools/random_modules.py with integers alone, with counted loops, and with memory and globals exported; and the
plug-ins of examples/guests. A sequence goes through the library first, up to where fuel, frames or memory run out, and then through node
(node.js): each step has to end alike, with the same values, the same globals, and the same memory, byte by byte.
"""
import base64
import collections
import ctypes
import glob
import json
import os
import random
import subprocess
from typing import NamedTuple

from tools.encoding import HEADER, section, sections, signed, sized, unsigned, vector
from tools.files import ROOT
from tools.random_modules import I32, I64, NUMERIC, STORES, Maker

here = os.path.dirname(os.path.abspath(__file__))
GUESTS = os.path.join(ROOT, 'examples', 'guests')
STEPS = 24
FUEL, FRAMES, PAGES = 200_000, 200, 64
# A sequence ends where a memory has more bytes.
LARGE = 1 << 20
NUMBERS = [0, 1, 2, 3, 7, 8, 31, 64, 100, 255, 4096, 8192, 12288, 65528, 65535, 65536, 2 ** 31 - 1, 2 ** 31, 2 ** 32 - 1, 2 ** 63,
           2 ** 64 - 1]
TEXTS = [b'name\n{ "name": "pick", "room": 8192 }', b'a\n{"b": [1], "a":2}', b'Hello, World!', b'k\n{"k":"\\"quoted\\""}', b'\0\xFF{z`a']
KINDS = ['function', 'table', 'memory', 'global']
TRAPS = ['unreachable', 'out-of-bounds', 'undefined-element', 'uninitialized-element or type-mismatch',
         'uninitialized-element or type-mismatch', 'divide-by-zero', 'integer-overflow']
REASONS = ['imports', 'floats', 'table-limit', 'memory-limit', 'element-outside', 'data-outside']
VALUES, TRAP, OUT_OF_FUEL, OUT_OF_FRAMES, NOT_STARTED = 0, 1, 2, 3, 7
OK, OUTSIDE, NO_INSTANCE = 0, 80, 81


class Value(ctypes.Structure):
    _fields_ = [('width', ctypes.c_uint32), ('bits', ctypes.c_uint64)]

    def __str__(self):
        return f'i{self.width}:{self.bits}'


def struct(name, short, *long):
    """A struct of numbers of 32 bits, and then of 64."""
    fields = [(it, ctypes.c_uint32) for it in short.split()] + [(it, ctypes.c_uint64) for it in long]
    return type(name, (ctypes.Structure,), {'_fields_': fields})


Settings, Ended = struct('Settings', 'fuel frames pages'), struct('Ended', 'end reason place fuel', 'results')
Verdict, Export = struct('Verdict', 'kind rule function', 'token'), struct('Export', 'kind index params results')


class Answer(NamedTuple):
    """How a step ended, the globals after it, and the memory."""
    end: str
    globals: list
    memory: bytes


# gate_module and gate_instance are structs of one pointer, which C passes as that pointer.
HANDLE, SIZE = ctypes.c_void_p, ctypes.c_size_t
BYTES = ctypes.c_char_p
LIMITS = Settings(FUEL, FRAMES, PAGES)
PARAMETERS = {'gate_module_new': [BYTES, SIZE, HANDLE, HANDLE], 'gate_module_export': [HANDLE, ctypes.c_uint64, HANDLE],
              'gate_module_export_name': [HANDLE, ctypes.c_uint64, HANDLE, SIZE, HANDLE],
              'gate_module_types': [HANDLE, ctypes.c_uint32, HANDLE, SIZE, HANDLE, SIZE],
              'gate_instance_new': [HANDLE, HANDLE, HANDLE, HANDLE],
              'gate_instance_call': [HANDLE, BYTES, SIZE, HANDLE, SIZE, HANDLE, HANDLE, SIZE, HANDLE],
              'gate_instance_memory_size': [HANDLE, HANDLE], 'gate_instance_read': [HANDLE, ctypes.c_uint64, HANDLE, SIZE],
              'gate_instance_write': [HANDLE, ctypes.c_uint64, BYTES, SIZE], 'gate_instance_global': [HANDLE, BYTES, SIZE, HANDLE],
              'gate_instance_reset': [HANDLE, HANDLE], 'gate_instance_free': [HANDLE], 'gate_module_free': [HANDLE]}


def loaded(path):
    """The library, with the parameters of its functions."""
    library = ctypes.CDLL(path)
    for name, parameters in PARAMETERS.items():
        function = getattr(library, name)
        function.argtypes = parameters
        function.restype = None if name.endswith('_free') else ctypes.c_uint32
    return library


class Wrong(Exception):
    """What the library answers that it may never answer here, or a difference."""


class Exports(NamedTuple):
    functions: list  # of each the name, and the types of its parameters
    globals: list    # names


class Play:
    """A module in the library, and an instance of it where there is one."""

    def __init__(self, library, module):
        self.gate, self.bytes = library, module
        self.module, self.instance, verdict = HANDLE(), HANDLE(), Verdict()
        if library.gate_module_new(module, len(module), ctypes.byref(verdict), ctypes.byref(self.module)) != OK:
            raise Wrong(f'refused: kind {verdict.kind}, rule {verdict.rule}, function {verdict.function}, token {verdict.token}')
        self.exports = self.told()

    def end(self):
        if self.instance:
            self.gate.gate_instance_free(self.instance)
        self.gate.gate_module_free(self.module)

    def told(self):
        """What the module exports, as the library tells it."""
        found, number, name, length = Exports([], []), 0, ctypes.create_string_buffer(256), SIZE()
        export, params, results = Export(), ctypes.create_string_buffer(64), ctypes.create_string_buffer(64)
        while self.gate.gate_module_export(self.module, number, ctypes.byref(export)) == OK:
            self.gate.gate_module_export_name(self.module, number, name, len(name), ctypes.byref(length))
            spelled = name.raw[:length.value].decode()
            if KINDS[export.kind] == 'function':
                self.gate.gate_module_types(self.module, export.index, params, len(params), results, len(results))
                found.functions.append((spelled, ['i32' if it == 0x7F else 'i64' for it in params.raw[:export.params]]))
            elif KINDS[export.kind] == 'global':
                found.globals.append(spelled)
            number += 1
        return found

    def fresh(self):
        ended = Ended()
        if self.instance:
            status = self.gate.gate_instance_reset(self.instance, ctypes.byref(ended))
        else:
            status = self.gate.gate_instance_new(self.module, ctypes.byref(LIMITS), ctypes.byref(self.instance), ctypes.byref(ended))
        if status == OK:
            return 'begun'
        if status != NO_INSTANCE:
            raise Wrong(f'fresh: status {status}')
        return self.told_end(ended, None)

    def told_end(self, ended, results):
        """As node tells it; '' where fuel or frames ran out, of which node knows nothing."""
        if ended.end == VALUES:
            return ' '.join(['values'] + [str(results[k]) for k in range(ended.results)])
        if ended.end == TRAP:
            return f'trap {TRAPS[ended.reason]}'
        if ended.end == NOT_STARTED:
            return f'not-started {REASONS[ended.reason]}'
        if ended.end in (OUT_OF_FUEL, OUT_OF_FRAMES):
            return ''
        raise Wrong(f'a call ends with {ended.end}')

    def call(self, name, args):
        values, results, ended = (Value * len(args))(), (Value * 8)(), Ended()
        for value, (kind, bits) in zip(values, args):
            value.width, value.bits = int(kind[1:]), int(bits)
        spelled = name.encode()
        status = self.gate.gate_instance_call(self.instance, spelled, len(spelled), values, len(args), ctypes.byref(LIMITS), results,
                                              len(results), ctypes.byref(ended))
        if status != OK:
            raise Wrong(f'call: status {status}')
        return self.told_end(ended, results)

    def read(self, at, length):
        out = ctypes.create_string_buffer(b'Z' * length, length)
        status = self.gate.gate_instance_read(self.instance, int(at), out, length)
        if status not in (OK, OUTSIDE) or status == OUTSIDE and out.raw != b'Z' * length:
            raise Wrong(f'read: status {status}, or bytes that were written')
        return 'bytes ' + out.raw.hex() if status == OK else 'outside'

    def write(self, at, spelled):
        written = bytes.fromhex(spelled)
        status = self.gate.gate_instance_write(self.instance, int(at), written, len(written))
        if status not in (OK, OUTSIDE):
            raise Wrong(f'write: status {status}')
        return 'written' if status == OK else 'outside'

    def step(self, step):
        end = getattr(self, step[0])(*step[1:])
        return Answer(end, self.globals(), self.memory()) if self.instance else Answer(end, [], b'')

    def globals(self):
        found, value = [], Value()
        for name in self.exports.globals:
            if self.gate.gate_instance_global(self.instance, name.encode(), len(name.encode()), ctypes.byref(value)) != OK:
                raise Wrong(f'global {name}: there is none')
            found.append(str(value))
        return found

    def memory(self):
        size = ctypes.c_uint64()
        self.gate.gate_instance_memory_size(self.instance, ctypes.byref(size))
        out = ctypes.create_string_buffer(size.value or 1)
        if size.value and self.gate.gate_instance_read(self.instance, 0, out, size.value) != OK:
            raise Wrong('read: the whole memory')
        return out.raw[:size.value]


# Modules, and what is done to them.

class Looping(Maker):
    """Integers alone, always a memory, and loops that count down and do work in between."""

    def __init__(self, r):
        super().__init__(r)
        self.values = [I32, I64]
        self.numeric = [row for row in NUMERIC if {*row[1], row[2]} <= {*self.values}]
        self.types = [([], [])] + [(self.some(3), self.some(3)) for _ in range(r.randrange(2, 5))]
        self.functions = [r.choice(self.types) for _ in range(r.randrange(2, 6))]
        self.globals = [(r.choice(self.values), r.random() < 0.8) for _ in range(r.randrange(1, 5))]
        self.has_memory = True

    def counted(self, depth, labels):
        """A loop of some turns. Loops that stand in each other count in different locals."""
        counter, turns = unsigned(self.first_counter + depth), self.r.choice([1, 2, 5, 17])
        inside = self.stored(depth - 1, labels + [[]], counter) + self.statements(depth - 1, labels + [[]])
        down = b'\x20' + counter + b'\x41\x01\x6B\x22' + counter + b'\x0D\x00'
        return b'\x41' + signed(turns) + b'\x21' + counter + b'\x03\x40' + inside + down + b'\x0B'

    def stored(self, depth, labels, counter):
        """A store whose address goes with the counter."""
        scaled = b'\x20' + counter + b'\x41' + signed(self.r.choice([1, 3, 8, 1000])) + b'\x6C'
        of = self.r.choice(self.values)
        return scaled + self.value(of, depth, labels) + self.address(of, STORES)

    def statement(self, depth, labels):
        return self.counted(depth, labels) if depth > 0 and self.r.random() < 0.2 else super().statement(depth, labels)

    def body(self, takes, gives):
        more = self.some(4)
        self.locals = takes + more
        self.first_counter = len(self.locals)
        code = b''.join(self.statements(3, [gives]) for _ in range(3)) + self.values_of(gives, 3, [gives])
        return sized(vector([b'\x01' + of for of in more] + [b'\x04' + I32]) + code + b'\x0B')

    def module(self):
        """With the memory exported, and each global as g0, g1 and so on."""
        parts = dict(sections(super().module()))
        count = 1 + len(self.globals)
        more = b'\x06memory\x02\x00' + b''.join(b'\x02g' + b'%d' % k + b'\x03' + unsigned(k) for k in range(len(self.globals)))
        parts[7] = unsigned(parts[7][0] + count) + parts[7][1:] + more
        return HEADER + b''.join(section(number, parts[number]) for number in sorted(parts))


def guests():
    found = []
    for path in sorted(glob.glob(os.path.join(GUESTS, '*.wasm'))):
        with open(path, 'rb') as file:
            found.append(file.read())
    return found


def any_number(r):
    return r.choice(NUMBERS) if r.random() < 0.6 else r.randrange(16384) if r.random() < 0.7 else r.randrange(2 ** 64)


def any_bytes(r):
    return r.choice(TEXTS) if r.random() < 0.4 else r.randbytes(r.choice([0, 1, 2, 8, 100]))


def any_call(r, exports):
    name, params = r.choice(exports.functions)
    return ['call', name, [[it, str(any_number(r) % (2 ** 32 if it == 'i32' else 2 ** 64))] for it in params]]


def any_step(r, exports):
    pick = r.random()
    if pick < 0.62:
        return any_call(r, exports)
    if pick < 0.80:
        return ['write', str(any_number(r)), any_bytes(r).hex()]
    return ['read', str(any_number(r)), r.choice([0, 1, 8, 100])] if pick < 0.94 else ['fresh']


# The library beside node.

def by_library(library, module, r):
    """Steps with their answers, up to one that node cannot follow; and the names of the globals."""
    play, steps, answers = Play(library, module), [], []
    try:
        while len(steps) < STEPS:
            step = any_step(r, play.exports) if steps else ['fresh']
            answer = play.step(step)
            if not answer.end or len(answer.memory) > LARGE:
                break
            steps.append(step)
            answers.append(answer)
            if not play.instance:
                break
        return steps, answers, play.exports.globals
    finally:
        play.end()


class Node:
    def __init__(self):
        words = ['node', os.path.join(here, 'node.js')]
        self.child = subprocess.Popen(words, stdin=subprocess.PIPE, stdout=subprocess.PIPE)

    def ask(self, module, names, steps):
        asked = json.dumps([base64.b64encode(module).decode(), names, steps])
        self.child.stdin.write(asked.encode() + b'\n')
        self.child.stdin.flush()

    def answer(self):
        line = self.child.stdout.readline()
        if not line:
            raise Wrong(f'node ended with {self.child.wait()}')
        end, globals_, length = json.loads(line)
        return Answer(end, globals_, self.child.stdout.read(length))

    def end(self):
        self.child.kill()
        self.child.wait()


def difference(ours, others):
    """What differs, in words; nothing where nothing does."""
    if ours.end != others.end:
        return f'gate: {ours.end[:300]}, node: {others.end[:300]}'
    if ours.globals != others.globals:
        return f'globals of gate: {ours.globals}, of node: {others.globals}'
    if len(ours.memory) != len(others.memory):
        return f'bytes of memory in gate: {len(ours.memory)}, in node: {len(others.memory)}'
    if ours.memory != others.memory:
        at = next(k for k, (one, other) in enumerate(zip(ours.memory, others.memory)) if one != other)
        return f'byte {at} of memory in gate: {ours.memory[at]}, in node: {others.memory[at]}'
    return None


class Count:
    """How many steps were compared, by how they end, and how many bytes of memory."""

    def __init__(self):
        self.ends, self.bytes = collections.Counter(), 0

    def steps(self):
        return sum(self.ends.values())


class Difference(Exception):
    """A module on which the two differ, with the steps up to there."""

    def __init__(self, why, module, steps):
        super().__init__(why)
        self.module, self.steps = module, steps


def compare(library, node, module, r, count):
    """One sequence. Counts its steps by how they end."""
    steps = []
    try:
        steps, answers, names = by_library(library, module, r)
        if not steps:
            return
        node.ask(module, names, steps)
        for number, ours in enumerate(answers):
            differs = difference(ours, node.answer())
            if differs:
                raise Wrong(f'step {number}: {differs}')
            count.ends[ours.end.split(' ')[0]] += 1
            count.bytes += len(ours.memory)
    except Wrong as why:
        raise Difference(str(why), module, steps) from None


def sequences(path, seed, least, count):
    """Compares sequences that the seed makes, until `least` steps more are compared; raises the first difference."""
    r, library, node, plugins, last = random.Random(seed), loaded(path), Node(), guests(), count.steps() + least
    try:
        while count.steps() < last:
            compare(library, node, r.choice(plugins) if r.random() < 0.15 else Looping(r).module(), r, count)
    finally:
        node.end()
