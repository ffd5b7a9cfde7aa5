"""Holds what a call takes to the formula of docs/SECURITY.md, on modules that are made to cost as much as its terms allow.

A call of a module of n bytes and a table of E entries, with F fuel and P pages, whose longest body has L tokens, whose functions
have at most D locals, and whose longest list of types has V types, takes at most

    (n + E) x 10 ns + P x 100 us + (F + 1) x (100 us + D x 15 ns + L x (500 ns + V x 8 ns)) + V x 200 ns

of a processor: its instance; the memory that it has written; its entries and turns of loops; its printed values. Each worker takes
1 ms and P x 200 us more, once, since its memory is new and may be copied as it grows, and each byte of the text of calls 150 ns.
Judging the module comes before, once, and is measured apart and taken away. Each module is made for one term. The constants are
twice what a busy machine of 2.5 GHz takes and more: a token of a loop takes 6 to 16 ns, a load that waits for the one before 120 to
250 ns, a local of a new frame 6 to 8 ns, a page of new memory that is copied twice 120 to 220 us. What is measured is the processor's
time.
"""
import os
import random
import sys
import tempfile

from tools import arguments
from tools.encoding import EMPTY, function_type, signed, sized, unsigned, vector, whole
from tools.processes import processor_seconds

TURNS = 3
LINE = b'f\n'
I32 = b'\x7F'


class Case:
    """A module with the limits of its calls, and what the formula asks of it."""

    def __init__(self, name, module, fuel=0, pages=0, table=0, tokens=1, types=0, locals_count=0, calls=20, end='values',
                 workers=1):
        self.name, self.module, self.fuel, self.pages, self.table = name, module, fuel, pages, table
        self.tokens, self.types, self.locals_count, self.calls = tokens, types, locals_count, calls
        self.end, self.workers = end, workers

    def bound(self):
        """The seconds that a call may take."""
        entries = (self.fuel + 1) * (100e-6 + self.locals_count * 15e-9 + self.tokens * (500e-9 + self.types * 8e-9))
        instance = (len(self.module) + self.table) * 10e-9 + self.pages * 100e-6
        begun = (1e-3 + self.pages * 200e-6) * self.workers / self.calls
        return begun + len(LINE) * 150e-9 + instance + entries + self.types * 200e-9


def shifting_branches(count, values):
    """Branches with `values` values, of which each comes down by one place: `(block (result ..) const, .., br 0)`, in one body."""
    types = [EMPTY, function_type([], [I32] * values), function_type([I32] * values, [I32] * values)]
    body = b'\x10\x01' + b'\x02\x02\x41\x00\x0C\x00\x0B' * count + b'\x41\x00\x0C\x00'
    return whole(body, types=types, others=[(1, b'\x00' + b'\x41\x00' * values + b'\x0B')])


def returned_lists(count, values):
    """Calls of a function with `values` results, which come down over one operand, and are dropped by a branch."""
    types = [EMPTY, function_type([], [I32] * values)]
    body = b'\x02\x40\x10\x01\x0C\x00\x0B' * count
    return whole(body, types=types, others=[(1, b'\x01\x01\x7F' + b'\x41\x00' * (values + 1) + b'\x0F\x0B')])


def entered(locals_count):
    """A loop that calls a function with `locals_count` locals until the fuel is gone."""
    declared = b'\x01' + unsigned(locals_count) + I32
    return whole(b'\x03\x40\x10\x01\x0C\x00\x0B', others=[(0, declared + b'\x0B')])


def deep(locals_count):
    """A function with `locals_count` locals that calls itself until the fuel is gone: each frame is new memory."""
    return whole(b'\x10\x00', b'\x01' + unsigned(locals_count) + I32)


def not_taken(count, values):
    """Calls with `values` results each, in an `if` that is not taken: the entry makes room for all of them."""
    types = [EMPTY, function_type([], [I32] * values)]
    return whole(b'\x41\x00\x04\x40' + b'\x10\x01' * count + b'\x00\x0B', types=types, others=[(1, b'\x00\x00\x0B')])


def turns(tokens):
    """A loop whose turn has `tokens` tokens, until the fuel is gone."""
    return whole(b'\x03\x40' + b'\x41\x00\x1A' * (tokens // 2) + b'\x0C\x00\x0B')


def seldom_turns(tokens):
    """The same with branch tables, each of which jumps to the next."""
    return whole(b'\x03\x40' + b'\x02\x40\x41\x00\x0E\x00\x00\x0B' * (tokens // 4) + b'\x0C\x00\x0B')


def by_globals(tables, cases, globals_count):
    """A loop of branch tables, each by a global at random: where the next token lies is said by a case that no cache holds."""
    chance = random.Random(5)
    begin = b'\x0E' + unsigned(cases) + b'\x00' * (cases + 1) + b'\x0B'
    body = b''.join(b'\x02\x40\x23' + unsigned(chance.randrange(globals_count)) + begin for _ in range(tables))
    values = vector([I32 + b'\x00\x41' + signed(chance.randrange(64)) + b'\x0B' for _ in range(globals_count)])
    return whole(b'\x03\x40' + body + b'\x0C\x00\x0B', sections={6: values})


def chased(pages, step, loads):
    """A loop of loads, each from the address that the one before gave: of all that are `step` bytes apart, in an order at random."""
    count = (pages << 16) // step
    order = list(range(count))
    random.Random(7).shuffle(order)
    places = sorted((at * step, then * step) for at, then in zip(order, order[1:] + order[:1]))
    data = vector([b'\x00\x41' + signed(at) + b'\x0B' + sized(then.to_bytes(4, 'little')) for at, then in places])
    turn = b'\x20\x00' + b'\x28\x02\x00' * loads + b'\x21\x00\x0C\x00'
    return whole(b'\x03\x40' + turn + b'\x0B', b'\x01\x01\x7F', sections={5: b'\x01\x00' + unsigned(pages), 11: data})


def filled(globals_count, entries, data):
    """An instance with many globals, functions in a table and data segments of a byte."""
    sections = {
        4: b'\x01\x70\x00' + unsigned(entries), 5: b'\x01\x00\x10',
        6: vector([b'\x7E\x01\x42\x00\x0B'] * globals_count),
        9: vector([b'\x00\x41' + signed(n) + b'\x0B\x01\x00' for n in range(entries)]),
        11: vector([b'\x00\x41' + signed(n) + b'\x0B\x01\x01' for n in range(data)]),
    }
    return whole(b'', sections=sections)


def scattered(count, pages):
    """Data segments of a byte, in an order that jumps about in all pages."""
    sections = {5: b'\x01\x00' + unsigned(pages),
                11: vector([b'\x00\x41' + signed(n * 40_503 * 4_099 % (pages << 16)) + b'\x0B\x01\x01' for n in range(count)])}
    return whole(b'', sections=sections)


def written(pages):
    """Writes a byte in each block of 4,096 bytes of a memory."""
    stores = b''.join(b'\x41' + signed(at) + b'\x41\x01\x3A\x00\x00' for at in range(0, pages * 65536, 4096))
    return whole(stores, sections={5: b'\x01\x00' + unsigned(pages)})


def copied(types, pages):
    """A memory that grows by a page, and then to twice as much, with the slots of a call above it: it is copied both times. The types
    have the C library keep in its heap what is freed, and take such memory from there."""
    data = vector([b'\x00\x41' + signed(at) + b'\x0B\x01\x01' for at in range(0, pages << 16, 4096)])
    grows = b''.join(b'\x41' + signed(more) + b'\x40\x00\x1A' for more in (1, pages))
    return whole(b'\x10\x01' + grows, types=[EMPTY] * types, others=[(0, b'\x01' + unsigned(1_000) + I32 + b'\x0B')],
                 sections={5: b'\x01\x00' + unsigned(pages), 11: data})


def printed(values):
    """A call with as many results as `values` says."""
    return whole(b'\x41\x7F' * values, types=[function_type([], [I32] * values)])


CASES = [
    Case('branches over a long list', shifting_branches(400, 100_000), fuel=2, tokens=2_000, types=100_000, calls=1),
    Case('calls with long results', returned_lists(400, 100_000), fuel=401, tokens=100_003, types=100_000, calls=1),
    Case('room for an if that is not taken', not_taken(10_000, 1_000), fuel=1, tokens=10_005, types=1_000, calls=1),
    Case('entries of 100,000 locals', entered(100_000), fuel=1_000, tokens=4, locals_count=100_000, calls=1, end='exhausted'),
    Case('frames of 100,000 locals', deep(100_000), fuel=60, tokens=2, locals_count=100_000, calls=5, end='exhausted'),
    Case('turns of a loop', turns(1_000_000), fuel=100, tokens=1_000_003, calls=1, end='exhausted'),
    Case('branch tables', seldom_turns(1_000_000), fuel=100, tokens=1_000_003, calls=1, end='exhausted'),
    Case('branch tables by globals', by_globals(10_000, 257, 300_000), fuel=50, tokens=40_004, calls=1, end='exhausted'),
    Case('loads that wait for one another', chased(1024, 1024, 100_000), fuel=20, pages=1024, tokens=100_005, calls=1, end='exhausted'),
    Case('globals, entries and data', filled(200_000, 65_536, 200_000), fuel=1, pages=16, table=65_536),
    Case('a table of 65,536 entries', whole(b'', sections={4: b'\x01\x70\x00' + unsigned(65_536)}), fuel=1, table=65_536, calls=2),
    Case('data in 256 pages', scattered(250_000, 256), fuel=1, pages=256),
    Case('16 pages of data', whole(b'', sections={5: b'\x01\x00\x10', 11: b'\x01\x00\x41\x00\x0B' + sized(b'\x01' * 1_000_000)}),
         fuel=1, pages=16, calls=200),
    Case('blocks of 1,024 pages', written(1024), fuel=1, pages=1024, tokens=50_000, calls=20),
    Case('a memory that is copied', copied(683_500, 250), fuel=2, pages=501, tokens=10, locals_count=1_000, calls=4, workers=4),
    Case('a small call', whole(b''), fuel=1, calls=50_000),
    Case('printed values', printed(100_000), fuel=1, tokens=100_001, types=100_000),
]


def least(words, wanted):
    """The least processor time of a run, whose report has this text."""
    best = None
    for _ in range(TURNS):
        spent, out, status = processor_seconds(words)
        if status != 0 or wanted not in out.rpartition('total ')[2]:
            sys.exit(f'costs: {" ".join(words)}: status {status}, {out[-200:]!r}')
        best = spent if best is None else min(best, spent)
    return best


def measured(gate, folder, case):
    """The seconds of a call, without those of judging the module."""
    module, none, calls = (os.path.join(folder, name) for name in ('module.wasm', 'none', 'calls'))
    for path, contents in ((module, case.module), (none, b''), (calls, LINE * case.calls)):
        with open(path, 'wb') as file:
            file.write(contents)
    words = ['--workers', str(case.workers), '--fuel', str(case.fuel), '--pages', str(case.pages)]
    judged = least([gate, 'run', module, none] + words, 'values 0 ')
    return (least([gate, 'run', module, calls] + words, f'{case.end} {case.calls} ') - judged) / case.calls


def main():
    parser = arguments.parser(__doc__)
    parser.add_argument('gate', help='the program')
    gate = os.path.abspath(parser.parse_args().gate)
    past = 0
    print(f'{"a call of":32}{"takes ms":>10}{"at most":>10}')
    with tempfile.TemporaryDirectory() as folder:
        for case in CASES:
            took, bound = measured(gate, folder, case), case.bound()
            past += took > bound
            print(f'{case.name:32}{took * 1e3:10.3f}{bound * 1e3:10.3f}{"  PAST" if took > bound else ""}')
    print(f'{len(CASES) - past} calls within the formula, {past} past it')
    return past == 0


if __name__ == '__main__':
    sys.exit(0 if main() else 1)
