"""Runs the program on modules of the greatest length, each of which is as much as fits of one thing: instructions, functions, entries of
segments, types. Each is accepted, and a call of its export `f` ends as a computation by hand says. No growth of memory is refused to
these, so that `gate: no memory` and a call that ends so are wrong answers. A check and a run take one after another, on one worker, since
some take a hundred times the module's length.
"""
import os
import subprocess
import sys
import tempfile
import time

from tools.arguments import program
from tools.counting import Count
from tools.encoding import EMPTY, HEADER, function_type, section, signed, unsigned, whole
from tools.files import write

MODULE_LIMIT = 16_777_216
# What a module may fall short of that length: a last item that did not fit, and lengths that take a byte more.
SHORT_OF_IT = 64
I32, NOP, DROP, END, CALL_INDIRECT = b'\x7F', b'\x01', b'\x1A', b'\x0B', b'\x11'
# The most entries that a table may have where the module is run.
TABLE_LIMIT = 65_536
ONE_VALUE = 'total 1 values 1 traps 0 exhausted 0 refused 0 no-memory 0 fuel'
NOT_STARTED = 'total 1 values 0 traps 0 exhausted 0 refused 1 no-memory 0 fuel 0'


def values(fuel):
    """The report of one call that gives no value."""
    return f'0 values fuel {fuel}\n{ONE_VALUE} {fuel}\n'


def not_started(reason):
    return f'0 not-started {reason}\n{NOT_STARTED}\n'


def constant(number):
    return b'\x41' + signed(number)


def greatest(made, length):
    """The module that `made` gives of as many items as fit, where each item takes `length` bytes."""
    count = (MODULE_LIMIT - SHORT_OF_IT) // length
    count += (MODULE_LIMIT - len(made(count))) // length
    return made(count)


def nops(count):
    return whole(NOP * count)


def operands(count):
    """So many operands stand on the stack at once."""
    return whole(constant(0) * count + DROP * count)


def blocks(count):
    """Blocks in blocks."""
    return whole(b'\x02\x40' * count + END * count)


def labels(count):
    """A table of branches, all of them to the end of the body."""
    return whole(constant(count) + b'\x0E' + unsigned(count) + bytes(count) + b'\x00')


def functions(count):
    """Functions of a body of two bytes, of which the last is called."""
    first = {1: b'\x01' + EMPTY, 3: unsigned(count) + bytes(count), 7: b'\x01\x01f\x00' + unsigned(count - 1),
             10: unsigned(count) + b'\x02\x00\x0B' * count}
    return HEADER + b''.join(section(number, contents) for number, contents in first.items())


def parameters(count):
    """The second function is of a type of `count` parameters, and takes the last of them."""
    taken = b'\x00\x20' + unsigned(count - 1) + DROP + END
    return whole(b'', types=(EMPTY, function_type([I32] * count)), others=[(1, taken)])


def results(count):
    """A function that cannot end is of a type of `count` results."""
    return whole(b'', types=(EMPTY, function_type([], [I32] * count)), others=[(1, b'\x00\x00\x0B')])


def types(count):
    """Types of no parameter and no result."""
    return whole(b'', sections={1: unsigned(count) + EMPTY * count})


def segment(count, entries):
    """One element segment of `count` functions, in a table of `entries` entries."""
    one = b'\x00' + constant(0) + END + unsigned(count) + bytes(count)
    return whole(b'', sections={4: b'\x01\x70\x00' + unsigned(entries), 9: b'\x01' + one})


def segments(count):
    """Segments of the whole table, and a call of its last entry."""
    one = b'\x00' + constant(0) + END + unsigned(TABLE_LIMIT) + bytes(TABLE_LIMIT)
    called = constant(TABLE_LIMIT - 1) + CALL_INDIRECT + b'\x00\x00'
    return whole(b'', others=[(0, b'\x00' + called + END)],
                 sections={4: b'\x01\x70\x00' + unsigned(TABLE_LIMIT), 7: b'\x01\x01f\x00\x01', 9: unsigned(count) + one * count})


def rows():
    """A name, the module, the report of one call of `f`."""
    yield 'nops', greatest(nops, 1), values(1)
    yield 'operands', greatest(operands, 3), values(1)
    yield 'blocks in blocks', greatest(blocks, 3), values(1)
    yield 'labels of a branch', greatest(labels, 1), values(1)
    yield 'functions', greatest(functions, 4), values(1)
    yield 'parameters of a type', greatest(parameters, 1), values(1)
    yield 'results of a type', greatest(results, 1), values(1)
    yield 'types', greatest(types, 3), values(1)
    yield 'a segment past its table', greatest(lambda count: segment(count, TABLE_LIMIT), 1), not_started('element-outside 0')
    yield 'a segment of a table past its limit', greatest(lambda count: segment(count, count), 1), not_started('table-limit')
    yield 'segments', greatest(segments, TABLE_LIMIT + len(constant(0)) + 5), values(2)


def main(gate):
    count, started = Count('limits'), time.monotonic()

    def expect(name, words, wanted):
        ran = subprocess.run([gate, *words, '--workers', '1'], capture_output=True, timeout=300)
        got = ran.stdout.decode(errors='replace'), ran.returncode, ran.stderr.decode(errors='replace')
        count.equal(f'{name}, {words[0]}', got, (wanted, 0, ''))

    with tempfile.TemporaryDirectory() as folder:
        module, calls = os.path.join(folder, 'module.wasm'), os.path.join(folder, 'calls')
        write(calls, b'f\n')
        for name, contents, report in rows():
            room = TABLE_LIMIT if name == 'segments' else 0
            assert MODULE_LIMIT - SHORT_OF_IT - room <= len(contents) <= MODULE_LIMIT, (name, len(contents))
            write(module, contents)
            expect(name, ['check', module], 'accepted\n')
            expect(name, ['run', module, calls], report)
    return count.status(f' ({time.monotonic() - started:.0f} s)')


if __name__ == '__main__':
    sys.exit(main(program(__doc__)))
