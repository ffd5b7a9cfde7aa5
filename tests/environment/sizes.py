"""A module and a text of calls of the greatest length, and of one byte more."""
import os

from tools.encoding import HEADER, section, unsigned
from .gate import ACCEPTED, CALLS_LIMIT, CALLS_TOO_LARGE, LINE_LIMIT, MALFORMED, MODULE_LIMIT, NO_CALLS, TOO_LARGE


def filled(length):
    """A module of that length: the header and a custom section without a name."""
    size = length - len(HEADER) - 1 - len(unsigned(length))
    return HEADER + section(0, b'\0' + bytes(size - 1))


def sizes(gate):
    large = gate.write('large.wasm', filled(MODULE_LIMIT))
    gate.equal('the greatest length', os.path.getsize(large), MODULE_LIMIT)
    for words, wanted in (['check', large], ACCEPTED), (['run', large, os.devnull], NO_CALLS):
        gate.equal(f'the greatest module, {words[0]}', gate.run(*words), wanted)
    with open(large, 'ab') as file:
        file.write(b'\0')
    for words in ['check', large], ['run', large, gate.calls], ['run', large, '/dev/zero'], ['run', large, gate.bad_calls]:
        gate.equal(f'one byte more, {words}', gate.run(*words), TOO_LARGE)
    os.truncate(large, 1 << 36)
    gate.equal('64 GB that are not written', gate.run('check', large), TOO_LARGE)
    # Lines of one length, and a last one that is longer.
    line = b'x' * (CALLS_LIMIT // LINE_LIMIT - 1) + b'\n'
    calls = gate.write('calls.large', line * (LINE_LIMIT - 1) + b'x' * (CALLS_LIMIT - (LINE_LIMIT - 1) * len(line) - 1) + b'\n')
    gate.equal('the greatest length of calls', os.path.getsize(calls), CALLS_LIMIT)
    refused = b''.join(b'%d no-export\n' % number for number in range(LINE_LIMIT))
    refused += b'total %d values 0 traps 0 exhausted 0 refused %d no-memory 0 fuel 0\n' % (LINE_LIMIT, LINE_LIMIT)
    gate.equal('the greatest text of calls', gate.run('run', gate.module, calls), (refused, 0, b''))
    with open(calls, 'ab') as file:
        file.write(b'\n')
    gate.equal('one byte more of calls', gate.run('run', gate.module, calls), CALLS_TOO_LARGE)
    gate.equal('the same with a refused module', gate.run('run', gate.short, calls), MALFORMED)
    calls = gate.write('calls.lines', b'f\n' * (LINE_LIMIT + 1))
    gate.equal('one line more', gate.run('run', gate.module, calls), (b'accepted\ncalls line %d refused\n' % (LINE_LIMIT + 1), 3, b''))
    calls = gate.write('calls.late', b'\n' * 50_000 + b'\t\n' + b'\n' * 20_000)
    gate.equal('a bad line far behind', gate.run('run', gate.module, calls), (b'accepted\ncalls line 50001 refused\n', 3, b''))
    calls = gate.write('calls.long', (b'a' * 20_000 + b'\nf\n') * 4)
    ends = b''.join(b'%d no-export\n%d values fuel 1\n' % (number, number + 1) for number in range(0, 8, 2))
    ends += b'total 8 values 4 traps 0 exhausted 0 refused 4 no-memory 0 fuel 4\n'
    gate.equal('long names that are not there', gate.run('run', gate.module, calls), (ends, 0, b''))
    calls = gate.write('calls.bytes', b'\x00 \xff\r\ti64:9223372036854775807\ti32:-2147483648\ti32:0\n')
    none = b'0 no-export\ntotal 1 values 0 traps 0 exhausted 0 refused 1 no-memory 0 fuel 0\n'
    gate.equal('a name of any bytes', gate.run('run', gate.module, calls), (none, 0, b''))
