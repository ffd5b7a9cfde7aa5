"""What the program does where memory is refused, where it is not, and how much it asks for.

refused    Each request for memory is refused in turn while some rows of the tables, and many open blocks, are judged and run.
           A check must end out of memory, with nothing on standard output, or with the row's line; a run the same way, or
           with the row's report in which calls that were run may end in `no-memory`, the total counted anew. It stops where 25
           runs in a row ended as if no request had been refused: then the program asks no more. A module none of whose
           requests was refused, and one that asks more than MOST_REQUESTS times, count as failures. Of one row a request is
           found whose want ends its first call alone.
held       A million open blocks are judged in little memory, which no contract promises; the calls of functions whose entry
           wants 34 GB end in `no-memory`, each in its own line; operands of code that is not reached take no room.
in time    Modules of long lists are checked in little memory: each limit of addresses gives the verdict or out of memory, within
           some seconds of a processor, however much of what makes the check fast finds no room.
granted    No request is refused while all modules of the tables, of counts.py and of tools/worst_cases are judged and run, by
           one worker and by four: nothing may be out of memory, and verdicts are those of the tables. What the program asked
           for before any call, at once and together, is at most some times the module's length: nothing is asked for by a
           count that the bytes do not fill.
"""
import os
import re
import resource
import struct
import subprocess
import sys
import tempfile

from tests import counts, rows
from tools.arguments import program
from tools.counting import Count
from tools.encoding import EMPTY, function_type, unsigned, vector, whole
from tools.reports import may_report, total_of
from tools.worst_cases import FAMILIES, KEPT, module_of

CHECKED = ['add', 'bodies 3 and 900 of 1,000 ill typed', 'memory, loads and division', 'call through the table', 'float constant']
RAN = ['the sum passes the greatest i32', 'a store that no other call sees, and divisions', 'calls through a table',
       'growth up to the declared maximum']
# The report of the second of these where the first call alone runs out of memory; the others see nothing of it.
FIRST_CALL = ('0 no-memory\n1 values i32:0 fuel 1\n2 trap integer-overflow fuel 1\n3 trap divide-by-zero fuel 1\n4 values i32:-3 fuel 1\n'
              '5 bad-arguments\n6 no-export\ntotal 7 values 2 traps 2 exhausted 0 refused 2 no-memory 1 fuel 4\n')
MOST_REQUESTS = 5000
DEPTH = 3000
# In this many megabytes of addresses a million open blocks fit: their frames take 32, and 16 more while they move.
ROOM = 64
# In this many a call is run that enters few slots. The operands after its branch would take 240 more.
ENTRY_ROOM = 128
# What may be asked for at once and together, in lengths of the module, and beside: the worst are open blocks (21 and 42, of which
# no more than 17 are touched) and, for runs, functions of two bytes (29 and 118), since each body has a record.
LENGTHS = {'check': (24, 48), 'run': (48, 192)}
BESIDE = 512 << 10
SIZE = 100_000
# Of each family its form, its size, and the seconds of a processor that a check may take: ten times and more what it takes with
# memory enough. A check that compares whole lists takes minutes for the first of them.
TIMED = [('two equal lists', 'dead accepted', 4_000_000, 10), ('chains of lists', 'dead accepted', 1_000_000, 10),
         ('ends of long lists', 'dead refused', 1_000_000, 10), ('blocks of long lists', 'dead accepted', 1_000_000, 10),
         ('open blocks', 'accepted', 1_000_000, 10)]
# These many megabytes of addresses: with the least nothing is checked, with the most everything.
LIMITS = (8, 12, 16, 20, 24, 32, 40, 48, 64, 96, 256)
# The names of exports in the tables.
NAMES = b'f\ng\ns\nl\nd\na\nb\nu\nadd\n'


class Gate(Count):
    """The program with `refuse_memory.c` before it, and how often it did right."""

    def __init__(self, program, folder):
        super().__init__('memory')
        here = os.path.dirname(os.path.abspath(__file__))
        self.program, self.library, self.asked = program, os.path.join(folder, 'refuse.so'), os.path.join(folder, 'asked')
        self.module, self.calls = os.path.join(folder, 'module.wasm'), os.path.join(folder, 'calls')
        source = os.path.join(here, 'refuse_memory.c')
        subprocess.run(['cc', '-O1', '-shared', '-fPIC', '-o', self.library, source, '-ldl'], check=True)
        self.refusals = 0

    def run(self, words, megabytes=None, seconds=None, **named):
        # What it prints, its status, and what stands on standard error. A signal ends it after these seconds of a processor.
        limits = {resource.RLIMIT_AS: megabytes and megabytes << 20, resource.RLIMIT_CPU: seconds}

        def bound():
            for kind, limit in limits.items():
                if limit:
                    resource.setrlimit(kind, (limit, limit))
        loaded = {**os.environ, 'LD_PRELOAD': self.library, **named} if named else None
        ran = subprocess.run([self.program] + words, capture_output=True, timeout=120, env=loaded, preexec_fn=bound)
        return ran.stdout.decode(), ran.returncode, ran.stderr

    def refuse_each(self, name, words, wanted, status, is_good):
        # Refuses the first request, then the second, and so on. Gives all that was printed.
        number, whole, refused, printed = 1, 0, 0, set()
        while whole < 25 and number < MOST_REQUESTS:
            got = text, ended, error = self.run(words, REFUSED=str(number))
            printed.add(text)
            is_whole = got == (wanted, status, b'')
            is_short = got == ('', 70, b'gate: no memory\n') or ended == status and error == b'' and is_good(wanted, text)
            self.expect(is_whole or is_short, f'{name}, {words[0]}, request {number}', got)
            whole = whole + 1 if is_whole else 0
            refused += is_short and not is_whole
            number += 1
        self.refusals += refused
        if not refused or number >= MOST_REQUESTS:
            self.expect(False, name, f'{refused} requests refused, {number} tried')
        return printed


def named(table, names):
    found = {row[0]: row for row in rows.rows(table)}
    return [found[name] for name in names]


def open_blocks(depth):
    # So many blocks inside one that gives an i32, and a branch out of them all.
    return whole(b'\x02\x7f' + b'\x02\x40' * depth + b'\x41\x01\x0c' + unsigned(depth) + b'\x0b' * depth + b'\x41\x01\x0b\x1a')


def write_for(gate, module, workers, verdict):
    # Long enough for as many workers, where bytes may follow.
    may_follow = workers != '1' and not verdict.startswith('refused malformed')
    rows.write(gate.module, rows.lengthened(module, int(workers)) if may_follow else module)


def refused(gate):
    for name, spelled, line, status in named('check.tsv', CHECKED):
        for workers in ('1', '4'):
            write_for(gate, rows.bytes_of(spelled), workers, line)
            gate.refuse_each(name, ['check', gate.module, '--workers', workers], line + '\n', int(status), lambda wanted, got: False)
    rows.write(gate.module, open_blocks(DEPTH))
    for workers in ('1', '4'):
        gate.refuse_each('deep blocks', ['check', gate.module, '--workers', workers], 'accepted\n', 0, lambda wanted, got: False)
    for name, spelled, calls, options, text, status in named('run.tsv', RAN):
        rows.write(gate.calls, rows.text_of(calls))
        for workers in ('1', '4'):
            write_for(gate, rows.bytes_of(spelled), workers, text)
            words = ['run', gate.module, gate.calls, '--workers', workers, '--piece', '1'] + options.split()
            printed = gate.refuse_each(name, words, rows.text_of(text).decode(), int(status), may_report)
            if name == RAN[1] and workers == '1':
                gate.expect(FIRST_CALL in printed, f'{name}, no request whose want ends the first call alone', printed)


def held(gate):
    rows.write(gate.module, open_blocks(1_000_000))
    got = gate.run(['check', gate.module, '--workers', '1'], ROOM)
    gate.expect(got == ('accepted\n', 0, b''), f'a million open blocks, {ROOM} MB', got)
    # `t` has 46,342 times 92,682 operands below a block, loop or if, and an entry takes room for all; `c` calls it, `u` traps.
    many = [EMPTY, function_type([], [b'\x7F'] * 92_682)]
    exports = vector([b'\x01' + name + b'\x00' + bytes([k]) for k, name in enumerate([b't', b'u', b'g', b'c'])])
    rows.write(gate.calls, b't\ng\nu\nc\ng\nt\n')
    lines = ['0 no-memory', '1 values fuel 1', '2 trap unreachable fuel 1', '3 no-memory', '4 values fuel 1', '5 no-memory']
    for begin in (b'\x02\x40', b'\x03\x40', b'\x41\x00\x04\x40'):
        others = [(1, b'\x00\x00\x0B'), (0, b'\x00\x0B'), (0, b'\x00\x10\x00\x0B')]
        rows.write(gate.module, whole(b'\x10\x01' * 46_342 + begin + b'\x0B\x00', types=many, others=others, sections={7: exports}))
        for workers in ('1', '4'):
            got = gate.run(['run', gate.module, gate.calls, '--workers', workers, '--piece', '1'], 1024)
            report = '\n'.join(lines + [total_of(lines), ''])
            gate.expect(got == (report, 0, b''), f'calls of a tall function, {begin}, {workers} workers', got)
    # `f` branches out of a block in which 300 calls that are not reached would leave 100,000 operands each, by themselves or in
    # blocks of their own, one in the other.
    rows.write(gate.calls, b'f\n')
    lines = ['0 values fuel 1']
    for depth in range(3):
        calls = b'\x02\x40\x0C\x00' + b'\x02\x40' * depth + b'\x10\x01' * 300 + b'\x00' + b'\x0B' * depth + b'\x0B'
        rows.write(gate.module, whole(calls, types=[EMPTY, function_type([], [b'\x7F'] * 100_000)], others=[(1, b'\x00\x00\x0B')]))
        got = gate.run(['run', gate.module, gate.calls, '--workers', '1'], ENTRY_ROOM)
        gate.expect(got == ('\n'.join(lines + [total_of(lines), '']), 0, b''), f'operands that are not reached, {depth} blocks deep', got)


def equal_lists(size):
    # Two equal lists of half as many types, and code that is not reached asks again and again whether the one ends as the other.
    many = [b'\x7F'] * (size // 4)
    tokens = b'\x00' + b'\x04\x01\x0B\x00' * (size // 8)
    return whole(tokens, types=[EMPTY, function_type(many, many)])


def in_time(gate):
    for name, form, size, seconds in TIMED:
        module = equal_lists(size) if name not in FAMILIES else module_of(name, form, size, 7)
        rows.write(gate.module, module)
        wanted = gate.run(['check', gate.module, '--workers', '1'], seconds=seconds)
        begins = 'accepted' if form.endswith('accepted') else 'refused'
        gate.expect(wanted[0].startswith(begins), f'{name}, {form}, memory enough', wanted)
        seen = set()
        for megabytes in LIMITS:
            got = gate.run(['check', gate.module, '--workers', '1'], megabytes, seconds)
            gate.expect(got in (wanted, ('', 70, b'gate: no memory\n')), f'{name}, {form}, {megabytes} MB, {seconds} s', got)
            seen.add(got[1])
        gate.expect(seen == {70, wanted[1]}, f'{name}, {form}: limits from too little to enough', seen)


def all_modules():
    # Each module with its name, and the beginning of its verdict where that is known.
    seen = set()
    for name, spelled, verdict, _ in rows.rows('check.tsv'):
        seen.add(spelled)
        yield name, rows.bytes_of(spelled), verdict
    for name, spelled, _, _, text, _ in rows.rows('run.tsv'):
        if spelled not in seen:
            seen.add(spelled)
            yield name, rows.bytes_of(spelled), ''
    for name, module, verdict in counts.modules():
        yield name, module, verdict
    for name, (forms, _) in (FAMILIES | KEPT).items():
        for form in forms:
            verdict = 'accepted' if form.endswith('accepted') else 'refused'
            yield f'{name}, {form}', module_of(name, form, SIZE, 7), verdict


def granted(gate):
    rows.write(gate.calls, NAMES)
    for name, module, verdict in all_modules():
        rows.write(gate.module, module)
        for workers in ('1', '4'):
            for words in (['check', gate.module], ['run', gate.module, os.devnull]):
                text, status, error = gate.run(words + ['--workers', workers], ASKED=gate.asked)
                is_accepted = text == 'accepted\n' or text.startswith('total 0 ')
                holds = error == b'' and status == (0 if is_accepted else 2) and ('accepted' if is_accepted else text).startswith(verdict)
                gate.expect(holds, f'{name}, {words[0]}, {workers} workers, nothing refused', (text, status, error))
                with open(gate.asked, 'rb') as file:
                    sizes = struct.unpack('QQ', file.read())
                most = [times * len(module) + BESIDE for times in LENGTHS[words[0]]]
                gate.expect(sizes[0] <= most[0] and sizes[1] <= most[1], f'{name}, {words[0]}, {workers} workers: bytes asked for', sizes)
            got = gate.run(['run', gate.module, gate.calls, '--workers', workers, '--piece', '1', '--fuel', '1000'])
            holds = got[1] in (0, 2) and got[2] == b'' and not re.search(r'^\d+ no-memory$', got[0], re.MULTILINE)
            gate.expect(holds, f'{name}, calls, {workers} workers, nothing refused', got)


def main(program):
    with tempfile.TemporaryDirectory() as folder:
        gate = Gate(program, folder)
        for part in (refused, held, in_time, granted):
            part(gate)
    print(f'{gate.refusals} of {gate.passed} runs ran out of memory')
    return gate.status()


if __name__ == '__main__':
    sys.exit(main(program(__doc__)))
