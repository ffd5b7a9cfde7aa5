"""Runs `gate check-all` beside `gate check`; `gate stream` beside `gate run`; and texts of calls in pieces by examples/many, whose joined
answer is compared with that of one run, byte by byte.

files      check-all over named files, a folder and names on standard input, against lines that are written here
table      check-all over all modules of the table, and each of them by `gate check`
inputs     `-` as a module, and why a file cannot be read, in words
version    it names the toolchain that `rt version` names, and a program that is no release has dashes for its commit, once

stream     the texts below from a file and from standard input; calls one by one, and a stream that is killed; and how much memory
           300,000 calls take
progress   how many lines `--progress` tells of, and when
joined     some thousands of calls of fold.wasm and primes.wasm, also with bad lines, without a last newline and with little
           fuel, in pieces of several lengths that run one after the other; and modules and options that are refused
million    a million calls, which no one run may have: the report is the one that is computed here
parallel   the scripts `run_calls` and `check_folder`, which need GNU parallel; where it is missing, this is said and they are
           left out
"""
import io
import os
import random
import re
import shutil
import subprocess
import sys
import tempfile

from tests import rows
from tools.arguments import program
from tools.counting import Count
from tools.files import shown, write
from tools.kit import module_at
from tools.sanitizer import has_sanitizer

HERE = os.path.dirname(os.path.abspath(__file__))
EXAMPLES = os.path.join(HERE, '..', 'examples')
MANY = os.path.join(EXAMPLES, 'many')
cut_calls, join_reports = (module_at(name, os.path.join(MANY, f'{name}.py')) for name in ('cut_calls', 'join_reports'))

# Calls that end in every way, and cheaply; PLACE is replaced by a number.
CALLS = {'fold': ['fold\ti32:0\ti32:PLACE', 'fold\ti32:3\ti32:1', 'set\ti32:0\ti32:PLACE', 'word\ti32:0', 'word\ti32:16384', 'grow\ti32:2',
                  'square\ti64:-PLACE', 'stop', 'deep\ti32:PLACE', 'deep\ti32:5000', 'fold\ti64:0\ti32:10', 'memory', 'missing'],
         'primes': ['count\ti32:PLACE', 'last\ti32:PLACE', 'is_prime\ti32:PLACE', 'ask\ti32:1\ti32:PLACE', 'ask\ti32:3\ti32:PLACE', 'none']}
LINES = 3_000
PIECES = [1, 7, 400, 1_000, 100_000]
MOST_PIECES = 8
MILLION = 1_000_000
STREAMED = 300_000
# How many kilobytes of memory a stream may have.
MOST_MEMORY = 64 * 1024
# Runs the words, whose input and output are files, and prints the most memory that they had. A process of its own: what the memory of
# the one that starts them was counts too.
MEASURE = """import resource, subprocess, sys
with open(sys.argv[1]) as read, open(sys.argv[2], 'w') as written:
    status = subprocess.run(sys.argv[3:], stdin=read, stdout=written).returncode
print(status, resource.getrusage(resource.RUSAGE_CHILDREN).ru_maxrss)"""
# What the start function and the entry of `square` cost.
SQUARE_FUEL = 12


def path_of(name):
    return os.path.join(EXAMPLES, name)


def text_of(name, seed, count=LINES):
    # Calls of that example; one line each.
    r = random.Random(seed)
    return [r.choice(CALLS[name]).replace('PLACE', str(r.randrange(1, 11))).encode() + b'\n' for _ in range(count)]


def spoiled(lines, *places):
    # The same lines, those at the places bad.
    return [b'fold\ti32:01\n' if place in places else line for place, line in enumerate(lines)]


def texts():
    # Names, the example, the text of calls and options.
    fold, primes = text_of('fold', 1), text_of('primes', 2)
    yield 'fold', 'fold', fold, []
    yield 'primes', 'primes', primes, []
    yield 'fold with little fuel and few frames', 'fold', fold, ['--fuel', '15', '--frames', '3']
    yield 'primes without pages', 'primes', primes, ['--pages', '0']
    yield 'no calls', 'fold', [], []
    yield 'one call', 'fold', fold[:1], []
    for places in (0,), (LINES - 1,), (1_234,), (999, 1_000), (2_000, 2_999), (6, 7, 8):
        yield f'bad lines {places}', 'fold', spoiled(fold, *places), []
    yield 'no last newline', 'fold', fold[:-1] + [fold[-1][:-1]], []
    yield 'an empty line', 'fold', fold[:500] + [b'\n'] + fold[500:], []


# What `check-all` prints of the folder that `make_folder` makes, by the name in it.
LINES_OF = {'a-b.wasm': b'accepted', 'a/b.wasm': b'refused malformed', 'a/deep/c d.wasm': b'accepted', 'empty.wasm': b'refused malformed',
            'folder.wasm/x.wasm': b'accepted', 'odd\t\\\n\x7f\u00e9.wasm': b'accepted', 'rule.wasm': b'refused rule 11'}
HEADER = b'\0asm\1\0\0\0'
# The start function is one that is not there.
RULE_11 = HEADER + b'\x08\x01\x00'


def make_folder(folder):
    # Modules, and files and folders that are none.
    for name in ('a/deep', 'folder.wasm', 'none'):
        os.makedirs(os.path.join(folder, name))
    for name, line in LINES_OF.items():
        contents = {b'accepted': HEADER, b'refused malformed': HEADER[:7], b'refused rule 11': RULE_11}[line]
        write(os.path.join(folder, name), b'' if name == 'empty.wasm' else contents)
    write(os.path.join(folder, 'a/text.wat'), b'(module)')


class Many(Count):
    """The program and the scripts, and how often they did right."""

    def __init__(self, program, folder):
        super().__init__('many')
        self.program, self.folder = program, folder
        self.calls = os.path.join(folder, 'calls')

    def once(self, module, options):
        # What one run prints, and its status.
        ran = subprocess.run([self.program, 'run', module, self.calls] + options, stdout=subprocess.PIPE)
        return ran.stdout, ran.returncode

    def stream(self, module, *words, calls=None):
        # What a stream prints, its status, and what stands on standard error. Without calls those of the file are on standard input.
        with open(calls or self.calls, 'rb') as text:
            ran = subprocess.run([self.program, 'stream', module, *words], stdin=text, capture_output=True)
        return ran.stdout, ran.returncode, ran.stderr

    def streamed(self, module, lines, options):
        # What a stream of these lines has to print, by one run of those before the first bad one.
        write(self.calls, b''.join(lines))
        report, status = self.once(module, options)
        if status == 0:
            return report, 0, b''
        place = int(report.split()[-2])
        write(self.calls, b''.join(lines[:place - 1]))
        before, _ = self.once(module, options)
        write(self.calls, b''.join(lines))
        return b''.join(before.splitlines(keepends=True)[:-1]) + b'calls line %d refused\n' % place, 3, b''

    def joined(self, module, options, lines):
        # The same in pieces, which run one after the other until one is refused.
        with tempfile.TemporaryDirectory() as work:
            cut_calls.cut(self.calls, work, lines)
            reports = []
            for piece in sorted(os.listdir(work)):
                reports.append(os.path.join(work, piece[:-len('calls')] + 'report'))
                with open(reports[-1], 'wb') as report:
                    if subprocess.run([self.program, 'run', module, os.path.join(work, piece)] + options, stdout=report).returncode != 0:
                        break
            out = io.BytesIO()
            status = join_reports.join(reports, out)
            return out.getvalue(), status

    def not_joined(self, name):
        # Whether that report is refused.
        try:
            join_reports.join([os.path.join(self.folder, name)], io.BytesIO())
        except join_reports.NoReport:
            return True
        return False

    def script(self, name, *words, piece=10_000):
        # What a script prints, its status, and what stands on standard error.
        env = {**os.environ, 'GATE': self.program, 'PIECE': str(piece)}
        ran = subprocess.run([os.path.join(MANY, name), *words], stdout=subprocess.PIPE, stderr=subprocess.PIPE, env=env)
        return ran.stdout, ran.returncode, ran.stderr

    def check_all(self, folder, *words, names=b''):
        # What `check-all` prints in that folder, its status, and what stands on standard error.
        ran = subprocess.run([self.program, 'check-all', *words], cwd=folder, input=names, capture_output=True)
        return ran.stdout, ran.returncode, ran.stderr

    def files(self):
        folder = os.path.join(self.folder, 'files')
        os.mkdir(folder)
        make_folder(folder)
        lines = {name: shown(name.encode()) + b'\t' + line + b'\n' for name, line in LINES_OF.items()}
        unread = b'gate: cannot read some files\n'
        self.expect('one file', self.check_all(folder, 'a-b.wasm'), (b'a-b.wasm\taccepted\n', 0, b''))
        twice = ['rule.wasm', 'a-b.wasm', 'rule.wasm', 'a-b.wasm']
        self.expect('names twice', self.check_all(folder, *twice), (b''.join(lines[name] for name in twice), 2, b''))
        missing = ['missing', 'a-b.wasm', 'a', 'a-b.wasm/b', 'rule.wasm', 'loop', 'x' * 300]
        os.symlink('loop', os.path.join(folder, 'loop'))
        told = [b'missing\tcannot read: no such file\n', lines['a-b.wasm'], b'a\tcannot read: a folder\n',
                b'a-b.wasm/b\tcannot read: a part of the path is no folder\n', lines['rule.wasm'],
                b'loop\tcannot read: too many links\n', b'x' * 300 + b'\tcannot read: no file can have this name\n']
        self.expect('files that are none', self.check_all(folder, *missing), (b''.join(told), 74, unread))
        self.expect('an unreadable file alone', self.check_all(folder, 'missing'), (told[0], 74, unread))
        whole = b''.join(lines[name] for name in sorted(lines, key=str.encode))
        self.expect('a folder', self.check_all(os.path.dirname(folder), '-r', folder),
                    (b''.join(folder.encode() + b'/' + line for line in whole.splitlines(keepends=True)), 2, b''))
        self.expect('a folder and a file', self.check_all(folder, '-r', 'a', 'rule.wasm', 'none', '--workers=3'),
                    (lines['a/b.wasm'] + lines['a/deep/c d.wasm'] + lines['rule.wasm'], 2, b''))
        for workers in '1', '64':
            self.expect('names with NUL', self.check_all(folder, '-0', '-', '--workers', workers, names='\0'.join(LINES_OF).encode()),
                        (b''.join(lines.values()), 2, b''))
        plain = [name for name in LINES_OF if '\n' not in name]
        for end in '', '\n':
            self.expect('names with newline', self.check_all(folder, '-', names='\n'.join(plain).encode() + end.encode()),
                        (b''.join(lines[name] for name in plain), 2, b''))
        self.expect('no names', self.check_all(folder, '-'), (b'', 0, b''))
        self.expect('an empty name', self.check_all(folder, '-', names=b'\na-b.wasm\n'),
                    (b'\tcannot read: no such file\n' + lines['a-b.wasm'], 74, unread))
        self.expect('names that are no text', self.check_all(folder, '-', names=b'a-b.wasm\n\xff\n'),
                    (b'', 64, b'gate: the names are not UTF-8\n'))
        self.expect('a folder by its name on standard input', self.check_all(folder, '-r0', '-', names=b'a\0'),
                    (lines['a/b.wasm'] + lines['a/deep/c d.wasm'], 2, b''))
        self.expect('`-` beside a name', self.check_all(folder, 'a-b.wasm', '-')[:2], (b'', 64))
        told = subprocess.run([self.program, 'check', 'a', 'b'], capture_output=True).stderr
        self.expect('too many words of check say how', b'gate check-all NAME' in told, True)

    def inputs(self):
        folder = os.path.join(self.folder, 'files')
        for command, line in ('explain', b'accepted\n'), ('exports', b'starts\n'):
            ran = subprocess.run([self.program, command, '-'], input=HEADER, capture_output=True)
            self.expect(f'{command} of standard input', (ran.stdout, ran.returncode, ran.stderr), (line, 0, b''))
        for command in 'check', 'explain', 'exports':
            for name, reason in (('missing', b'no such file'), ('a', b'a folder'), ('loop', b'too many links')):
                ran = subprocess.run([self.program, command, name], cwd=folder, capture_output=True)
                told = b'gate: cannot read %s: %s\n' % (name.encode(), reason)
                self.expect(f'{command} {name}', (ran.stdout, ran.returncode, ran.stderr), (b'', 74, told))
        ran = subprocess.run([self.program, 'check', '-'], cwd=folder, input=HEADER, capture_output=True)
        self.expect('check of a file -', (ran.stdout, ran.returncode, ran.stderr), (b'', 74, b'gate: cannot read -: no such file\n'))

    def version(self):
        said = subprocess.run([self.program, '--version'], capture_output=True).stdout
        match = re.fullmatch(rb'gate (\d+\.\d+\.\d+) \(commit ([0-9a-f]{12}|-{12}), (rattle-kit-\w+)\)\n', said)
        self.expect('the version', match is not None, True)
        if match and shutil.which('rt'):
            self.expect('the toolchain', match[3], subprocess.run(['rt', 'version'], capture_output=True).stdout.split()[0])
        if match:
            with open(self.program, 'rb') as file:
                self.expect('the commit stands once', file.read().count(b'(commit ' + match[2] + b', '), 1)

    def table(self):
        # All modules of the table, and one that is large.
        folder = os.path.join(self.folder, 'table')
        os.mkdir(folder)
        names = []
        for number, (_, module, _, _) in enumerate(rows.rows('check.tsv')):
            names.append(f'{number:04}.wasm')
            write(os.path.join(folder, names[-1]), rows.bytes_of(module))
        write(os.path.join(folder, 'large.wasm'), rows.lengthened(HEADER, 500))
        names.insert(7, 'large.wasm')
        alone = [subprocess.run([self.program, 'check', name], cwd=folder, capture_output=True) for name in names]
        wanted = b''.join(name.encode() + b'\t' + ran.stdout for name, ran in zip(names, alone))
        for workers in '1', '2', '64':
            got = self.check_all(folder, '-', '--workers', workers, names='\n'.join(names).encode())
            self.expect(f'the table on {workers} workers', got, (wanted, max(ran.returncode for ran in alone), b''))

    def streams(self):
        for name, example, lines, options in texts():
            module = path_of(f'{example}.wasm')
            wanted = self.streamed(module, lines, options)
            self.expect(f'{name}, a stream', self.stream(module, self.calls, *options), wanted)
            self.expect(f'{name}, a stream of `-`', self.stream(module, '-', *options), wanted)
            self.expect(f'{name}, a stream on one worker', self.stream(module, '--workers', '1', '--piece', '3', *options), wanted)
        module, short = path_of('fold.wasm'), os.path.join(self.folder, 'short.wasm')
        write(short, b'\0asm\1\0\0')
        self.expect('a stream of a refused module', self.stream(short, 'missing'), (b'refused malformed\n', 2, b''))
        for words, path in ((short + 'x',), short + 'x'), ((module, short + 'x'), short + 'x'):
            self.expect(f'a stream of {path}', self.stream(*words), (b'', 74, b'gate: cannot read %s: no such file\n' % path.encode()))
        self.expect('a stream of a folder', self.stream(module, self.folder)[:2], (b'', 74))
        self.expect('a stream with wrong words', self.stream(module, self.calls, '--frames', '0')[:2], (b'', 64))

    def progress(self):
        # What is told on standard error while 3,000 lines and that of the total are written, and that no other byte changes.
        module, lines = path_of('fold.wasm'), text_of('fold', 4)
        write(self.calls, b''.join(lines))
        report, status, told = self.stream(module, self.calls, '--progress')
        self.expect('a stream that tells its progress', (report, status, b''), self.streamed(module, lines, []))
        paths = [module] * (LINES + 1)
        ran = subprocess.run([self.program, 'check-all', '--progress', *paths], capture_output=True)
        self.expect('a check that tells its progress', (ran.stdout.count(b'\taccepted\n'), ran.returncode), (LINES + 1, 0))
        for what, text in ('stream', told), ('check-all', ran.stderr):
            counts = [0, *(int(it) for it in re.findall(rb'^gate: (\d+) lines$', text, re.M))]
            steps = [after - before for before, after in zip(counts, counts[1:])]
            is_told = text.count(b'\n') == len(steps) and min(steps, default=0) >= 1_000 and LINES - 1_000 < counts[-1] <= LINES + 1
            self.expect(f'the progress of {what}', is_told, True)

    def cut_stream(self):
        # Each call is answered before the next one comes; and the program is killed while it reads.
        module, lines = path_of('fold.wasm'), text_of('fold', 3)
        report, _, _ = self.streamed(module, lines, [])
        with subprocess.Popen([self.program, 'stream', module], stdin=subprocess.PIPE, stdout=subprocess.PIPE) as stream:
            got = []
            for line in lines[:20]:
                stream.stdin.write(line)
                stream.stdin.flush()
                got.append(stream.stdout.readline())
            self.expect('calls one by one', got, report.splitlines(keepends=True)[:20])
            stream.stdin.write(b''.join(lines[20:1_000]))
            stream.stdin.flush()
            got.append(stream.stdout.read(100))
            stream.kill()
            got = b''.join(got) + stream.stdout.read()
            self.expect('a killed stream', (report[:len(got)], stream.wait()), (got, -9))

    def long_stream(self):
        # More calls than one run may have, in little memory.
        module, out = path_of('fold.wasm'), os.path.join(self.folder, 'streamed')
        with open(self.calls, 'wb') as calls:
            calls.writelines(b'square\ti64:%d\n' % number for number in range(STREAMED))
        measure = [sys.executable, '-c', MEASURE, self.calls, out, self.program, 'stream', module]
        status, memory = map(int, subprocess.run(measure, stdout=subprocess.PIPE).stdout.split())
        if has_sanitizer(self.program):
            print('left out: the memory of a long stream (the sanitizer of a program without a proof takes more)')
        else:
            self.expect('the memory of a long stream', (status, memory < MOST_MEMORY), (0, True))
        total = f'total {STREAMED} values {STREAMED} traps 0 exhausted 0 refused 0 no-memory 0 fuel {SQUARE_FUEL * STREAMED}\n'
        with open(out, 'rb') as report:
            lines = (b'%d values i64:%d fuel %d\n' % (number, number * number, SQUARE_FUEL) for number in range(STREAMED))
            same = all(report.readline() == line for line in lines)
            self.expect('a long stream', (same, report.read()), (True, total.encode()))

    def compare(self):
        for name, example, lines, options in texts():
            write(self.calls, b''.join(lines))
            module = path_of(f'{example}.wasm')
            wanted = self.once(module, options)
            for piece in PIECES:
                if len(lines) <= MOST_PIECES * piece:
                    self.equal(f'{name}, pieces of {piece}', self.joined(module, options, piece), wanted)
        short = os.path.join(self.folder, 'short.wasm')
        write(short, b'\0asm\1\0\0')
        self.equal('a refused module', self.joined(short, [], 100), (b'refused malformed\n', 2))
        write(os.path.join(self.folder, 'half'), b'0 values fuel 1\ntotal 2 values 2 traps 0 exhausted 0 refused 0 no-memory 0 fuel 2\n')
        for name in 'half', 'missing':
            self.equal(f'a report that is {name}', self.not_joined(name), True)

    def million(self, run):
        numbers = range(MILLION)
        write(self.calls, b''.join(b'square\ti64:%d\n' % number for number in numbers))
        module = path_of('fold.wasm')
        self.equal('a million calls in one run', self.once(module, []), (b'accepted\ncalls too-large\n', 3))
        lines = [b'%d values i64:%d fuel %d\n' % (number, number * number, SQUARE_FUEL) for number in numbers]
        total = f'total {MILLION} values {MILLION} traps 0 exhausted 0 refused 0 no-memory 0 fuel {SQUARE_FUEL * MILLION}\n'
        text, status = run(module)
        self.equal('a million calls', (status, text == b''.join(lines) + total.encode()), (0, True))

    def run_calls(self):
        for name, example, lines, options in texts():
            write(self.calls, b''.join(lines))
            module = path_of(f'{example}.wasm')
            got = self.script('run_calls', module, self.calls, *options, piece=500)
            self.equal(f'{name}, run_calls', got, (*self.once(module, options), b''))
        short = os.path.join(self.folder, 'short.wasm')
        self.equal('run_calls, a refused module', self.script('run_calls', short, self.calls), (b'refused malformed\n', 2, b''))
        self.equal('run_calls, wrong words', self.script('run_calls', short, self.calls, '--frames', '0')[:2], (b'', 64))
        self.equal('run_calls, a missing text', self.script('run_calls', path_of('add.wasm'), short + 'x')[:2], (b'', 74))

    def check_folder(self):
        folder = os.path.join(self.folder, 'modules of the table')
        os.mkdir(folder)
        wanted = []
        for number, (_, module, line, _) in enumerate(rows.rows('check.tsv')):
            write(os.path.join(folder, f'row {number:04}.wasm'), rows.bytes_of(module))
            wanted.append(f'row {number:04}.wasm: {line}\n')
        self.equal('check_folder', self.script('check_folder', folder), (''.join(wanted).encode(), 0, b''))


def has_parallel():
    # GNU's, and not another program of that name.
    words = ['parallel', '--minversion', '20161222']
    return shutil.which('parallel') is not None and subprocess.run(words, capture_output=True).returncode == 0


def main(gate):
    with tempfile.TemporaryDirectory() as folder:
        many = Many(gate, folder)
        many.files()
        many.inputs()
        many.version()
        many.table()
        many.streams()
        many.progress()
        many.cut_stream()
        many.long_stream()
        many.compare()
        if has_parallel():
            many.run_calls()
            many.check_folder()
            many.million(lambda module: many.script('run_calls', module, many.calls, piece=50_000)[:2])
        else:
            print('GNU parallel is missing: the pieces ran one after the other, and the scripts were not tried')
            many.million(lambda module: many.joined(module, [], 50_000))
    return many.status()


if __name__ == '__main__':
    sys.exit(main(program(__doc__)))
