"""Runs the program with words that it refuses, with files that are missing, and on the examples.

words     Words that are none of the command line: nothing on standard output, and 64. What standard error says is the parser's business.
help      Words that ask for help or the version: standard output says it, and standard error nothing.
files     A missing file of either kind, and a write that fails: the text and the status.
numbers   The forms that an option's number may have.
streams   Calls that are answered while they are read.
examples  Each module of examples/ is accepted, and its calls give its report.
"""
import os
import subprocess
import sys
import tempfile

from tools.arguments import program
from tools.counting import Count
from tools.encoding import HEADER, whole
from tools.files import ROOT, write

REFUSED = ['', 'judge', 'check-all', 'check-all -0', 'check-all x.wasm -', 'check-all x.wasm --workers 0', 'explain',
           'explain x.wasm x.calls y', 'explain x.wasm --json=1', 'check x.wasm --json', 'exports', 'exports x.wasm y.wasm', 'explain x.wasm --workers 1', 'check', 'check x.wasm y.wasm',
           'run x.wasm', 'run x.wasm x.calls y', 'run x.wasm x.calls --workers 65', 'run x.wasm x.calls --piece 0',
           'run x.wasm x.calls --fuel 1000000001', 'run x.wasm x.calls --fuel -1', 'run x.wasm x.calls --frames 0',
           'run x.wasm x.calls --frames 4097', 'run x.wasm x.calls --pages 1025', 'stream', 'stream x.wasm x.calls y',
           'stream x.wasm x.calls --frames 0', 'check x.wasm --fuel 1', 'check x.wasm --workers 0', 'check x.wasm --workers 65',
           'check x.wasm --workers four', 'check x.wasm --piece 0', 'check x.wasm --piece 65536', 'check x.wasm --piece -1',
           'run x.wasm x.calls --fuel=-1', 'run x.wasm x.calls --fuel -0', 'run x.wasm x.calls --frames=-0', 'check --version',
           'check -Vh x.wasm', 'check x.wasm help', 'check --workers=9999 --help', 'run x.wasm --fuel -h', 'check x.wasm y.wasm --help',
           'help x.wasm', '--help=run', '-- --help', '-- help']
HELP = ['--help', '-h', 'help', 'check --help', 'run --help', 'help run', 'explain --help', 'help explain', 'stream --help',
        'help stream', '--version', '-V', '-hV', '-Vh', '-hx', 'check -hV x.wasm', 'check x.wasm -h', 'check -h --workers=9999',
        'check --piece=1 --help y', 'run help --help']
# Words, and how the file is told that cannot be read.
UNREADABLE = [(['explain', 'y.wasm'], 'y.wasm'), (['exports', 'y.wasm'], 'y.wasm'), (['check', 'y.wasm'], 'y.wasm'),
              (['run', 'y.wasm', 'x.calls'], 'y.wasm'), (['run', 'y.wasm', 'y.calls'], 'y.wasm'), (['run', 'x.wasm', 'y.calls'], 'y.calls'),
              (['run', '--', '--fuel.wasm', 'x.calls'], '--fuel.wasm'), (['check', '--', '-h'], '-h'), (['run', 'help', 'x.calls'], 'help'),
              (['check', 'a\n\x1B[31m\\\x7Fé'], 'a\\0a\\1b[31m\\5c\\7fé'), (['explain', 'x.wasm', '\t'], '\\09')]
FORMS = [(['--fuel', '5'], 5), (['--fuel=5'], 5), (['--fuel', '+005'], 5), (['--fuel=-0', '--pages=-00'], 0),
         (['--fuel=5', '--frames', '1', '--workers=8', '--piece', '+7'], 5)]
ACCEPTED, REPORTED = ['add', 'primes', 'fold'], ['primes', 'fold']


def run(gate, *words, **settings):
    """What the program writes to standard output and to standard error, and its status."""
    pipes = {'stdout': subprocess.PIPE, 'stderr': subprocess.PIPE}
    ran = subprocess.run([gate, *words], **{'cwd': ROOT, **pipes, **settings})
    return ran.stdout, ran.stderr, ran.returncode


def words(count, gate):
    for line in REFUSED:
        out, err, status = run(gate, *line.split())
        count.equal(f'the words {line!r}', (out, err != b'', status), (b'', True, 64))
        with open('/dev/full', 'wb') as full:
            status = run(gate, *line.split(), stderr=full)[2]
        count.equal(f'the words {line!r}, where standard error is full', status, 64)


def help_(count, gate):
    for line in HELP:
        out, err, status = run(gate, *line.split())
        count.equal(f'the words {line!r}', (out != b'', err, status), (True, b'', 0))


def files(count, gate, work):
    missing, short = os.path.join(work, 'missing.wasm'), os.path.join(work, 'short.wasm')
    unreadable = (b'', b'gate: cannot read %s: no such file\n' % missing.encode(), 74)
    with open(short, 'wb') as file:
        file.write(b'\0asm\1\0\0')
    count.equal('a missing file', run(gate, 'check', missing), unreadable)
    count.equal('a missing file of calls', run(gate, 'run', 'examples/add.wasm', missing), unreadable)
    count.equal('a missing file of calls beside a refused module', run(gate, 'run', short, missing), unreadable)
    write(os.path.join(work, 'x.calls'), b'')
    # The second module would be refused.
    for module in HEADER, HEADER[:7]:
        write(os.path.join(work, 'x.wasm'), module)
        for line, told in UNREADABLE:
            count.equal(f'missing: {line}', run(gate, *line, cwd=work), (b'', f'gate: cannot read {told}: no such file\n'.encode(), 74))
    write(os.path.join(work, 'x.wasm'), HEADER)
    several = (b'x.wasm\taccepted\ny\\09.wasm\tcannot read: no such file\nx.wasm\taccepted\n', b'gate: cannot read some files\n', 74)
    count.equal('a missing file of many', run(gate, 'check-all', 'x.wasm', 'y\t.wasm', 'x.wasm', cwd=work), several)
    with open('/dev/full', 'wb') as full:
        failed = run(gate, 'check', 'examples/add.wasm', stdout=full)
    count.equal('a write that fails', failed[1:], (b'gate: write failed\n', 74))


def numbers(count, gate, work):
    write(os.path.join(work, 'x.wasm'), whole(b'\x03\x40\x0C\x00\x0B'))
    write(os.path.join(work, 'x.calls'), b'f\n')
    for options, fuel in FORMS:
        report = f'0 out-of-fuel fuel {fuel}\ntotal 1 values 0 traps 0 exhausted 1 refused 0 no-memory 0 fuel {fuel}\n'.encode()
        count.equal(f'the options {options}', run(gate, 'run', 'x.wasm', 'x.calls', *options, cwd=work), (report, b'', 0))


def streams(count, gate, work):
    def answers(module, words, text, *wanted):
        write(os.path.join(work, 'x.wasm'), module)
        write(os.path.join(work, 'x.calls'), text)
        count.equal(f'stream {words} of {text}', run(gate, 'stream', *words, cwd=work, input=text), wanted)

    from_input = ['x.wasm', '-', '--workers', '1']
    two = b'0 no-export\n1 no-export\ntotal 2 values 0 traps 0 exhausted 0 refused 2 no-memory 0 fuel 0\n'
    answers(HEADER, ['x.wasm', 'x.calls'], b'f\ng\n', two, b'', 0)
    answers(HEADER, from_input, b'f\ng\ti32:01\n', b'0 no-export\ncalls line 2 refused\n', b'', 3)
    answers(HEADER, ['x.wasm', 'x.calls'], b'f', b'calls line 1 refused\n', b'', 3)
    answers(HEADER[:7], from_input, b'f\n', b'refused malformed\n', b'', 2)
    answers(HEADER[:7], ['x.wasm', 'y.calls'], b'', b'refused malformed\n', b'', 2)
    answers(HEADER, ['x.wasm', 'y.calls'], b'', b'', b'gate: cannot read y.calls: no such file\n', 74)


def examples(count, gate):
    for name in ACCEPTED:
        count.equal(f'the example {name}', run(gate, 'check', f'examples/{name}.wasm'), (b'accepted\n', b'', 0))
    for name in REPORTED:
        with open(os.path.join(ROOT, 'examples', f'{name}.report'), 'rb') as file:
            wanted = (file.read(), b'', 0)
        count.equal(f'the report of {name}', run(gate, 'run', f'examples/{name}.wasm', f'examples/{name}.calls'), wanted)


def main(gate):
    count = Count('words')
    with tempfile.TemporaryDirectory() as work:
        words(count, gate)
        help_(count, gate)
        files(count, gate, work)
        numbers(count, gate, work)
        streams(count, gate, work)
    examples(count, gate)
    return count.status()


if __name__ == '__main__':
    sys.exit(main(program(__doc__)))
