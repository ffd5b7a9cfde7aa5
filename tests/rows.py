"""Runs the program on each row of the tables of modules, which the crate `suite` reads too.

check.tsv    name, the module as bytes in hexadecimal, what `gate check` prints, its status; each is run with three plans,
             and once more with stacks of 64 KiB, on 64 workers, with a custom section that makes it long enough for them
run.tsv      name, the module, the calls, the options, what `gate run` prints, its status; each is run with twelve plans,
             and once more with stacks of 64 KiB, on 64 workers
In tests/:
explain.tsv        name, the module, what `gate explain` prints, its status
explain_calls.tsv  name, the module, the calls, what `gate explain` prints of both, its status
exports.tsv        name, the module, what `gate exports` prints, its status
Bytes are in hexadecimal; `xNN*K` stands for K times the bytes NN. In calls and in what is printed \\t is a tab, \\n a
newline and \\r the byte 0d. Lines that begin with # are comments.

Over a program of `./gate --unproved` the runs with small stacks are left out, and counted. What does not pass is printed at once, and
what several plans of a row say alike only once; the last line counts runs.

It imports nothing of this repository where it is no script, since the tests of examples/python take it alone.
"""
import argparse
import os
import resource
import subprocess
import sys
import tempfile

here = os.path.dirname(os.path.abspath(__file__))
tables = os.path.join(here, '..', 'crates', 'suite', 'data')
# Seconds that a run may take, and how many times as long one of a program with a sanitizer, on a machine that may be busy.
LONGEST, WITH_SANITIZER = 120, 5


def bytes_of(text):
    out = bytearray()
    for word in text.split():
        if word.startswith('x'):
            byte, count = word[1:].split('*')
            out += bytes.fromhex(byte) * int(count)
        else:
            out += bytes.fromhex(word)
    return bytes(out)


def text_of(escaped):
    return escaped.replace('\\t', '\t').replace('\\n', '\n').replace('\\r', '\r').encode()


def rows(name, folder=tables):
    with open(os.path.join(folder, name)) as file:
        for line in file:
            if line.strip() and not line.startswith('#'):
                yield line.rstrip('\n').split('\t')


def lengthened(module, workers):
    """The module with a custom section of zeros at its end, so that it has 4,096 bytes for each worker: fewer start for fewer bytes."""
    size = workers * 4_096
    return module + bytes([0x00, 0x80 | size & 0x7F, 0x80 | size >> 7 & 0x7F, size >> 14]) + bytes(size)


def small_stack():
    # Also the size of the stacks of threads.
    resource.setrlimit(resource.RLIMIT_STACK, (64 * 1024, 64 * 1024))


def write(path, contents):
    with open(path, 'wb') as file:
        file.write(contents)


def main(gate, text='', has_small_stacks=True):
    from tools.counting import difference
    passed, failed, left_out, told = 0, 0, 0, set()
    # The thread that starts them all has a call open for each.
    many = ['--workers', '64', '--piece', '1']
    longest = LONGEST if has_small_stacks else WITH_SANITIZER * LONGEST

    def fail(line):
        # What several plans say alike is printed once.
        nonlocal failed
        failed += 1
        if line not in told:
            print(line, flush=True)
        told.add(line)

    def expect(name, words, text, status, **settings):
        nonlocal passed
        try:
            ran = subprocess.run([gate] + words, capture_output=True, timeout=longest, **settings)
        except subprocess.TimeoutExpired:
            fail(f'{name}: no end within {longest} s')
            return
        got, wanted = (ran.stdout, ran.returncode, ran.stderr), (text, status, b'')
        if got == wanted:
            passed += 1
        else:
            fail(f'{name}: {difference(got, wanted)}')

    def expect_on_small_stacks(name, words, text, status):
        nonlocal left_out
        if has_small_stacks:
            expect(name, words + many, text, status, preexec_fn=small_stack, env={})
        else:
            left_out += 1

    def named(table, folder=tables):
        return (row for row in rows(table, folder) if text in row[0])

    def check(path):
        for name, module, line, status in named('check.tsv'):
            write(path, bytes_of(module))
            for options in ([], ['--workers', '1', '--piece', '1'], ['--workers', '64', '--piece', '65535']):
                expect(name, ['check', path] + options, line.encode() + b'\n', int(status))
            if line not in ('refused malformed', 'refused too-large'):
                write(path, lengthened(bytes_of(module), 64))
            expect_on_small_stacks(name, ['check', path], line.encode() + b'\n', int(status))

    def run(path, calls_path):
        for name, module, calls, options, report, status in named('run.tsv'):
            write(path, bytes_of(module))
            write(calls_path, text_of(calls))
            words = ['run', path, calls_path] + options.split()
            for workers in ('1', '2', '8', '64'):
                for piece in ('1', '7', '65535'):
                    expect(name, words + ['--workers', workers, '--piece', piece], text_of(report), int(status))
            expect_on_small_stacks(name, words, text_of(report), int(status))

    def tell(command, path):
        for name, module, told, status in named(f'{command}.tsv', here):
            write(path, bytes_of(module))
            expect(name, [command, path], text_of(told), int(status))

    def explain_calls(path, calls_path):
        for name, module, calls, told, status in named('explain_calls.tsv', here):
            write(path, bytes_of(module))
            write(calls_path, text_of(calls))
            expect(name, ['explain', path, calls_path], text_of(told), int(status))

    with tempfile.TemporaryDirectory() as folder:
        path = os.path.join(folder, 'module.wasm')
        check(path)
        tell('explain', path)
        tell('exports', path)
        explain_calls(path, os.path.join(folder, 'calls'))
        run(path, os.path.join(folder, 'calls'))
    if left_out:
        print(f'left out: {left_out} runs with small stacks')
    print(f'{passed} passed, {failed} failed')
    return 1 if failed or not passed else 0


if __name__ == '__main__':
    parser = argparse.ArgumentParser('python3 -m tests.rows', description=__doc__, formatter_class=argparse.RawDescriptionHelpFormatter)
    parser.add_argument('gate', metavar='GATE', help='the program')
    parser.add_argument('-k', metavar='TEXT', default='', help='the rows whose name has this text')
    words = parser.parse_args()
    from tools.sanitizer import has_sanitizer
    program = os.path.abspath(words.gate)
    sys.exit(main(program, words.k, not has_sanitizer(program)))
