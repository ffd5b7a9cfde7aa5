"""Measures what a call of the library costs a host in C, beside a process of the program, node and wabt's library.

The least and the median of 31 turns, by the clock, of the module of 8 bytes and of examples/add.wasm: embedding.c has the calls of
the library, and a process by posix_spawn; node's WebAssembly.validate, and calls with and without a new instance, where node is;
wabt's library, where its headers are (Debian's package `wabt`; --wabt names the folder of one that is unpacked only).
"""
import os
import shutil
import subprocess
import sys
import tempfile

from bench.recording import Recorder
from tools import arguments

here = os.path.dirname(os.path.abspath(__file__))
root = os.path.dirname(here)
COLUMNS = ['engine', 'what', 'bytes', 'least_us', 'median_us']
ADD = os.path.join(root, 'examples', 'add.wasm')
NODE = """const bytes = require('fs').readFileSync(process.argv[1]), now = () => Number(process.hrtime.bigint());
function turn(once, rounds) { const start = now(); for (let i = 0; i < rounds; i++) once(); return (now() - start) / rounds; }
function measure(name, once) {
    let rounds = 1;
    while (turn(once, rounds) * rounds < 2e6) rounds *= 2;
    const took = Array.from({ length: 31 }, () => turn(once, rounds)).sort((a, b) => a - b);
    console.log([name, took[0].toFixed(1), took[15].toFixed(1)].join('\\t'));
}
measure('WebAssembly.validate', () => WebAssembly.validate(bytes));
const module_ = new WebAssembly.Module(bytes), { exports } = new WebAssembly.Instance(module_);
if (exports.add) {
    measure('Instance and call', () => new WebAssembly.Instance(module_).exports.add(40, 2));
    measure('call, one instance', () => exports.add(40, 2));
}"""


def built(words):
    return subprocess.run(words, capture_output=True).returncode == 0


def embedding(library, folder):
    program = os.path.join(folder, 'embedding')
    words = ['cc', '-std=c11', '-O2', '-I' + os.path.join(root, 'include'), '-o', program, os.path.join(here, 'embedding.c')]
    subprocess.run(words + [os.path.join(library, 'libgate.a')], check=True)
    return program


def wabt(usr, folder):
    """The program over wabt's library; nothing where that is not there."""
    program = os.path.join(folder, 'wabt')
    words = ['c++', '-std=c++17', '-O2', '-I' + os.path.join(usr, 'include'), '-o', program, os.path.join(here, 'embedding_wabt.cc')]
    places = ['-L' + os.path.join(usr, 'lib', 'x86_64-linux-gnu'), '-lwabt', '-lcrypto']
    return program if built(words + places) else None


def report(recorder, engine, size, words):
    for line in subprocess.run(words, capture_output=True, text=True, check=True).stdout.splitlines():
        name, least, median = line.split('\t')
        recorder.add(engine='V8' if engine == 'node' else engine, what=name, bytes=size, least_us=float(least) / 1000,
                     median_us=float(median) / 1000)
        print(f'| {engine} | {name} | {size} | {float(least) / 1000:,.2f} | {float(median) / 1000:,.2f} |', flush=True)


def main(program, library, usr, results):
    recorder = Recorder(results, COLUMNS)
    with tempfile.TemporaryDirectory() as folder:
        host, peer = embedding(library, folder), wabt(usr, folder)
        header = os.path.join(folder, 'header.wasm')
        with open(header, 'wb') as file:
            file.write(b'\0asm\1\0\0\0')
        print('| engine | what | bytes | least us | median us |\n|---|---|---|---|---|')
        for path, calls in ((header, []), (ADD, ['add', '40', '2'])):
            size = os.path.getsize(path)
            report(recorder, 'gate', size, [host, 'library', path] + calls)
            report(recorder, 'gate', size, [host, 'process', program, 'check', path])
            if shutil.which('node'):
                report(recorder, 'node', size, ['node', '-e', NODE, path])
            if peer:
                report(recorder, 'wabt', size, [peer, path])
    for name in ('libgate.a', 'libgate.so.1'):
        size = os.path.getsize(os.path.join(library, name))
        recorder.add(engine='gate', what=name, bytes=size)
        print(f'{name}: {size:,} bytes')
    return 0


if __name__ == '__main__':
    parser = arguments.parser(__doc__)
    parser.add_argument('program', metavar='PROGRAM', help='the proved program')
    parser.add_argument('--library', metavar='FOLDER', required=True, help='where tools/library.py put the library')
    parser.add_argument('--wabt', metavar='FOLDER', default='/usr', help='where include/wabt and lib stand (default: /usr)')
    parser.add_argument('--results', metavar='FILE.tsv', help='write what was measured, with what it was measured on')
    chosen = parser.parse_args()
    sys.exit(main(os.path.abspath(chosen.program), chosen.library, chosen.wabt, chosen.results))
