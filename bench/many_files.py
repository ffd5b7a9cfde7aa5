"""What `gate check-all` takes for many files, beside other ways to judge them, all in one run.

small      738 modules of some kilobytes, from a seed
beside     700 of these and one of 16 MB
large      that one alone

Milliseconds by the clock, the medians of the turns, in which all ways take their turns; in brackets the median of their ratios to
check-all in the same turn. The ways: check-all with its own workers and with one; one process in C over the library (many_files.c);
`gate check`, a process for each file, by xargs as many at a time as there are processors; node, one process, which compiles lazily
what it validates. What check-all prints has to be what the process in C prints.
"""
import os
import random
import shutil
import statistics
import subprocess
import sys
import tempfile
import time

from bench.recording import Recorder
from tools import arguments
from tools.files import write
from tools.ordinary_modules import module
from tools.random_modules import typed_module

HERE = os.path.dirname(os.path.abspath(__file__))
COLUMNS = ['files', 'way', 'median_ms', 'times_check_all']
SMALL, BESIDE = 738, 700
# node, over names in its words.
SCRIPT = "const fs = require('fs'); for (const name of process.argv.slice(1)) WebAssembly.validate(fs.readFileSync(name))"


def make_files(folder):
    """The names of the small files, and that of the large one."""
    r = random.Random(1)
    small = [os.path.join(folder, f'{number:03}.wasm') for number in range(SMALL)]
    for name in small:
        write(name, typed_module(r)[0])
    large = os.path.join(folder, 'large.wasm')
    write(large, module('many', 16_700_000, 1))
    return small, large


def in_c(library, folder):
    program = os.path.join(folder, 'many_files')
    words = ['cc', '-std=c11', '-O2', '-I' + os.path.join(HERE, '..', 'include'), '-o', program, os.path.join(HERE, 'many_files.c')]
    subprocess.run(words + [os.path.join(library, 'libgate.a')], check=True)
    return program


def ways(gate, program):
    """The words of each way, but for the names of the files."""
    found = {'check-all': [gate, 'check-all'], 'check-all, one worker': [gate, 'check-all', '--workers', '1'], 'C, one process': [program]}
    if shutil.which('xargs'):
        found['gate check, a process a file'] = ['xargs', '-P', str(os.cpu_count()), '-n', '1', gate, 'check']
    if shutil.which('node'):
        found['node, one process'] = ['node', '-e', SCRIPT]
    return found


def took(words, names):
    """The milliseconds of one run, and what it prints."""
    by_input = words[0] == 'xargs'
    begin = time.perf_counter()
    ran = subprocess.run(words if by_input else words + names, input='\n'.join(names) if by_input else None, capture_output=True, text=True)
    spent = time.perf_counter() - begin
    if ran.returncode not in (0, 2, 123):
        sys.exit(f'{words}: status {ran.returncode}')
    return spent * 1000, ran.stdout


def measure(kind, names, found, count, recorder):
    if took(found['check-all'], names)[1] != took(found['C, one process'], names)[1]:
        sys.exit(f'{kind}: check-all prints what the process in C does not')
    turns = [{name: took(words, names)[0] for name, words in found.items()} for _ in range(count)]
    for name in found:
        median = statistics.median(turn[name] for turn in turns)
        ratio = statistics.median(turn[name] / turn['check-all'] for turn in turns)
        recorder.add(files=kind, way=name, median_ms=median, times_check_all=ratio)
        print(f'{kind:8}{name:30}{median:10.1f} ms ({ratio:.2f})')


def main(gate, library, count, results):
    recorder = Recorder(results, COLUMNS)
    with tempfile.TemporaryDirectory() as folder:
        small, large = make_files(folder)
        found = ways(gate, in_c(library, folder))
        for kind, names in (('small', small), ('beside', small[:BESIDE] + [large]), ('large', [large])):
            measure(kind, names, found, count, recorder)


if __name__ == '__main__':
    words = arguments.of_program(__doc__)
    words.add_argument('library', metavar='LIBRARY', type=os.path.abspath, help='the folder where tools/library.py put the library')
    words.add_argument('--turns', type=int, default=15, metavar='N', help='turns of all ways (default: 15)')
    words.add_argument('--results', metavar='FILE.tsv', help='write what was measured, with what it was measured on')
    chosen = words.parse_args()
    main(chosen.gate, chosen.library, chosen.turns, chosen.results)
