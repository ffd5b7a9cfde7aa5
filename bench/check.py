"""Measures `gate check` beside other validators.

A row is a module of tools/ordinary_modules.py of each of the sizes that are given, or a module that is given as a file: real programs.
All engines take turns, so that all meet the same load, and the best of seven counts, in MB/s of the file, by the clock. With
--median it is the median of that many turns: on a machine whose processors are often away the best of few says little. Three are
measured alike: by their own clocks, the file being read, the best of three in one process (with --first, the first of the
three, but for C), with one worker on one processor by taskset.
  gate    crates/bench with one worker, which is proved and built where it is missing
  C       bench/validator.c, a plain decoder and checker of the same design, one pass
  node    WebAssembly.validate
  gate 4  the same as `gate` with four workers, on all processors
  node 4  the same as `node` with all its threads
  whole   a fresh process of gate, its start and the reading of the file included; then with 2 and 4 workers
  wabt    wasm-validate, where it is installed, a fresh process
In brackets: of C and node the ratio to gate, of `gate 4` and `node 4` to the same engine on one, of the others to the whole
process with one worker. Last the peak memory of `gate` with one worker, by the module's size.
"""
import os
import shutil
import statistics
import subprocess
import sys
import tempfile
import time
from operator import itemgetter

from bench.measuring import geometric_mean, peak
from bench.recording import Recorder
from tools import arguments
from tools.files import ROOT

KINDS = {'many': 'many functions', 'tiny': 'functions of ten bytes', 'large': 'large functions', 'one': 'one function',
         'lists': 'a type of half as many parameters', 'labels': 'branch tables of half as many labels'}
# The peer in C compares lists of types item by item each time, which takes minutes on these, and wabt's validator asks for
# more memory than the machine has.
LONG_LISTS = ('lists', 'labels')
NODE = """const b=require('fs').readFileSync(process.argv[1]);for(let i=0;i<3;i++){const s=process.hrtime.bigint();
if(!WebAssembly.validate(b))throw 'refused';console.log(Number(process.hrtime.bigint()-s))}"""
JUDGE = os.path.join(ROOT, 'crates', 'bench', 'out', 'bench')
COLUMNS = ['module', 'kind', 'megabytes', 'engine', 'workers', 'median', 'least', 'most', 'memory_lengths']
# What an engine is called in a file of results, and its workers.
NAMES = {'gate': ('gate', '1'), 'C': ('C', '1'), 'node': ('V8', '1'), 'gate 4': ('gate', '4'), 'node 4': ('V8', 'all'),
         '1 workers': ('gate process', '1'), '2 workers': ('gate process', '2'), '4 workers': ('gate process', '4'),
         'wabt': ('wabt process', '1')}


def process(words, wanted):
    # The seconds that a fresh process takes by the clock; nothing where it answers otherwise.
    start = time.perf_counter()
    child = subprocess.run(words, capture_output=True)
    took = time.perf_counter() - start
    return took if child.stdout == wanted else None


def own_clock(words, counts, unit=1e-9):
    # Of the times in this unit that a program prints, one a line, the one that counts, in seconds; nothing where it refuses the
    # module or takes more than a minute.
    try:
        child = subprocess.run(words, capture_output=True, timeout=60)
    except subprocess.TimeoutExpired:
        return None
    times = [float(line.split()[0]) * unit for line in child.stdout.splitlines()]
    return counts(times) if child.returncode == 0 and times else None


def engines(gate, peer, path, has_long_lists, counts):
    # Of each engine that is there, what measures one run.
    alone = ['taskset', '-c', '0']

    def check(n):
        return lambda: process([gate, 'check', path, '--workers', str(n)], b'accepted\n')

    takes = {f'{n} workers': check(n) for n in (1, 2, 4)}
    takes['gate'] = lambda: own_clock(alone + [JUDGE, 'check', path, '1'], counts)
    takes['gate 4'] = lambda: own_clock([JUDGE, 'check', path, '4'], counts)
    if not has_long_lists:
        takes['C'] = lambda: own_clock(alone + [peer, 'check', path, '3'], counts, 1)
    if shutil.which('node'):
        takes['node'] = lambda: own_clock(alone + ['node', '-e', NODE, path], counts)
        takes['node 4'] = lambda: own_clock(['node', '-e', NODE, path], counts)
    if shutil.which('wasm-validate') and not has_long_lists:
        takes['wabt'] = lambda: process(['wasm-validate', path], b'')
    return takes


def times(takes, turns):
    # What each engine took, turn by turn.
    all_times = {}
    for turn in range(turns):
        for name, take in takes.items():
            # wabt is slower by ten times, so two of its runs have to do.
            if name == 'wabt' and turn >= 2 or turn and name not in all_times:
                continue
            took = take()
            if took is not None:
                all_times.setdefault(name, []).append(took)
    return all_times


def measure(takes, path, turns):
    # The MB/s of each engine, turn by turn.
    all_times = times(takes, turns)
    if '1 workers' not in all_times or 'gate' not in all_times:
        sys.exit(f'{path}: not accepted')
    return {name: [os.path.getsize(path) / took / 1e6 for took in all_took] for name, all_took in all_times.items()}


def cell(speeds, name, base):
    return f'{speeds[name]:.1f} ({speeds[name] / speeds[base]:.2f})' if name in speeds else '-'


def memory(gate, path):
    # The peak of `gate check` with one worker, in lengths of the module.
    return peak([gate, 'check', path, '--workers', '1']) / os.path.getsize(path) if os.path.exists('/usr/bin/time') else None


def record(recorder, label, path, turns, lengths):
    # A row for each engine.
    name = label.rsplit(', ', 1)[0]
    kind = 'generated' if name in KINDS.values() else 'program'
    megabytes = f'{os.path.getsize(path) / 1e6:.1f}'
    for engine, speeds in turns.items():
        called, workers = NAMES[engine]
        recorder.add(module=name, kind=kind, megabytes=megabytes, engine=called, workers=workers,
                     median=statistics.median(speeds), least=min(speeds), most=max(speeds),
                     memory_lengths=lengths if engine == '1 workers' else None)


def report(label, speeds, lengths):
    cells = [f'{speeds["gate"]:.1f}', cell(speeds, 'C', 'gate'), cell(speeds, 'node', 'gate')]
    cells += [cell(speeds, 'gate 4', 'gate'), cell(speeds, 'node 4', 'node'), f'{speeds["1 workers"]:.1f}']
    cells += [cell(speeds, name, '1 workers') for name in ('2 workers', '4 workers', 'wabt')]
    cells.append('-' if lengths is None else f'{lengths:.1f}')
    print('| ' + ' | '.join([label] + cells) + ' |', flush=True)


def mean(rows, name):
    ratios = [speeds['gate'] / speeds[name] for _, speeds in rows if name in speeds]
    return f'{geometric_mean(ratios):.2f} times {name} (in {len(ratios)} rows)' if ratios else f'no {name}'


def modules(folder, words):
    # Each row's label, file, and whether it has lists that some peers cannot take.
    for path in (word for word in words if word.endswith('.wasm')):
        yield f'{os.path.basename(path)[:-5]}, {os.path.getsize(path) / 1e6:.1f} MB', path, False
    sizes = [float(word) for word in words if not word.endswith('.wasm')] or ([] if words else [1.0, 4.0, 15.0])
    for kind, label in KINDS.items():
        for size in sizes:
            path = os.path.join(folder, f'{kind}.wasm')
            maker = [sys.executable, '-m', 'tools.ordinary_modules', kind, str(int(size * 1e6)), '7']
            with open(path, 'wb') as file:
                subprocess.run(maker, stdout=file, cwd=ROOT, check=True)
            yield f'{label}, {size:g} MB', path, kind in LONG_LISTS


def main(words):
    gate, counts = os.path.abspath(words.gate), statistics.median if words.median else max
    rows, recorder = [], Recorder(words.results, COLUMNS)
    if not os.path.exists(JUDGE):
        subprocess.run(['rt', 'run'], cwd=os.path.join(ROOT, 'crates', 'bench'), stdout=sys.stderr, check=True)
    with tempfile.TemporaryDirectory() as folder:
        peer = os.path.join(folder, 'peer')
        subprocess.run(['gcc', '-O2', '-o', peer, os.path.join(ROOT, 'bench', 'validator.c')], check=True)
        print('| module | gate | C | node | gate 4 | node 4 | whole | 2 workers | 4 workers | wabt | memory |\n|' + '---|' * 11)
        for label, path, has_long_lists in modules(folder, words.rows):
            takes = engines(gate, peer, path, has_long_lists, itemgetter(0) if words.first else min)
            turns, lengths = measure(takes, path, words.median or 7), memory(gate, path)
            speeds = {name: counts(all_of) for name, all_of in turns.items()}
            report(label, speeds, lengths)
            record(recorder, label, path, turns, lengths)
            rows.append((label, speeds))
    print(f'In the geometric mean gate is {mean(rows, "node")}, {mean(rows, "C")}, {mean(rows, "wabt")}.')


if __name__ == '__main__':
    parser = arguments.parser(__doc__)
    parser.add_argument('gate', metavar='GATE', help='the program')
    parser.add_argument('rows', metavar='MEGABYTES or MODULE.wasm', nargs='*', help='1, 4 and 15 MB where none is given')
    parser.add_argument('--results', metavar='FILE.tsv', help='write what was measured, with what it was measured on')
    parser.add_argument('--median', metavar='TURNS', type=int, help='the median of this many turns counts, and not the best of seven')
    parser.add_argument('--first', action='store_true', help='the first of the three in a process counts, and not the best')
    main(parser.parse_intermixed_args())
