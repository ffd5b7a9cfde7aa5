"""What a plug-in costs a host that gives it a text of 100 bytes and takes one back, beside peers, all in one run.

The plug-in is examples/guests/upper.wasm. Microseconds of processor time a call, less those of a process that makes none
  kept    on an instance that is kept over 1,000 calls
  fresh   on a fresh instance each, which is given back
  reset   on one that is clean again before each call; peers have none, so this is their fresh one
gate by plugins.c; wabt's interpreter by plugins_wabt.cc; node and JavaScriptCore's shell by plugins.js, which translate to machine code
as they usually do, by the first of their translators alone (node, Liftoff), or not at all (JavaScriptCore, interpreter). A peer that
is not there is left out. Engines take turns; what is shown is the median of the turns, and in brackets the median of their ratios to
gate's in the same turn. All threads of a process count, those too that collect what is over.
"""
import os
import shutil
import statistics
import subprocess
import tempfile

from bench.recording import Recorder
from tools import arguments
from tools.processes import processor_seconds

here = os.path.dirname(os.path.abspath(__file__))
root = os.path.dirname(here)
COLUMNS = ['way', 'engine', 'median_us', 'times_gate']
# How many calls each way makes.
WAYS = {'kept': 20_000, 'fresh': 2_000, 'reset': 2_000}
UPPER = os.path.join(root, 'examples', 'guests', 'upper.wasm')
SCRIPT = os.path.join(here, 'plugins.js')
TURNS = 15
# Those that translate no function to machine code.
INTERPRETERS = ['gate', 'wabt', 'JavaScriptCore, interpreter']
JAVASCRIPT = {'V8': ['node'], 'V8, Liftoff': ['node', '--liftoff-only'], 'V8, no translation': ['node', '--jitless'],
              'JavaScriptCore': ['jsc'], 'JavaScriptCore, interpreter': ['jsc', '--useBBQJIT=0', '--useOMGJIT=0']}


def gate(library, folder):
    program = os.path.join(folder, 'plugins')
    words = ['cc', '-std=c11', '-O2', '-I' + os.path.join(root, 'include'), '-o', program, os.path.join(here, 'plugins.c')]
    subprocess.run(words + [os.path.join(library, 'libgate.a')], check=True)
    return [program, UPPER]


def wabt(usr, folder):
    """The program over wabt's library; nothing where that is not there."""
    program = os.path.join(folder, 'plugins_wabt')
    words = ['c++', '-std=c++17', '-O2', '-I' + os.path.join(usr, 'include'), '-o', program, os.path.join(here, 'plugins_wabt.cc')]
    places = ['-L' + os.path.join(usr, 'lib', 'x86_64-linux-gnu'), '-lwabt', '-lcrypto']
    built = subprocess.run(words + places, capture_output=True).returncode == 0
    return [program, UPPER] if built else None


def by_script(words):
    return words + [SCRIPT] + (['--'] if words[0] == 'jsc' else []) + [UPPER] if shutil.which(words[0]) else None


def seconds(words, way, calls):
    """The processor seconds of this number of calls; nothing where the engine cannot."""
    spent, _, status = processor_seconds(words + [way, str(calls)], stderr=subprocess.DEVNULL)
    return spent if status == 0 else None


def asked(name, words):
    """The microseconds a call of each way."""
    idle = seconds(words, 'kept', 0)
    took = {way: (seconds(words, way, calls) - idle) / calls * 1e6 for way, calls in WAYS.items() if way != 'reset' or name == 'gate'}
    return {'reset': took['fresh'], **took}


def engines(library, usr, folder):
    """The words of each engine that answers; names those that do not."""
    all_ = {'gate': gate(library, folder), 'wabt': wabt(usr, folder)}
    all_ |= {name: by_script(words) for name, words in JAVASCRIPT.items()}
    found = {name: words for name, words in all_.items() if words and seconds(words, 'kept', 1)}
    left = [name for name in all_ if name not in found]
    print('left out: ' + (', '.join(left) or 'none'))
    return found


def report(recorder, turns):
    print(f'{"us a call":30}' + ''.join(f'{way:>22}' for way in WAYS))
    for name in turns[0]:
        cells = []
        for way in WAYS:
            median = statistics.median(turn[name][way] for turn in turns)
            ratio = statistics.median(turn[name][way] / turn['gate'][way] for turn in turns)
            recorder.add(way=way, engine=name, median_us=median, times_gate=ratio)
            cells.append(f'{median:.2f} ({ratio:.2f})')
        print(f'{name:30}' + ''.join(f'{cell:>22}' for cell in cells))


def least(turns):
    """Of each way the interpreter that takes least, by the medians."""
    for way in WAYS:
        medians = {name: statistics.median(turn[name][way] for turn in turns) for name in turns[0] if name in INTERPRETERS}
        print(f'{way}: of those that do not translate, {min(medians, key=medians.get)} takes least')


def main(library, usr, count, results):
    recorder = Recorder(results, COLUMNS)
    with tempfile.TemporaryDirectory() as folder:
        found = engines(library, usr, folder)
        turns = [{name: asked(name, words) for name, words in found.items()} for _ in range(count)]
    report(recorder, turns)
    least(turns)


if __name__ == '__main__':
    parser = arguments.parser(__doc__)
    parser.add_argument('library', metavar='LIBRARY', help='the folder where tools/library.py put the library')
    parser.add_argument('--wabt', metavar='FOLDER', default='/usr', help='where include/wabt and lib stand (default: /usr)')
    parser.add_argument('--turns', type=int, default=TURNS, metavar='N', help=f'turns of all engines (default: {TURNS})')
    parser.add_argument('--results', metavar='FILE.tsv', help='write what was measured, with what it was measured on')
    words = parser.parse_args()
    main(os.path.abspath(words.library), words.wabt, words.turns, words.results)
