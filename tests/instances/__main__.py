"""What is asked of instances of the library (gate_instance_new and what takes one), against a model and beside node.

model    guests.c and large.c play at random with four plug-ins, and hold each answer, the whole memory and all globals beside model.c:
         with buffers of their exact length under AddressSanitizer and under valgrind's memcheck, and at the ends of pages that nobody may
         touch; on eight threads, also under helgrind; with each request for memory refused in turn; in little address space; and in a
         million rounds, in which the resident memory stays as it is. debug/gate_debug.c, which looks at each call, has to find no fault.
node     sequences.py: calls, writes and reads on modules made at random, beside node. The first difference ends it, and its module and
         steps are written to files.
modules  modules.c: mutants of modules at the ends of pages, memory that stays as it is, many handles, a painted stack, and what a module
         holds, beside what the heap gave for it.
hosts    Where --hosts names a folder that has them: torture.c, guard.c, leak.c and speed.c, hosts of an embedder, over the library.
What is left out, for want of a tool, is counted and named at the end.
"""
import functools
import glob
import json
import os
import re
import shutil
import subprocess
import sys
import tempfile
from concurrent.futures import ThreadPoolExecutor

from tools import library
from tests import rows
from tests.hosting import processes
from tests.hosting.compiling import INCLUDE, WARNINGS, debugged
from tests.hosting.processes import MEMCHECK, VALGRIND, Jobs, Left, Tally, needs
from tests.instances import sequences
from tools.arguments import parser
from tools.files import ROOT
from tools.worst_cases import FAMILIES, module_of

EXAMPLES = os.path.join(ROOT, 'examples')
WRAPPED = [f'-Wl,--wrap={name}' for name in ('malloc', 'realloc', 'free')]
SANITIZERS = ['-O1', '-g', '-fsanitize=address,undefined', '-fno-sanitize-recover=all']
HELGRIND = [*VALGRIND, '--tool=helgrind']
# What is played with instances: the compiler's flags, what runs before the program, and the number of each part (see main.c).
PLAYS = [('plain', [], {'flat': 1_000_000, 'heap': 20_000, 'fence': 20_000, 'threads': 3_000, 'refuse': 24, 'limits': 512}),
         ('sanitized', [], {'heap': 10_000, 'fence': 5_000, 'threads': 1_000, 'refuse': 12}),
         ('debug', [], {'fence': 2_000, 'threads': 200}),
         ('plain', MEMCHECK, {'heap': 400, 'threads': 60, 'refuse': 1}),
         ('plain', HELGRIND, {'threads': 60})]
# What is played with modules.
MODULES = [('plain', [], {'guard': 20_000, 'rounds': 100_000, 'handles': 20_000, 'stack': 1, 'size': 1}),
         ('sanitized', [], {'guard': 4_000}), ('debug', [], {'guard': 2_000}), ('plain', MEMCHECK, {'guard': 200})]
STEPS, SEEDS = 4_000, [20261129]
PARTS = ['model', 'node', 'modules', 'hosts']
# Where another seed makes nothing else.
ONCE = ['limits', 'flat', 'rounds', 'handles', 'stack', 'size']
SHORT = 4096
# About how many bytes a module of a family has; modules.c takes none that is much longer.
OF_FAMILY = 15_000
# The seconds that a process may take, where the machine is busy.
LONGEST = 3000
started = functools.partial(processes.started, timeout=LONGEST)
# How many mutants, rounds and turns the hosts of an embedder are asked for.
MUTANTS, ROUNDS, TURNS, FEW_TURNS = 20_000, 40_000, 1_000, 40
# The resident kilobytes in the beginning and at the end of each part of leak.c, and how many more they may be.
FLAT = re.compile(r'^leak: .*: RSS (\d+) KB after .*, (\d+) KB at the end;', re.MULTILINE)
MOST_GROWTH = 256


def compiled(folder, target, sources, flags):
    words = [needs('cc'), *flags, f'-I{INCLUDE}', '-o', target, *sources, os.path.join(folder, library.ARCHIVE), '-pthread']
    processes.built(words, timeout=LONGEST)
    return target


def built(folder, work):
    """The program of the files in C, by the compiler's flags."""
    flags = {'plain': ['-O2', '-g'], 'sanitized': SANITIZERS, 'debug': ['-O2', '-g', *debugged()]}
    sources = sorted(glob.glob(os.path.join(os.path.dirname(__file__), '*.c')))
    return {it: compiled(folder, os.path.join(work, f'play-{it}'), sources, ['-std=c11', *WARNINGS, *words, *WRAPPED])
            for it, words in flags.items()}


def play(tally, program, before, given, part, number, seed):
    """Plays a part; answers how many statements held."""
    if before and not shutil.which(before[0]):
        raise Left(f'no {before[0]}')
    got = started([*before, program, part, given, str(number), str(seed)])
    tool = 'helgrind ' if '--tool=helgrind' in before else 'memcheck ' if before else ''
    tally.expect(got[1] == 0 and not got[2], f'{tool}{os.path.basename(program)} {part} {number} {seed}', got)
    return int(got[0]) if got[1] == 0 else 0


def plays(tally, pool, programs, given, table, chosen):
    """Plays all parts of a table; answers how many statements held."""
    jobs = Jobs(tally, pool)
    for flags, before, numbers in table:
        for part, seed in [(part, seed) for part in numbers for seed in (chosen.seeds[:1] if part in ONCE else chosen.seeds)]:
            number = max(1, numbers[part] // (1 if part == 'limits' else chosen.less))
            jobs.begin(f'{part} by {before[0] if before else flags}', play, programs[flags], before, given, part, number, seed)
    return sum(it or 0 for it in jobs.all())


def model(tally, pool, programs, chosen):
    print(f'instances: {plays(tally, pool, programs, EXAMPLES, PLAYS, chosen):,} statements held beside the model', flush=True)


def modules(tally, pool, programs, work, chosen):
    held = plays(tally, pool, programs, os.path.join(written_modules(work), 'run'), MODULES, chosen)
    held += play(tally, programs['plain'], [], written_families(work), 'size', 1, 1)
    print(f'instances: {held:,} statements held on modules', flush=True)


def node(tally, folder, chosen):
    needs('node')
    count = sequences.Count()
    try:
        for seed in chosen.seeds:
            sequences.sequences(os.path.join(folder, library.SHARED), seed, chosen.steps // chosen.less, count)
        tally.expect(True, 'node')
    except sequences.Difference as why:
        path = os.path.join(chosen.kept, 'instances-difference')
        rows.write(path + '.wasm', why.module)
        rows.write(path + '.json', json.dumps(why.steps, indent=1).encode())
        tally.expect(False, f'beside node, {path}.wasm and {path}.json', why)
    ends = ', '.join(f'{number} {name}' for name, number in sorted(count.ends.items()))
    print(f'instances: {count.steps():,} steps beside node ({ends}), {count.bytes // 1_000_000:,} MB of memory compared', flush=True)


# The hosts of an embedder.

def host(folder, sources, name, work, flags=()):
    """Builds one of them."""
    source, target = os.path.join(sources, name + '.c'), os.path.join(work, name + '-sanitized' * bool(flags))
    if not os.path.exists(source):
        raise Left(f'no {name}.c')
    return compiled(folder, target, [source], ['-std=gnu11', *(flags or ['-O2', '-g'])])


def written_modules(work):
    """The short modules of the tables, in folders as torture.c wants them."""
    for table in ('check', 'run'):
        os.makedirs(os.path.join(work, 'vectors', table), exist_ok=True)
        for number, row in enumerate(rows.rows(table + '.tsv')):
            module = rows.bytes_of(row[1])
            if len(module) <= SHORT:
                rows.write(os.path.join(work, 'vectors', table, f'{number:04}.wasm'), module)
    return os.path.join(work, 'vectors')


def written_families(work):
    """Accepted modules of the families, which cost much each in its way."""
    place = os.path.join(work, 'families')
    os.makedirs(place, exist_ok=True)
    for name, (forms, _) in FAMILIES.items():
        if 'accepted' in forms:
            rows.write(os.path.join(place, re.sub(r'\W', '-', name) + '.wasm'), module_of(name, 'accepted', OF_FAMILY, 1))
    return place


def tortured(tally, words, part, modules, turns, more=None):
    """Of torture.c what a caller may do."""
    got = started([*words, EXAMPLES, modules, part], environment={'NO_WRONG': '1', 'TURNS': str(turns), **(more or {})})
    tally.expect(got[1] == 0 and not got[2] and b', 0 do not hold' in got[0], ' '.join([*words, part]), got)


def guarded(tally, program, modules, mutants):
    for table in ('check', 'run'):
        got = started([program, os.path.join(modules, table), str(mutants), '7'])
        tally.expect(got[1] == 0 and not got[2] and b', 0 do not hold' in got[0], f'guard.c, {table}', got)


def leaking(tally, program, modules, rounds):
    """It takes the first measure after four rounds with each module, of a quarter of the rounds."""
    folder = os.path.join(modules, 'run')
    got = started([program, folder, str(max(rounds, 32 * len(os.listdir(folder))))])
    parts = [(int(first), int(last)) for first, last in FLAT.findall(got[0].decode())]
    tally.expect(got[1] == 0 and len(parts) == 4, 'leak.c', got)
    tally.expect(all(last - first <= MOST_GROWTH for first, last in parts), 'leak.c: memory grows', got[0].decode())


def fast(tally, program):
    got = started([program, os.path.join(EXAMPLES, 'add.wasm'), 'add'])
    tally.expect(got[1] == 0 and b'(end 0)' in got[0], 'speed.c', got)


def embedder(tally, pool, folder, work, chosen):
    sources, less = chosen.hosts, chosen.less
    if not sources or not os.path.isdir(sources):
        raise Left('no folder of them')
    torture, guard, leak, speed = (host(folder, sources, name, work) for name in ('torture', 'guard', 'leak', 'speed'))
    sanitized = host(folder, sources, 'torture', work, SANITIZERS)
    modules, jobs, no_huge = written_modules(work), Jobs(tally, pool), {'NO_HUGE': '1'}
    jobs.begin('torture.c', tortured, [torture], 'all', modules, TURNS // less)
    jobs.begin('torture.c', tortured, [sanitized], 'all', modules, TURNS // less // 4, no_huge)
    if shutil.which('valgrind'):
        for part in ('null', 'edges', 'threads'):
            jobs.begin('torture.c', tortured, [*MEMCHECK, torture], part, modules, FEW_TURNS // less)
        jobs.begin('torture.c', tortured, [*HELGRIND, torture], 'threads', modules, FEW_TURNS // less)
    jobs.begin('guard.c', guarded, guard, modules, MUTANTS // less)
    jobs.begin('leak.c', leaking, leak, modules, ROUNDS // less)
    jobs.begin('speed.c', fast, speed)
    jobs.all()


def main(folder, chosen):
    tally = Tally('instances')
    with tempfile.TemporaryDirectory() as work, ThreadPoolExecutor(chosen.at_once) as pool:
        programs = functools.cache(lambda: built(folder, work))
        parts = {'model': lambda: model(tally, pool, programs(), chosen), 'node': lambda: node(tally, folder, chosen),
                 'modules': lambda: modules(tally, pool, programs(), work, chosen),
                 'hosts': lambda: embedder(tally, pool, folder, work, chosen)}
        for name in chosen.parts:
            try:
                parts[name]()
            except Left as why:
                tally.leave_out(name, why)
            except (OSError, RuntimeError, subprocess.SubprocessError) as error:
                tally.expect(False, name, repr(error))
    left = f'{len(tally.left)} left out' + (f': {", ".join(tally.left)}' if tally.left else '')
    print(f'instances: {tally.passed} passed, {tally.failed} failed, {left}')
    return 1 if tally.failed else 0


if __name__ == '__main__':
    taken = parser(__doc__)
    taken.add_argument('library', metavar='LIBRARY', help='the folder where tools/library.py put the library')
    taken.add_argument('--parts', nargs='+', choices=PARTS, default=PARTS, metavar='PART', help=', '.join(PARTS) + ' (default: all)')
    taken.add_argument('--seeds', nargs='+', type=int, default=SEEDS, metavar='SEED', help='what is made at random (default: one seed)')
    taken.add_argument('--steps', type=int, default=STEPS, help=f'steps beside node for each seed (default: {STEPS:,})')
    taken.add_argument('--hosts', metavar='FOLDER', help='where torture.c and the other hosts of an embedder stand')
    taken.add_argument('--kept', metavar='FOLDER', default='.', help='where a difference is written to (default: here)')
    taken.add_argument('--less', type=int, default=1, metavar='N', help='plays, steps and turns are divided by this (default: 1)')
    taken.add_argument('--at-once', type=int, default=2, metavar='N', help='how many processes run side by side (default: 2)')
    words = taken.parse_args()
    sys.exit(main(os.path.abspath(words.library), words))
