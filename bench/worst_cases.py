"""What modules cost that are made to cost much (tools/worst_cases), beside ordinary code, by processor time, in one run.

For each family and size, of that of its forms which costs most a byte: nanoseconds a byte of `gate check` with one worker (the
best of three processes, its start and the reading included), how many times those of a hot loop's code and of the mean of the
programs (--programs, else of generated code) of that size, the peak memory in lengths of the module, the form, and the verdict.
A verdict that is not the form's ends the run. Then, for what is accepted and for the programs, what it costs to judge it for `gate run`,
and last what calls of such modules cost, in microseconds. `--judging` measures what it costs to judge alone.

With --results FILE.tsv the rows are written too: each says whether it is of the check, of judging, or of a call.
"""
import os
import resource
import subprocess
import sys
import tempfile

from bench.measuring import peak
from bench.recording import Recorder
from tools import arguments
from tools.encoding import function_type, signed, sized, unsigned, whole
from tools.files import write
from tools.ordinary_modules import module
from tools.processes import processor_seconds
from tools.worst_cases import FAMILIES, KEPT, module_of

COLUMNS = ['measure', 'name', 'form', 'megabytes', 'ns_a_byte', 'times_loop', 'times_ordinary', 'times_check', 'memory_lengths',
           'us_a_call', 'verdict']
LIMIT = 120
SLOW = 'more than two minutes'
TIMES = 3
GENERATED = {'many': 'functions of 200 bytes', 'large': 'functions of 100,000 bytes', 'one': 'one function',
             'tiny': 'functions of ten bytes'}


def hot_loop(size):
    # The sum of the numbers up to a parameter, in a loop, over and over: `[i32] -> []` with one local.
    turn = b'\x03\x40\x20\x01\x20\x00\x6A\x21\x01\x20\x00\x41\x01\x6B\x22\x00\x0D\x00\x0B'
    return whole(turn * (size // len(turn)), locals_of=b'\x01\x01\x7F', types=[function_type([b'\x7F'])])


def spent(words):
    # The processor seconds of one process, and what it prints; nothing where it takes more than two minutes.
    took, out, status = processor_seconds(words, stderr=subprocess.DEVNULL,
                                          preexec_fn=lambda: resource.setrlimit(resource.RLIMIT_CPU, (LIMIT, LIMIT)))
    return took, out if status >= 0 else SLOW


def best_of(words):
    best, out = spent(words)
    for _ in range(TIMES - 1 if best < 5 else 0):
        best = min(best, spent(words)[0])
    return best, out


class Check:
    """What `gate check` takes, a line a module."""

    def __init__(self, gate, path, recorder):
        self.gate, self.path, self.usual, self.size, self.recorder = gate, path, (), 0, recorder

    def measured(self, name, contents, wanted):
        # Nanoseconds a byte, the memory in lengths, and the verdict.
        write(self.path, contents)
        words = [self.gate, 'check', self.path, '--workers', '1']
        seconds, out = best_of(words)
        if not out.startswith((wanted, SLOW)) or 'too-large' in out:
            sys.exit(f'{name}, {len(contents)} bytes: {out!r}, and not {wanted}')
        return seconds / len(contents) * 1e9, peak(words) / len(contents), out.strip()

    def line(self, name, form, length, cost, memory, verdict):
        times = ''.join(f'{cost / usual:7.1f}' for usual in self.usual) or ' ' * 14
        print(f'{name:32}{length / 1e6:6.1f}{cost:9.1f}{times}{memory:8.1f}  {form:14} {verdict[:40]}', flush=True)
        times_loop, times_ordinary = [cost / usual for usual in self.usual] or [None, None]
        self.recorder.add(measure='check', name=name, form=form, megabytes=self.size / 1e6, ns_a_byte=cost, times_loop=times_loop,
                          times_ordinary=times_ordinary, memory_lengths=memory, verdict=verdict)

    def ordinary(self, size, programs):
        # Measures the two kinds of ordinary code that all others stand beside.
        self.usual, self.size, costs = (), size, []
        for name, contents in [('a hot loop', hot_loop(size)), ('generated code', module('large', size, 7))] + programs:
            cost, memory, verdict = self.measured(name, contents, 'accepted')
            self.line(name, 'accepted', len(contents), cost, memory, verdict)
            costs.append(cost)
        compared = costs[2:] or costs[1:]
        self.usual = costs[0], sum(compared) / len(compared)

    def family(self, name, size, seed, shows_all):
        rows = []
        for form in (FAMILIES | KEPT)[name][0]:
            contents = module_of(name, form, size, seed)
            wanted = 'accepted' if form.endswith('accepted') else 'refused'
            rows.append((self.measured(f'{name}, {form}', contents, wanted), form, len(contents)))
        rows.sort(reverse=True)
        for (cost, memory, verdict), form, length in rows if shows_all else rows[:1]:
            self.line(name, form, length, cost, memory, verdict)


def programs_of(words):
    # The programs with their names.
    programs = []
    for program in words.programs:
        with open(program, 'rb') as file:
            programs.append((os.path.basename(program).removesuffix('.wasm'), file.read()))
    return programs


def check(words, path, recorder):
    checked = Check(words.gate, path, recorder)
    programs = programs_of(words)
    print(f'{"check":32}{"MB":>6}{"ns/byte":>9}{"loop":>7}{"mean":>7}{"memory":>8}  {"form":14} verdict')
    for size in words.sizes:
        checked.ordinary(int(size * 1e6), programs)
        for name in words.only or FAMILIES:
            checked.family(name, int(size * 1e6), words.seed, words.all)


def accepted_modules(size, seed, only):
    # Ordinary code, and the families in their accepted forms, with their names and forms.
    for kind, name in GENERATED.items():
        yield f'generated, {name}', 'accepted', module(kind, size, seed)
    for name in only or KEPT | FAMILIES:
        for form in (KEPT | FAMILIES)[name][0]:
            if form.endswith('accepted'):
                yield name, form, module_of(name, form, size, seed)


class Judging:
    """What it takes to judge a module for `gate run`, a line a module: of a call of no export, so that nothing is run."""

    def __init__(self, gate, path, calls_path, recorder):
        self.gate, self.path, self.calls_path, self.recorder = gate, path, calls_path, recorder
        write(calls_path, b'no-such\n')

    def line(self, name, form, megabytes, contents):
        write(self.path, contents)
        kept = [self.gate, 'run', self.path, self.calls_path, '--workers', '1']
        (seconds, out), (checked, verdict) = best_of(kept), best_of([self.gate, 'check', self.path, '--workers', '1'])
        if not out.startswith('0 ') or verdict != 'accepted\n':
            sys.exit(f'{name}, {form}: {out[:80]!r}, {verdict!r}')
        length, times = len(contents), seconds / checked
        cost, memory = seconds / length * 1e9, peak(kept) / length
        print(f'{name + ", " + form:48}{length / 1e6:6.1f}{cost:9.1f}{times:7.1f}{memory:8.1f}', flush=True)
        self.recorder.add(measure='judging', name=name, form=form, megabytes=megabytes, ns_a_byte=cost, times_check=times,
                          memory_lengths=memory, verdict='accepted')


def judging(words, path, calls_path, recorder):
    judged = Judging(words.gate, path, calls_path, recorder)
    print(f'{"to judge for run":48}{"MB":>6}{"ns/byte":>9}{"check":>7}{"memory":>8}')
    for name, contents in programs_of(words):
        judged.line(name, 'program', round(len(contents) / 1e6, 1), contents)
    for size in words.sizes:
        for name, form, contents in accepted_modules(int(size * 1e6), words.seed, words.only):
            judged.line(name, form, size, contents)


def run_module(code, pages=0, locals_of=b'\x00', data=None, table=0):
    # One function `f`, with what is named.
    sections = {}
    if table:
        sections[4] = b'\x01\x70\x00' + unsigned(table)
    if pages:
        sections[5] = b'\x01\x00' + unsigned(pages)
    if data:
        sections[11] = b'\x01\x00\x41\x00\x0B' + sized(data)
    return whole(code, locals_of, sections=sections)


def store(at):
    return b'\x41' + signed(at) + b'\x41\x01\x3A\x00\x00'


def calls(gate, path, calls_path, recorder):
    families = [('nothing', run_module(b''), 100_000), ('a page, not written', run_module(b'', 1), 100_000),
                ('1,024 pages, first and last byte written', run_module(store(0) + store(1024 * 65536 - 1), 1024), 2_000),
                ('1,024 pages, a byte in each', run_module(b''.join(store(p * 65536) for p in range(1024)), 1024), 2_000),
                ('a data segment of 1,000,000 bytes', run_module(b'', 16, data=b'\x01' * 1_000_000), 2_000),
                ('a table of 65,536 entries', run_module(b'', table=65536), 2_000),
                ('100,000 locals', run_module(b'', locals_of=b'\x01\xA0\x8D\x06\x7F'), 2_000)]
    print(f'{"run":44}{"us a call":>10}')
    for name, contents, count in families:
        write(path, contents)
        write(calls_path, b'f\n' * count)
        seconds, out = best_of([gate, 'run', path, calls_path, '--workers', '1', '--pages', '1024'])
        if f'values {count} ' not in out:
            sys.exit(f'{name}: {out[-200:]!r}')
        print(f'{name:44}{seconds / count * 1e6:10.2f}', flush=True)
        recorder.add(measure='call', name=name, us_a_call=seconds / count * 1e6)


def main():
    parser = arguments.parser(__doc__)
    parser.add_argument('gate', help='the program')
    parser.add_argument('sizes', nargs='*', type=float, help='megabytes; 1, 4 and 16 where none is given')
    parser.add_argument('--results', metavar='FILE.tsv', help='write what was measured, with what it was measured on')
    parser.add_argument('--only', action='append', choices=FAMILIES | KEPT, metavar='FAMILY', help='this family; may be said again')
    parser.add_argument('--judging', action='store_true', help='only what judging for `gate run` costs')
    parser.add_argument('--all', action='store_true', help='a line for each form, the worst first')
    parser.add_argument('--seed', type=int, default=7)
    parser.add_argument('--programs', nargs='+', default=[], metavar='FILE', help='real programs, whose mean counts')
    words = parser.parse_args()
    words.gate, words.sizes = os.path.abspath(words.gate), words.sizes or [1.0, 4.0, 16.0]
    recorder = Recorder(words.results, COLUMNS)
    with tempfile.TemporaryDirectory() as folder:
        path, calls_path = os.path.join(folder, 'module.wasm'), os.path.join(folder, 'calls')
        if not words.judging:
            check(words, path, recorder)
        judging(words, path, calls_path, recorder)
        if not words.only and not words.judging:
            calls(words.gate, path, calls_path, recorder)


if __name__ == '__main__':
    main()
