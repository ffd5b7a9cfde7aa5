"""Writes into the documents what bench/results/*.tsv say: blocks between `<!-- begin NAME -->` and `<!-- end NAME -->`, and plots.

With --check nothing is written: a block or a plot that is not that of its file is a fault, and so are a file of results without its
machine, and a family of modules that takes more than docs/SECURITY.md advises to plan with. Its rows `check: time`, `check: memory`, `judging: time` and `judging: memory` have
the advice: `N times` ordinary code, `N s` for a module of 16 MB, `N lengths` of the module.
"""
import glob
import os
import re
import sys

sys.dont_write_bytecode = True
from bench.measuring import geometric_mean
from bench.plots import C, GATE, JAVASCRIPTCORE, OTHER, V8, WABT, Plot, drawn
from bench.recording import FOLDER, Results, number
from tools import arguments

ROOT = os.path.dirname(os.path.dirname(os.path.abspath(__file__)))
LONGEST_MODULE = 16_777_216
KERNEL_ENGINES = ['gate', 'C switch', 'C goto', 'JavaScriptCore', 'wabt', 'V8']
# How many families the table, and how many the plot has.
WORST, DRAWN = 5, 14


def results(name):
    return Results(os.path.join(FOLDER, name + '.tsv'))


def rows_of(pattern, **fields):
    """The rows of the files whose names are of this pattern that have these fields."""
    for path in sorted(glob.glob(os.path.join(FOLDER, pattern + '.tsv'))):
        yield from (row for row in Results(path).rows if all(row[name] == value for name, value in fields.items()))


def table(head, rows):
    return '\n'.join('|' + '|'.join(cells) + '|' for cells in [head, ['---'] * len(head)] + rows)


def cell(value, form):
    return '-' if value is None else f'{value:{form}}'


def divided(value, other):
    return None if value is None or other is None else value / other


# The check.

def check_rows():
    """The modules in the order of the file: what each is called, its kind, its speeds by engine and workers, its memory."""
    modules = {}
    for row in results('check').rows:
        label = f'{row["module"]}, {row["megabytes"]} MB'
        _, speeds, memory = modules.setdefault(label, (row['kind'], {}, []))
        speeds[row['engine'], row['workers']] = number(row, 'median')
        memory += [number(row, 'memory_lengths')] if row['memory_lengths'] else []
    return [(label, kind, speeds, max(memory, default=None)) for label, (kind, speeds, memory) in modules.items()]


def beside(speeds, engine, other):
    return divided(speeds.get(engine), speeds.get(other))


def mean_beside(engine, other):
    """The geometric mean over the real programs of how many times as fast the one is as the other."""
    ratios = [beside(speeds, engine, other) for _, kind, speeds, _ in check_rows() if kind == 'program']
    if not any(ratios):
        sys.exit(f'check.tsv: no real program was measured with {engine} beside {other}; bench/check.py takes them as files')
    return geometric_mean([ratio for ratio in ratios if ratio])


def check_table():
    rows = []
    for label, _, speeds, memory in check_rows():
        ratios = [beside(speeds, ('gate', '1'), ('V8', '1')), beside(speeds, ('gate', '1'), ('C', '1')),
                  beside(speeds, ('gate process', '1'), ('wabt process', '1')), beside(speeds, ('gate', '4'), ('gate', '1')),
                  beside(speeds, ('gate', '4'), ('V8', 'all'))]
        rows.append([label, cell(speeds[('gate', '1')], '.0f')] + [cell(ratio, '.2f') for ratio in ratios] + [cell(memory, '.1f')])
    return table(['module', 'MB/s', 'to V8', 'to C', 'to wabt', '4 workers', 'to V8, all threads', 'memory'], rows)


def check_plot():
    rows = []
    for label, _, speeds, _ in check_rows():
        if ('V8', '1') in speeds:
            wabt = divided(beside(speeds, ('wabt process', '1'), ('gate process', '1')), beside(speeds, ('V8', '1'), ('gate', '1')))
            rows.append((label, [beside(speeds, engine, ('V8', '1')) for engine in (('gate', '1'), ('C', '1'))] + [wabt]))
    return Plot('The check: how fast one worker is beside V8, by module', 'times as fast as V8 on one thread (V8 is 1; logarithmic)',
                [(GATE, 'gate'), (C, 'plain C, one pass'), (WABT, 'wabt, a whole process beside that of gate')], rows, True, 1, 'gate')


def workers_plot():
    rows = [(label, [beside(speeds, ('gate', '4'), ('gate', '1')), beside(speeds, ('V8', 'all'), ('V8', '1')),
                     beside(speeds, ('gate process', '4'), ('gate process', '1'))])
            for label, _, speeds, _ in check_rows() if ('gate', '4') in speeds and ('V8', 'all') in speeds]
    return Plot('The check: what four workers gain over one, by module', 'times as fast as the same on one thread, with four processors',
                [(GATE, 'gate, 4 workers'), (V8, 'V8, all threads'), (OTHER, 'gate, 4 workers, whole process')], rows, False, 1, 'gate')


# Calls.

def kernel_rows():
    """The kernels in the order of the file: what each is called, the milliseconds of gate, and the times of others beside it."""
    kernels = {}
    for row in results('kernels').rows:
        if row['unit'] == 'ms':
            kernels.setdefault(row['what'], {})[row['engine']] = row
    return [(name, number(rows['gate'], 'least'), {engine: number(row, 'times_gate') for engine, row in rows.items()})
            for name, rows in kernels.items()]


def mean_kernel(engine):
    return geometric_mean([times[engine] for _, _, times in kernel_rows() if engine in times])


def kernels_table():
    rows = [[name, cell(took, '.1f')] + [cell(times.get(engine), '.2f') for engine in KERNEL_ENGINES[1:]]
            for name, took, times in kernel_rows()]
    rows.append(['geometric mean', ''] + [f'{mean_kernel(engine):.2f}' for engine in KERNEL_ENGINES[1:]])
    return table(['kernel', 'gate, ms'] + KERNEL_ENGINES[1:], rows)


def kernels_plot():
    series = {'JavaScriptCore': (JAVASCRIPTCORE, 'JavaScriptCore, interpreter'), 'C switch': (C, 'C, a switch'),
              'C goto': (OTHER, 'C, computed gotos'), 'wabt': (WABT, 'wabt'), 'V8': (V8, 'V8, compiled')}
    rows = [(name, [times.get(engine) for engine in series]) for name, _, times in kernel_rows()]
    return Plot('Kernels: the time of other engines beside the interpreter of gate', 'times as long as gate (gate is 1; logarithmic)',
                list(series.values()), rows, True, 1, 'JSC')


def instances_plot():
    modules = {}
    for row in results('batch').rows:
        if row['workers'] == '1':
            modules.setdefault(row['module'], {})[row['engine']] = number(row, 'least')
    engines = [(GATE, 'gate'), (V8, 'V8'), (WABT, 'wabt')]
    rows = [(name, [took.get(engine) for _, engine in engines]) for name, took in modules.items()]
    return Plot('A call on a fresh instance, by what the module does', 'microseconds a call, one thread, the least of a run (logarithmic)',
                engines, rows, True, None, 'gate')


def small_calls():
    """What a small call takes, in words: of files by bench/run.py and bench/embedding.py."""
    least = {(row['what'], row['engine']): number(row, 'least') for row in results('kernels').rows if row['unit'] == 'ns'}
    library = {(row['engine'], row['what'], row['bytes']): number(row, 'least_us') for row in results('embedding').rows}
    return '\n'.join([
        f'- A call and its return: {least["a call and its return", "gate"]:.0f} ns (`fib`).',
        f'- A small call on a fresh instance: {least["a small call on a fresh instance", "gate"]:.0f} ns.',
        f'- `gate_module_call` of `add`, through the library for C: {library["gate", "gate_module_call", "41"]:.2f} us.',
        f'- `gate_check` of a module of 41 bytes: {library["gate", "gate_check", "41"]:.2f} us; V8: '
        f'{library["V8", "WebAssembly.validate", "41"]:.2f} us; a process of `gate check`: {library["gate", "process", "41"]:.0f} us.'])


def plug_ins():
    """What a plug-in costs that goes on from call to call, by engine; a peer without resets has none there."""
    engines = {}
    for row in results('plugins').rows:
        engines.setdefault(row['engine'], {})[row['way']] = row
    rows = []
    for engine, ways in engines.items():
        shown = [way for way in ('kept', 'fresh', 'reset') if way != 'reset' or engine == 'gate']
        cells = {way: f'{number(ways[way], "median_us"):.1f} ({number(ways[way], "times_gate"):.2f})' for way in shown}
        rows.append([engine] + [cells.get(way, '-') for way in ('kept', 'fresh', 'reset')])
    return table(['us a call (to gate)', 'kept', 'fresh', 'reset'], rows)


# Modules that are made to cost much.

def families():
    """Of each family: its form, how many times ordinary code it takes and its ns a byte by size, and its memory past one megabyte."""
    found = {}
    for row in rows_of('families', measure='check'):
        if not row['name'].startswith(('a hot loop', 'generated code')) and row['times_ordinary']:
            _, times, costs, memory = found.setdefault(row['name'], (row['form'], {}, {}, []))
            times[float(row['megabytes'])] = number(row, 'times_ordinary')
            costs[float(row['megabytes'])] = number(row, 'ns_a_byte')
            memory += [number(row, 'memory_lengths')] if row['memory_lengths'] and float(row['megabytes']) >= 2 else []
    return sorted(found.items(), key=lambda it: -max(it[1][1].values()))


def seconds(ns_a_byte):
    """The seconds that the longest module takes, from the nanoseconds a byte."""
    return ns_a_byte * LONGEST_MODULE / 1e9


def most(pattern, column, measure):
    """The most in a column over the rows of these files that are of the check, or of judging; 0 where none has it."""
    return max((number(row, column) for row in rows_of(pattern, measure=measure) if row.get(column)), default=0)


def most_seconds(pattern, measure):
    """The same of the seconds that the longest module takes, by modules that are nearly as long, where the file has their length."""
    rows = [row for row in rows_of(pattern, measure=measure) if row['ns_a_byte'] and float(row['megabytes'] or 16) >= 10]
    return seconds(max((number(row, 'ns_a_byte') for row in rows), default=0))


def worst_table():
    rows = [[name, form, f'{max(times.values()):.1f}', f'{seconds(costs[max(costs)]):.1f}', cell(max(memory, default=None), '.1f')]
            for name, (form, times, costs, memory) in families()[:WORST]]
    return table(['family', 'form', 'times ordinary code', 's for 16 MB', 'memory in lengths'], rows)


def families_plot():
    sizes = sorted({size for _, (_, times, _, _) in families() for size in times}, reverse=True)
    rows = [(name, [times.get(size) for size in sizes]) for name, (_, times, _, _) in families()[:DRAWN]]
    return Plot('The check: the modules that cost most a byte, by size', 'times as long a byte as generated ordinary code',
                [(shape, f'{size:g} MB') for shape, size in enumerate(sizes)], rows, False, 1, f'{sizes[0]:g} MB')


def judging_plot():
    measured = [row for row in rows_of('judging', measure='judging') if row['times_check']]
    size = max(number(row, 'megabytes') for row in measured)
    rows = [(row['name'] + (', dead' if 'dead' in row['form'] else ''), number(row, 'ns_a_byte'), number(row, 'times_check'))
            for row in measured if number(row, 'megabytes') == size]
    kinds = [row for row in rows if row[0].startswith('generated')]
    others = sorted((row for row in rows if not row[0].startswith('generated')), key=lambda row: -row[1])[:DRAWN - len(kinds)]
    return Plot('Judging for gate run, which keeps the bodies, beside the check', f'ns a byte at {size:g} MB, one worker (logarithmic)',
                [(GATE, 'gate run, nothing called'), (OTHER, 'gate check')],
                [(name, [took, took / times]) for name, took, times in kinds + others], True, None, 'run')


def within(values):
    return f'{min(values):.1f} to {max(values):.1f}'


def judged_generated():
    """How many times its check it takes to judge generated code, by kind and size."""
    return [number(row, 'times_check') for row in rows_of('judging', measure='judging') if row['name'].startswith('generated')]


def judged_programs():
    """The same of the real programs."""
    return [number(row, 'times_check') for row in rows_of('judging', measure='judging', form='program')]


def judging_list():
    generated, worst = judged_generated(), most_seconds('judging*', 'judging')
    return '\n'.join([
        f'- Real programs: {within(judged_programs())} times as long as their check.',
        f'- Generated code: {within(generated)} times as long as its check.',
        f'- Most time: {worst:.1f} s for 16 MB.',
        f'- Most memory: {most("judging*", "memory_lengths", "judging"):.0f} lengths of the module.'])


def large_pages():
    rows = list(rows_of('large_pages'))
    of = {row['measure']: [] for row in rows}
    for row in rows:
        of[row['measure']] += [number(row, 'least'), number(row, 'most')]
    return (f'A check takes {min(of["check"]):.2f} to {max(of["check"]):.2f} of the time then, '
            f'and judging for `gate run` {min(of["judging"]):.2f} to {max(of["judging"]):.2f}.')


# What was aimed at.

def judged(name, column):
    """The values of a column over the sizes of an accepted module that is judged."""
    rows = [row for row in rows_of('judging', measure='judging', name=name) if row['form'] == 'accepted' and row[column]]
    return [number(row, column) for row in rows]


def process_beside_v8(name):
    """How many times as fast a process of four workers checks a program as V8 does in process with all threads; None if unmeasured."""
    programs = {label: speeds for label, kind, speeds, _ in check_rows() if kind == 'program'}
    found = (beside(speeds, ('gate process', '4'), ('V8', 'all')) for label, speeds in programs.items() if label.startswith(name))
    return next(found, None)


def aims():
    """What speed and memory were aimed at, beside what is measured."""
    lengths = [judged(name, 'memory_lengths')[-1]
               for name in ('generated, functions of 200 bytes', 'generated, functions of ten bytes', 'functions of two bytes')]
    processes = [process_beside_v8(name) for name in ('web server', 'sqlite', 'lua')]
    fresh = [number(row, 'least') for module in ('nothing', 'a page, segment, store, load')
             for row in rows_of('batch', module=module, engine='gate', workers='1')]
    pages = min(number(row, 'least') for row in rows_of('large_pages', measure='judging'))
    start = next(number(row, 'least_us') for row in rows_of('embedding', engine='gate', what='process', bytes='41'))
    return table(['what', 'now', 'aim', 'why not more (bench/LAB.md)'], [
        ['kernels: JavaScriptCore\'s interpreter beside `gate`', f'{mean_kernel("JavaScriptCore"):.2f}', '1.45',
         'tokens of 8 bytes for 16, proved and built, took 1.4 times as long'],
        ['kernels: computed gotos in C', f'{mean_kernel("C goto"):.2f}', '1', 'the same; and a turn counts itself, which C does not'],
        ['judging, real programs; generated code, beside the check', f'{within(judged_programs())}; {within(judged_generated())}', '2.0',
         f'fresh memory: with large pages {pages:.2f} of the time'],
        ['memory, judged: functions of 200, of ten, of two bytes', '; '.join(f'{n:.0f}' for n in lengths), '5.5; 9; 20',
         '16 bytes a token, and 136 a body'],
        ['a call on a fresh instance, us: nothing; a page and a segment', '; '.join(cell(n, '.2f') for n in fresh),
         '0.23 to 0.47', '-'],
        ['a process, four workers, beside V8 in process: Go server; sqlite; lua', '; '.join(cell(n, '.2f') for n in processes),
         '1.6; 1.0; 0.8', f'a process that checks 41 bytes takes {start:.0f} us']])


# What was measured, when, on what.

def head_line(name, before):
    """Which commit a file of results is of, when and where it was measured, and beside which peers; a file goes before it, or None."""
    head = results(name).head
    machine = head['processor'] or 'machine not noted'
    if before and results(before).head['processor'] == machine:
        machine = 'same machine'
    words = [f'commit {head["commit"]}', head['date'], machine, head['peers'] and f'beside {head["peers"]}']
    return f'- `{name}.tsv`: ' + '; '.join(word for word in words if word) + '.'


def sources():
    names = ('check', 'kernels', 'batch', 'judging', 'plugins', 'embedding', 'families', 'families_again', 'judging_workers', 'large_pages')
    return '\n'.join(map(head_line, names, (None,) + names))


def summary():
    to_v8, to_c = mean_beside(('gate', '1'), ('V8', '1')), mean_beside(('gate', '1'), ('C', '1'))
    return '\n'.join([
        f'- **Check, one worker**: {to_v8:.2f} times as fast as V8, {to_c:.2f} times as fast as plain C.',
        f'- **Check, four workers**: {mean_beside(("gate", "4"), ("V8", "all")):.2f} times as fast as V8 with all its threads.',
        f'- **Calls**: JavaScriptCore\'s interpreter takes {mean_kernel("JavaScriptCore"):.2f} times as long, '
        f'wabt\'s {mean_kernel("wabt"):.1f} times.',
        f'- **Hostile modules**: {most_seconds("families*", "check"):.1f} s for 16 MB at worst, '
        f'{most("families*", "times_ordinary", "check"):.0f} times ordinary code.'])


def milliseconds(program, engine):
    """What a check of a program takes; its speed is in megabytes a second."""
    row = next(rows_of('check', module=program, engine=engine[0], workers=engine[1]))
    return f'{1_000 * float(row["megabytes"]) / number(row, "median"):.1f} ms'


def megabytes(lengths, row):
    return f'{lengths * float(row["megabytes"]):.1f} MB'


def readme_speed():
    """What a host asks first, in milliseconds and megabytes, beside V8."""
    program = 'sqlite (C)'
    checked = next(rows_of('check', module=program, engine='gate process', workers='1'))
    kept = next(rows_of('judging', measure='judging', name=program))
    judged_ms = number(kept, 'ns_a_byte') * float(kept['megabytes'])
    us = {(row['engine'], row['way']): f'{number(row, "median_us"):.1f} us' for row in results('plugins').rows}
    v8 = [1 / times['V8'] for _, _, times in kernel_rows()]
    rows = [
        [f'check {program}, {checked["megabytes"]} MB, on one thread',
         f'{milliseconds(program, ("gate", "1"))}, {megabytes(number(checked, "memory_lengths"), checked)}',
         milliseconds(program, ('V8', '1'))],
        ['check it on four threads (V8: on all of its threads)',
         milliseconds(program, ('gate', '4')), milliseconds(program, ('V8', 'all'))],
        ['judge it once, to call it often', f'{judged_ms:.0f} ms, {megabytes(number(kept, "memory_lengths"), kept)}', '-'],
        ['a clean instance and a request of 100 bytes', f'{us["gate", "reset"]} (reset), {us["gate", "fresh"]} (new)', us['V8', 'fresh']],
        ['a request on an instance that is kept', us['gate', 'kept'], us['V8', 'kept']],
        ['a hot loop, beside compiled code', f'{1 / mean_kernel("V8"):.0f} times as long ({min(v8):.0f} to {max(v8):.0f})', '1']]
    return '\n'.join([
        table(['you want to', '`gate`', 'V8'], rows), '',
        f'- A check of real programs is {mean_beside(("gate", "1"), ("V8", "1")):.2f} times as fast as V8 on one thread, '
        f'{mean_beside(("gate", "4"), ("V8", "all")):.2f} times on all threads.',
        f'- The worst hostile module known takes {most_seconds("families*", "check"):.1f} s for 16 MB, '
        f'{most("families*", "times_ordinary", "check"):.0f} times ordinary code.',
        f'- Measured on an {results("check").head["processor"]}, V8 of {results("check").head["peers"].split("(")[1].split(")")[0]}; '
        'SPEED names the older runs.'])


BLOCKS = {'README.md': {'readme-speed': readme_speed},
          'docs/SPEED.md': {'speed-summary': summary, 'check-table': check_table, 'kernels-table': kernels_table,
                            'small-calls': small_calls, 'plug-ins': plug_ins, 'worst-table': worst_table, 'judging-list': judging_list,
                            'large-pages': large_pages, 'aims': aims, 'sources': sources}}
PLOTS = {'docs/check.svg': check_plot, 'docs/workers.svg': workers_plot, 'docs/kernels.svg': kernels_plot,
         'docs/instances.svg': instances_plot, 'docs/families.svg': families_plot, 'docs/judging.svg': judging_plot}


def read(name):
    path = os.path.join(ROOT, name)
    if not os.path.exists(path):
        return ''
    with open(path) as file:
        return file.read()


def filled(text, name, block):
    """The document with this block; None where it has no marks for it, or more than once."""
    marks = f'<!-- begin {name} -->\n', f'<!-- end {name} -->'
    if any(text.count(mark) != 1 for mark in marks):
        return None
    before, rest = text.split(marks[0])
    return before + marks[0] + block + '\n' + marks[1] + rest.split(marks[1])[1]


def documents():
    """Of each document and plot its name, what it has to be, and the blocks for which it has no marks."""
    for name, blocks in BLOCKS.items():
        text, missing = read(name), []
        for block, made in blocks.items():
            new = filled(text, block, made())
            text, missing = (text, missing + [block]) if new is None else (new, missing)
        yield name, text, missing
    for name, made in PLOTS.items():
        yield name, drawn(made()), []


def advice(row, unit):
    """The number before this unit in a row of docs/SECURITY.md, which begins with the row's name."""
    for line in read('docs/SECURITY.md').splitlines():
        cells = [one.strip(' *`') for one in line.strip().strip('|').split('|')]
        if line.startswith('|') and cells[0].lower() == row:
            found = re.search(r'([\d.,]*\d)\s+' + unit, cells[1])
            if found:
                return float(found[1].replace(',', ''))
    return None


def advised():
    """What is held to what: in words, the most that was measured, the row of docs/SECURITY.md and the unit there."""
    return [('times ordinary code', most('families*', 'times_ordinary', 'check'), 'check: time', r'times\b'),
            ('s for 16 MB', most_seconds('families*', 'check'), 'check: time', r's(?:econds)?\b'),
            ('lengths', most('families*', 'memory_lengths', 'check'), 'check: memory', r'(?:lengths\b|times\b)'),
            ('s for 16 MB', most_seconds('judging*', 'judging'), 'judging: time', r's(?:econds)?\b'),
            ('lengths', most('judging*', 'memory_lengths', 'judging'), 'judging: memory', r'(?:lengths\b|times\b)')]


def without_machine():
    """The files of results that do not say on which machine, other than those that were transcribed from a page."""
    for path in sorted(glob.glob(os.path.join(FOLDER, '*.tsv'))):
        head = Results(path).head
        if not head['processor'] and not head.get('note', '').startswith('transcribed'):
            yield os.path.relpath(path, ROOT)


def faults():
    """What the documents say otherwise than the files of results."""
    yield from (f'{path}: no machine' for path in without_machine())
    for name, text, missing in documents():
        yield from (f'{name}: no marks for the block {block}' for block in missing)
        if text != read(name):
            yield f'{name}: not what bench/results/ gives; `python3 -m bench.tables` writes it'
    for unit, measured, row, pattern in advised():
        plan = advice(row, pattern)
        if plan is None:
            yield f'docs/SECURITY.md: no row `{row}` that advises a number of {unit}'
        elif measured > plan:
            yield f'docs/SECURITY.md: `{row}` advises {plan:g} {unit}, and {measured:.1f} were measured'


def main(checks):
    if checks:
        found = list(faults())
        print('\n'.join(found + [f'{len(found)} faults in {sum(map(len, BLOCKS.values()))} blocks, {len(PLOTS)} plots and the advice']))
        return 1 if found else 0
    for name, text, missing in documents():
        for block in missing:
            print(f'{name}: no marks for the block {block}', file=sys.stderr)
        if text != read(name):
            with open(os.path.join(ROOT, name), 'w') as file:
                file.write(text)
            print(f'wrote {name}')
    return 0


if __name__ == '__main__':
    parser = arguments.parser(__doc__)
    parser.add_argument('--check', action='store_true', help='write nothing, and fail where a document says otherwise')
    sys.exit(main(parser.parse_args().check))
