"""Holds what is written about the command line to the program: docs/FORMATS.md, gate.1, the completions, and what hosts are told.

options    Each of them has the options of `gate check --help` and of `gate run --help`, no others, and where it has numbers
           the least, the greatest and the default of the help.
flags      Of each command, each of them has all options of its help, those without a number too, and no others.
ranges     The program takes the least and the greatest number of each option, and refuses those beside them.
hosts      gate.h, gate.3 and the hosts of examples/ have the limits of a call as the help has them, as far as they tell them: the
           least, the greatest, the default. gate.3 has the numbers of gate.h's statuses.
lines      The verdicts of the help are those of docs/FORMATS.md; gate.1 has each line and each status that it has. A number of gate.1 with
           the unit behind it, as 65,536 bytes, stands there too.
"""
import re
import subprocess
import sys

from tools.arguments import program
from tools.counting import Count, difference
from tools.files import read

COMMANDS = ['check', 'run']
# Those options that are limits of a call, in the order of gate_settings.
LIMITS = ['fuel', 'frames', 'pages']
# The sections of docs/FORMATS.md with tables of lines that are printed.
SECTIONS = ['The verdict line', 'The text of calls', 'The report']
MACROS = re.compile(r'^\.\w\w\b|\b(?:Ar|Cm|Fl|Li|Ns|Op|Ql)\b')


def run(gate, *words):
    return subprocess.run([gate, *words], capture_output=True, text=True)


def number(text):
    return int(text.replace(',', '').replace('_', ''))


def numbered(found):
    """Options as (name, least, greatest, default): the three numbers of each, by its name."""
    return {name: tuple(map(number, numbers)) for name, *numbers in found}


def between(text, begin, end):
    """What stands between two texts."""
    return text.split(begin, 1)[1].split(end, 1)[0]


def options_of_help(gate, command):
    said = run(gate, command, '--help').stdout
    return numbered(re.findall(r'--(\w+) <N>\n.*, (\d+) to (\d+)\n\s*\[default: (\d+)\]', said))


def flags_of_help(gate, command):
    """The options of a command but --help, by their long names, each with its letter or None."""
    listed = re.findall(r'^ +(?:-(\w), )?--([\w-]+)', run(gate, command, '--help').stdout, re.M)
    return {name: letter or None for letter, name in listed if name != 'help'}


def commands_of_help(gate):
    listed = between(run(gate, '--help').stdout, 'Commands:\n', '\n\n')
    return [name for name in re.findall(r'^  ([\w-]+)', listed, re.M) if name != 'help']


def flags_written(commands):
    """Of each text and command the options that it has, each by its long name or by its letter."""
    formats, page, zsh, fish, bash = (read(it) for it in (
        'docs/FORMATS.md', 'man/gate.1', 'completions/_gate', 'completions/gate.fish', 'completions/gate.bash'))
    synopsis = between(page, '.Sh SYNOPSIS', '.Sh')
    arrays = {name: re.findall(r"'--([\w-]+)", between(zsh, f'{name}=(', '\n    )')) for name in ('shared', 'limits')}
    lists = dict(re.findall(r"^set -l (\w+) '__fish_seen_subcommand_from ([\w -]+);", fish, re.M))
    for command in commands:
        usage = re.search(rf'^    gate {command} .*', formats, re.M)[0]
        yield 'the usage in FORMATS', command, re.findall(r'\[--?([\w-]+)', usage)
        lines = re.findall(r'^\.Op Fl (\S+)', between(synopsis + '.Nm', f'.Cm {command}\n', '.Nm'), re.M)
        yield 'the synopsis of gate.1', command, [it for word in lines for it in ([word[1:]] if word[0] == '-' else word)]
        arm = between(zsh, f'\n        {command})', ';;')
        yield 'the completion of zsh', command, [
            *(it for name in re.findall(r'\$(\w+)', arm) for it in arrays[name]),
            *(it for it in re.findall(r"(?:'|,)--([\w-]+)", arm) if it != 'help')]
        conditions = re.findall(r"^complete -c gate -n (?:'__fish_seen_subcommand_from ([\w -]+)[^']*'|\$(\w+)) .*?-l ([\w-]+)", fish, re.M)
        yield 'the completion of fish', command, [
            name for named, variable, name in conditions if command in (named or lists[variable]).split()]
    yield from flags_of_bash(bash, commands)


def flags_of_bash(bash, commands):
    """The completion of bash has words for all, and an arm that adds or sets words for a command."""
    first = re.search(r"options='([^']*)'", bash)[1]
    for command in commands:
        arm = re.search(rf'^        (?:[\w-]+ \| )*{command}(?: \| [\w-]+)*\)(.*?);;', bash, re.M | re.S)[1]
        lines = [line for line in arm.splitlines() if 'options' in line and not re.search(rf'== {command} \]\]', line)]
        is_set = any(re.search(r'options=--', line) for line in lines)
        words = ' '.join(([] if is_set else [first]) + lines)
        yield 'the completion of bash', command, [name for name in re.findall(r'--([\w-]+)', words) if name != 'help']


def flags(count, gate):
    commands = commands_of_help(gate)
    count.expect(len(commands) > 5, 'the commands of the help', commands)
    wanted = {command: flags_of_help(gate, command) for command in commands}
    for name, command, found in flags_written(commands):
        long_names = {letter: long_name for long_name, letter in wanted[command].items()}
        found = [long_names.get(it, it) for it in found]
        count.expect(set(found) == set(wanted[command]), f'{name}, {command}', difference(set(found), set(wanted[command])))
    every = {name: letter for options in wanted.values() for name, letter in options.items()}
    items = re.findall(r'^\.It (?:Fl (\w) , )?Fl -([\w-]+)', read('man/gate.1'), re.M)
    listed = {name: letter or None for letter, name in items if name not in ('help', 'version')}
    count.expect(listed == every, 'the options of gate.1', difference(listed, every))
    for name, letter in every.items():
        count.expect(f'`--{name}`' in read('docs/FORMATS.md') or f'`-{letter}`' in read('docs/FORMATS.md'), f'--{name} in FORMATS')


def options_written():
    """Of each text the options of each command with their numbers; none where the text has no numbers."""
    formats, page, zsh, fish, bash = (read(it) for it in (
        'docs/FORMATS.md', 'man/gate.1', 'completions/_gate', 'completions/gate.fish', 'completions/gate.bash'))
    row = r'^\| `--(\w+)` \|.*\| ([\d,]+) \| ([\d,]+) \| ([\d,]+) \|$'
    yield 'the options of FORMATS', 'run', numbered(re.findall(row, formats, re.M))
    item = r'^\.It Fl -(\w+) Ar n\n.*: ([\d,]+) to ([\d,]+), by default ([\d,]+)\.$'
    yield 'the options of gate.1', 'run', numbered(re.findall(item, page, re.M))
    shared, limits = (numbered(re.findall(r"'--(\w+)=\[.*\]:(\d+) to (\d+), by default (\d+): '", between(zsh, begin, '\n    )')))
                      for begin in ('shared=(', 'limits=('))
    yield 'the completion of zsh', 'check', shared
    yield 'the completion of zsh', 'run', {**shared, **limits}
    judging, running = (numbered(re.findall(rf"-n \${name} -l (\w+) -x -d '.*: (\d+) to (\d+), by default (\d+)'", fish))
                        for name in ('judging', 'running'))
    yield 'the completion of fish', 'check', judging
    yield 'the completion of fish', 'run', {**judging, **running}
    first, more = re.findall(r"options\+?='([^']*)'", bash)
    both = [re.findall(r'--(\w+)', words.replace('--help', '')) for words in (first, first + more)]
    for command, names in zip(COMMANDS, both):
        yield 'the completion of bash', command, dict.fromkeys(names)
    yield 'the numbers of bash', 'run', dict.fromkeys(re.search(r'--@\((.*?)\)', bash)[1].split('|'))
    yield 'the numbers of bash', 'run', dict.fromkeys(re.findall(r'--(\w+)', re.search(r'^ +(--workers \|.*)\)$', bash, re.M)[1]))
    yield from options_of_usage(formats, page)


def options_of_usage(formats, page):
    """The options of the lines that say how to call the program."""
    synopsis = between(page, '.Sh SYNOPSIS', '.Sh')
    for command in COMMANDS:
        usage = re.search(rf'^    gate {command} .*', formats, re.M)[0]
        yield 'the usage in FORMATS', command, dict.fromkeys(re.findall(r'\[--(\w+) N\]', usage))
        yield 'the synopsis of gate.1', command, dict.fromkeys(re.findall(r'Op Fl -(\w+)', between(synopsis, f'.Cm {command}', '.Nm')))


def options(count, gate):
    wanted = {command: options_of_help(gate, command) for command in COMMANDS}
    count.expect(set(wanted['check']) < set(wanted['run']), 'the options of the help', wanted)
    for name, command, found in options_written():
        there = wanted[command] if None not in found.values() else dict.fromkeys(wanted[command])
        count.expect(found == there, f'{name}, {command}', difference(found, there))
    limits = {name: (number(least), number(most))
              for name, least, most in re.findall(r'^\| (\w+)[\w ]* \| ([\d,]+) \| ([\d,]+) \|$', read('docs/FORMATS.md'), re.M)}
    for name, (least, most, _) in wanted['run'].items():
        count.expect(limits.get(name) == (least, most), f'the limits of FORMATS, {name}', difference(limits.get(name), (least, most)))
        ranges(count, gate, name, least, most)


def ranges(count, gate, name, least, most):
    """The program at the borders of an option: a number is refused before a file is missed."""
    for value, status in ((least, 74), (most, 74), (least - 1, 64), (most + 1, 64)):
        ended = run(gate, 'run', 'no/such/module', 'no/such/calls', f'--{name}={value}')
        count.expect(ended.returncode == status, f'--{name}={value}', ended)


def limits_of_hosts():
    """Of each text that hosts go by the limits of a call: name, least, greatest and default, with nothing where it does not tell one."""
    told = r'(?:at most|(\d+) to)\s([\d,]+)'
    yield 'gate.h', numbers_of(rf'uint32_t (\w+); +/\* {told} \*/', between(read('include/gate.h'), 'struct gate_settings {', '}'))
    yield 'gate.3', numbers_of(rf'^\.Va (fuel|frames|pages)\n(?:is )?{told}', read('man/gate.3'))
    for path, greatest, usual in (
            ('examples/rust/src/settings.rs', r'MOST_(\w+): u32 = ()([\d_]+);', r'^ +(fuel|frames|pages): ([\d_]+),$'),
            ('examples/go/settings.go', r'Most(\w+) += ()([\d_]+)$', r'(Fuel|Frames|Pages): ([\d_]+)'),
            ('examples/python/gate/settings.py', r"'(\w+)': \((\d), ([\d_]+)\)", r'^    (\w+): int = ([\d_]+)$'),
            ('examples/c/worker.c', r'limits\.(\w+) = number_of\(next, ()(\d+)\)', r'\.(fuel|frames|pages) = (\d+)'),
            ('examples/node/index.d.ts', r'(\w+)\?: number; // (\d+) to ([\d,]+);', r'(\w+)\?: number; // .*; default ([\d,]+)$')):
        text = read(path)
        defaults = {name.lower(): number(default) for name, default in re.findall(usual, text, re.M)}
        yield path, {name: (least, most, defaults.get(name)) for name, (least, most, _) in numbers_of(greatest, text).items()}


def numbers_of(pattern, text):
    """What a pattern of a name, a least number, which may be missing, and a greatest one finds in a text."""
    found = re.findall(pattern, text, re.M)
    return {name.lower(): (number(least) if least else None, number(most), None) for name, least, most in found}


def hosts(count, gate):
    wanted = {name: numbers for name, numbers in options_of_help(gate, 'run').items() if name in LIMITS}
    for path, told in limits_of_hosts():
        agree = all(one in (None, other) for name in told for one, other in zip(told[name], wanted[name]))
        count.expect(set(told) == set(LIMITS) and agree, f'the limits of {path}', difference(told, wanted))
    usual = [wanted[name][2] for name in LIMITS]
    for path, names in (('include/gate.hpp', 'usual'), ('examples/node/addon.c', 'SETTINGS'), ('examples/c/call.c', 'SETTINGS')):
        found = re.search(rf'gate_settings {names} = \{{(.*?)\}}', read(path))
        count.expect(found and list(map(int, re.findall(r'\d+', found[1]))) == usual, f'the defaults of {path}', found and found[0])
    codes = {name: int(code) for name, code in re.findall(r'^    (GATE_\w+) = (\d+),?', between(
        read('include/gate.h'), 'enum gate_status {', '};'), re.M)}
    listed = {name: int(code) for name, code in re.findall(r'^\.It Dv (GATE_\w+) No \((\d+)\)$', read('man/gate.3'), re.M)}
    count.expect(codes == listed and len(codes) == 10, 'the statuses of gate.h and of gate.3', difference(listed, codes))


def tables(section):
    """The cells of the rows that stand in a section of FORMATS, but the heads."""
    rows = re.findall(r'^\| (.*) \|$', between(read('docs/FORMATS.md'), f'\n## {section}\n', '\n## '), re.M)
    return [row.split(' | ') for row in rows if not re.match('line|answer|reason|status|-', row)]


def in_words(text):
    """The words of a text, each between blanks, in small letters."""
    return f" {' '.join(re.findall('[a-z-]+', text.lower()))} "


def lines(count, gate):
    page = in_words('\n'.join(MACROS.sub(' ', line) for line in read('man/gate.1').splitlines()))
    written = [it for section in SECTIONS for row in tables(section) for it in re.findall('`([^`]+)`', row[0])]
    written += re.findall('`([a-z-]+)`', next(row[1] for row in tables('The report') if 'trap KIND' in row[0]))
    count.expect(len(written) > 30, 'the lines of FORMATS', written)
    for line in written:
        count.expect(in_words(line) in page, f'{line} in gate.1')
    formats, plain = (' '.join(text.split()) for text in (
        read('docs/FORMATS.md'), ' '.join(MACROS.sub(' ', line) for line in read('man/gate.1').splitlines())))
    for amount in re.findall(r'\b\d[\d,]*,\d{3} (?:bytes|locals|entries)', plain):
        count.expect(amount in formats, f'{amount} of gate.1 in FORMATS')
    verdicts = {row[0].strip('`') for row in tables('The verdict line')}
    helped = set(re.findall(r'^    (accepted|refused(?: \S+)+)  ', run(gate, 'check', '--help').stdout, re.M))
    count.expect(verdicts == helped, 'the verdicts of the help and of FORMATS', difference(helped, verdicts))
    statuses = {row[0] for row in tables('Status and standard error')}
    listed = set(re.findall(r'^\.It (\d+)$', read('man/gate.1'), re.M))
    count.expect(statuses == listed and '70' in listed, 'the statuses of gate.1 and of FORMATS', difference(listed, statuses))


def main(gate):
    count = Count('manual')
    options(count, gate)
    flags(count, gate)
    hosts(count, gate)
    lines(count, gate)
    return count.status()


if __name__ == '__main__':
    sys.exit(main(program(__doc__)))
