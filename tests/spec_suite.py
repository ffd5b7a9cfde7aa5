"""Runs the official test suite of WebAssembly through the program.

FOLDER holds scripts of the suite (.wast), WORD is a part of the name of those to try. `wast2json` and `wasm-objdump` (wabt)
turn a script into modules and commands; where they or the scripts are missing, a line says so and nothing is tried. Debian has
wabt as a package, and the scripts in test/spec of the sources of binaryen.

modules    `check` must accept those that the suite holds for valid, also where they cannot be linked or started; of invalid
           ones a rule must be broken or a body ill typed; of malformed bytes the module or a body must be malformed.
actions    A call must end as its assertion says. `run` has an instance for each call, and the suite one for each module: so an
           action is compared where none before it may have written (a store, a growth of the memory, a global that is set), or
           where it sees nothing of that, by the instructions that it can reach. Those on registered modules, to which other
           modules can write, are left out. Where only floats keep a module from being run, what names a float in it is emptied,
           and what then has no type, and the others are tried.
What is not tried is counted by its reason: text that wast2json refuses with the features off that GATE does not have, from
there to the next module; malformed text; modules that are not run.
"""
import glob
import json
import os
import re
import shutil
import subprocess
import sys
import tempfile
from collections import Counter

from tools.arguments import parser

OFF = ['--disable-' + it for it in ('saturating-float-to-int', 'simd', 'bulk-memory', 'reference-types')]
SETTINGS = ['--fuel', '10000000', '--frames', '4096', '--pages', '1024']
VERDICTS = {'module': 'accepted', 'assert_unlinkable': 'accepted', 'assert_uninstantiable': 'accepted',
            'assert_invalid': r'refused (rule \d+|body \d+ ill-typed at \d+)',
            'assert_malformed': r'refused (malformed|body \d+ malformed)'}
# The texts of the suite, of which older scripts have the beginning, and newer ones have more at the end.
TRAPS = {'integer divide by zero': 'divide-by-zero', 'integer overflow': 'integer-overflow', 'unreachable': 'unreachable',
         'out of bounds memory access': 'out-of-bounds', 'undefined element': 'undefined-element',
         'uninitialized element': 'uninitialized-element', 'indirect call type mismatch': 'type-mismatch'}
COMPARED = {'assert_return': 'values', 'assert_trap': 'traps', 'assert_exhaustion': 'exhausted calls', 'action': 'other calls'}
WRITTEN = 'an earlier action may have written'
WRITES, SEES = r'.*\.store\d*|memory\.grow|global\.set', r'.*\.(load|store)\w*|memory\..*|global\..*'
ERROR = re.compile(r':(\d+):\d+: error: (.*)')
EXPORT = re.compile(r'\(export "[^"]*" \(\w+ (\$[^\s()]+)\)\)')
NAN = re.compile(r'\(\s*assert_return_(canonical_|arithmetic_)?nan\b')
STRING = r'"(?:[^"\\]|\\.)*"'
MODULE = re.compile(r'\(\s*module\b')
DEFINITION = re.compile(r'\(\s*(\w+)\s*(\$[^\s()]+)?')
# What stands in the place of a definition that has floats.
EMPTY = {'func': '', 'type': '(func)', 'global': 'i32 (i32.const 0)'}
TOKEN = re.compile(r';;[^\n]*|\(;|;\)|' + STRING + '|[()]', re.DOTALL)


def output_of(words):
    ran = subprocess.run(words, capture_output=True, timeout=600)
    return ran.stdout.decode(errors='replace'), ran.returncode, ran.stderr.decode(errors='replace')


def forms_of(text):
    """Where each outermost form of a script begins and ends."""
    depth = comments = first = 0
    for token in TOKEN.finditer(text):
        if token[0] in ('(;', ';)'):
            comments += 1 if token[0] == '(;' else -1
        elif comments == 0 and token[0] == '(':
            first = first if depth else token.start()
            depth += 1
        elif comments == 0 and token[0] == ')':
            depth -= 1
            if depth == 0:
                yield first, token.end()


def left_out(text, forms, bad):
    """The form `bad`, and those that have no sense without it: after a module its actions, after an action those that may see what
    it writes."""
    spelled = [text[first:end] for first, end in forms]
    is_module = MODULE.match
    if not is_module(spelled[bad]) and '(module' in spelled[bad]:
        return [bad]
    later = range(bad + 1, len(forms))
    is_anywhere = not is_module(spelled[bad]) and '$' in spelled[bad]
    end = len(forms) if is_anywhere else next((it for it in later if is_module(spelled[it])), len(forms))
    return [bad] + [it for it in later if it < end and '(module' not in spelled[it]]


def lines_of(text, first, end):
    return range(text.count('\n', 0, first) + 1, text.count('\n', 0, end) + 2)


def blank(text, forms):
    for first, end in forms:
        text = text[:first] + re.sub(r'[^\n]', ' ', text[first:end]) + text[end:]
    return text


def refused(text, forms, error):
    """The forms that wast2json names in what it says, by their numbers, each with the reason."""
    lines = [lines_of(text, first, end) for first, end in forms]
    for line, why in re.findall(ERROR, error):
        for number, it in enumerate(lines):
            if int(line) in it and text[forms[number][0]] == '(':
                reason = re.split('["@,:(]', why)[0].strip()
                yield number, 'unexpected token' if reason.startswith('unexpected token') else reason


def convert(text, target):
    """What wast2json says of a script that it refuses, else nothing."""
    source = target + '.wast'
    with open(source, 'w', encoding='latin-1', newline='') as file:
        file.write(text)
    _, status, error = output_of(['wast2json', *OFF, source, '-o', target])
    return error if status else ''


def commands_of(text, target, skipped):
    """The commands of a script, of which those are blank that wast2json refuses."""
    forms = list(forms_of(text))
    of_nan = [(first, end) for first, end in forms if NAN.match(text, first)]
    skipped['floats'] += len(of_nan)
    text = blank(text, of_nan)
    while any(text[first] == '(' for first, _ in forms):
        error = convert(text, target)
        if not error:
            with open(target, encoding='utf-8') as file:
                return json.load(file)['commands']
        bad = list(refused(text, forms, error))
        if not bad:
            skipped[f'whole script, wast2json: {error.strip()}'] += 1
            return []
        for number, why in bad:
            out = [forms[it] for it in left_out(text, forms, number) if text[forms[it][0]] == '(']
            skipped[f'wast2json: {why}'] += len(out)
            text = blank(text, out)
    return []


def without_floats(text, lines):
    """A script in whose modules the definitions are empty that have floats, or stand on one of these lines, and the lines of these
    modules. Nothing else moves to another line, or gets another index."""
    changed = set()
    for first, end in [it for it in forms_of(text) if MODULE.match(text, it[0])][::-1]:
        module, gone = text[first:end], set()
        for begin, to in list(forms_of(module[1:-1]))[::-1]:
            spelled = module[begin + 1:to + 1]
            kind, name = DEFINITION.match(spelled).groups()
            has_floats = re.search(r'\bf(32|64)\b', re.sub(STRING, '', spelled))
            if kind in EMPTY and (has_floats or lines & set(lines_of(text, first + 1 + begin, first + 1 + to))):
                gone.add(name)
                new = f"({kind} {name or ''} {EMPTY[kind]})" + '\n' * spelled.count('\n')
                module = module[:begin + 1] + new + module[to + 1:]
        if gone:
            changed.add(text.count('\n', 0, first) + 1)
            text = text[:first] + EXPORT.sub(lambda it: '' if it[1] in gone else it[0], module) + text[end:]
    return text, changed


def cut(text, target):
    """The modules of a script without what has floats, by their lines."""
    lines = set()
    while True:
        shorter, changed = without_floats(text, lines)
        if not changed:
            return {}
        found = {int(line) for line, _ in re.findall(ERROR, convert(shorter, target))} - lines
        if not found:
            break
        lines |= found
    commands = commands_of(shorter, target, Counter())
    return {it['line']: it['filename'] for it in commands if it['type'] == 'module' and it['line'] in changed}


def reaching(pattern, code, listed):
    """The functions that have an instruction of this pattern, themselves or by what they call; a call through the table may be
    one of any function that an element segment lists."""
    found, before = {it for it in code if any(re.fullmatch(pattern, name) for name, _ in code[it])}, None
    while before != len(found):
        before = len(found)
        for function, instructions in code.items():
            called = {int(number) for name, number in instructions if name == 'call'}
            called |= listed if any(name == 'call_indirect' for name, _ in instructions) else set()
            found |= {function} if called & found else set()
    return found


def objdump(module):
    """The bodies of a module as text, and its other parts."""
    return [output_of(['wasm-objdump', it, module])[0] for it in ('-d', '-x')]


def state_of(bodies, details):
    """The exported functions by their names, each with whether it may write what stays after a call, and whether it may see it."""
    parts = re.split(r'^[0-9a-f]+ func\[', bodies, flags=re.MULTILINE)[1:]
    code = {int(it.split(']', 1)[0]): re.findall(r'\| +([a-z][\w.]*)(?: (\d+))?', it) for it in parts}
    listed = {int(it) for it in re.findall(r'^  - elem\[\d+\] = func\[(\d+)\]', details, re.MULTILINE)}
    writers, readers = reaching(WRITES, code, listed), reaching(SEES, code, listed)
    exports = re.findall(r'^ - func\[(\d+)\].*-> "(.*)"$', details, re.MULTILINE)
    return {name: (int(number) in writers, int(number) in readers) for number, name in exports}


def number_of(value):
    """A word of the suite, which has no sign, as the program reads and writes it."""
    bits, word = int(value['type'][1:]), int(value['value'])
    return f"{value['type']}:{word - (1 << bits) if word >> (bits - 1) else word}"


def wanted_of(command):
    """The end of a call, as an expression."""
    if command['type'] == 'assert_return':
        return re.escape(' '.join(['values', ','.join(map(number_of, command['expected']))]).strip())
    if command['type'] == 'assert_trap':
        kinds = [kind for text, kind in TRAPS.items() if text.startswith(command['text']) or command['text'].startswith(text)]
        return f"trap ({'|'.join(kinds)})" if kinds else 'no trap of the program'
    return 'out-of-fuel|out-of-frames' if command['type'] == 'assert_exhaustion' else 'values.*'


def beyond(command, module):
    """Which feature that GATE does not have a module of the suite uses although wast2json takes it, or which of GATE's it forbids."""
    text = output_of(['wasm-objdump', '-x', module])[0]
    if re.search(r'^ - memory\[.*\bi64\b', text, re.MULTILINE):
        return 'memory of 64-bit addresses'
    if VERDICTS[command['type']] == 'accepted' and len(re.findall(r'^ - table\[', text, re.MULTILINE)) > 1:
        return 'several tables'
    if command['type'] == 'assert_invalid' and command['text'] == 'invalid result arity':
        return 'several results, which Core 1.0 forbids'
    return None


class Instance:
    """A module of a script that was accepted, and the actions on it."""

    def __init__(self, path, without_floats):
        self.path, self.without_floats, self.actions = path, without_floats, []
        bodies, details = objdump(path)
        self.state = state_of(bodies, details)
        self.is_changed = self.is_registered = False
        unnamed = re.sub('<.*?>|"[^"]*"', '', bodies + details)
        self.unstarted = {'not-started memory-limit', 'not-started table-limit'}
        self.unstarted |= {'not-started imports'} if '\nImport[' in details else set()
        self.unstarted |= {'not-started floats'} if re.search(r'\bf(32|64)\b', unnamed) else set()

    def add(self, command):
        """Keeps an action, with the reason not to compare it, where there is one."""
        action = command['action']
        may_write, may_see = self.state.get(action['field'], (True, True))
        words = [*action.get('args', []), *(command['expected'] if command['type'] == 'assert_return' else [])]
        reason = None
        if action['type'] != 'invoke':
            reason = 'a global that is read'
        elif any(it['type'] not in ('i32', 'i64') for it in words):
            reason = 'floats'
        elif re.search('[\t\n]', action['field']):
            reason = 'a name with a tab or newline'
        elif self.is_registered:
            reason = 'action on a registered module'
        elif self.is_changed and may_see:
            reason = WRITTEN
        self.actions.append((command, reason))
        self.is_changed |= action['type'] == 'invoke' and may_write


    def tried(self):
        return [it for it, reason in self.actions if reason in (None, WRITTEN)]

    def keep(self, names):
        """Leaves out the actions on other functions than these, which have no floats."""
        self.unstarted.discard('not-started floats')
        self.actions = [(it, reason if it['action']['field'] in names else 'floats') for it, reason in self.actions]


class Suite:
    """The program, and what its runs gave."""

    def __init__(self, program, folder):
        self.program, self.folder = program, folder
        self.counts, self.skipped, self.failed = Counter(), Counter(), 0

    def fail(self, place, wanted, got):
        self.failed += 1
        print(f'{place}: wanted {wanted}, got {str(got)[:200]}')

    def place(self, name):
        return os.path.join(self.folder, name)

    def judge(self, place, command):
        """Whether the module of a command is accepted, which is compared with what the suite says."""
        if command.get('module_type', 'binary') != 'binary':
            self.skipped['malformed text'] += 1
            return False
        module = self.place(command['filename'])
        text, status, error = output_of([self.program, 'check', module])
        line, wanted = text.removesuffix('\n'), VERDICTS[command['type']]
        if error or status != (0 if line == 'accepted' else 2) or not re.fullmatch(wanted, line):
            reason = beyond(command, module)
            if reason:
                self.skipped[reason] += 1
            else:
                self.fail(place, wanted, (text, status, error))
            return False
        self.counts['accepted' if line == 'accepted' else command['type']] += 1
        return line == 'accepted'

    def compare(self, place, command, end):
        wanted = wanted_of(command)
        if re.fullmatch(wanted, end):
            self.counts[COMPARED[command['type']]] += 1
        else:
            self.fail(f"{place}:{command['line']}", wanted, end)

    def ends(self, place, module, commands):
        """How actions end, as one text of calls."""
        calls = self.place('calls')
        with open(calls, 'w', encoding='utf-8') as file:
            file.writelines('\t'.join([it['action']['field'], *map(number_of, it['action']['args'])]) + '\n' for it in commands)
        text, status, error = output_of([self.program, 'run', module, calls, *SETTINGS])
        ends = re.findall(r'^\d+ (.*?)(?: fuel \d+)?$', text, re.MULTILINE)
        if status or error or len(ends) != len(commands):
            self.fail(f'{place}, the calls of {os.path.basename(module)}', f'{len(commands)} lines', (text, status, error))
        return dict(zip(map(id, commands), ends))

    def call(self, place, instance):
        """Runs the actions on a module, or on what it has without floats, and compares their ends."""
        ends = self.ends(place, instance.path, instance.tried())
        if instance.without_floats and 'not-started floats' in ends.values():
            instance.keep(state_of(*objdump(instance.without_floats)))
            ends = self.ends(place, instance.without_floats, instance.tried())
        for command, reason in instance.actions:
            end = ends.get(id(command), '')
            if end in instance.unstarted:
                self.skipped[end.removeprefix('not-started ')] += 1
            elif reason is not None:
                self.skipped[reason] += 1
            elif end:
                self.compare(place, command, end)

    def run(self, path):
        """Runs a script."""
        name, instances, named, last = os.path.basename(path), [], {}, None
        with open(path, encoding='latin-1', newline='') as file:
            text = file.read()
        shorter = cut(text, self.place('cut.json'))
        for command in commands_of(text, self.place('script.json'), self.skipped):
            action = command.get('action', command)
            if command['type'] in VERDICTS:
                is_accepted = self.judge(f"{name}:{command['line']}", command)
                if command['type'] == 'module':
                    short = shorter.get(command['line'])
                    last = Instance(self.place(command['filename']), short and self.place(short)) if is_accepted else None
                    instances += [last] if last else []
                    named[command.get('name')] = last
                continue
            instance = named.get(action[key]) if (key := 'name' if action is command else 'module') in action else last
            if instance is None:
                self.skipped['action on a module that is not accepted'] += 1
            elif command['type'] == 'register':
                instance.is_registered = True
            else:
                instance.add(command)
        for instance in instances:
            if instance.actions:
                self.call(name, instance)


def missing(words):
    """What is not at hand, or None."""
    for program in ('wast2json', 'wasm-objdump'):
        if shutil.which(program) is None:
            return f'{program} is missing'
    return None if glob.glob(os.path.join(glob.escape(words.suite), '*.wast')) else f'{words.suite} has no .wast files'


def main():
    taken = parser(__doc__)
    taken.add_argument('gate', metavar='GATE', help='the program')
    taken.add_argument('--suite', required=True, metavar='FOLDER', help='where the scripts stand')
    taken.add_argument('--only', default='', metavar='WORD', help='only those whose name has this word')
    words = taken.parse_args()
    reason = missing(words)
    if reason:
        print(f'suite: skipped, {reason}')
        return 0
    paths = sorted(it for it in glob.glob(os.path.join(glob.escape(words.suite), '*.wast')) if words.only in os.path.basename(it))
    with tempfile.TemporaryDirectory() as folder:
        suite = Suite(os.path.abspath(words.gate), folder)
        for path in paths:
            suite.run(path)
    counts = suite.counts
    print(f"{len(paths)} scripts: {counts['accepted']} modules accepted, {counts['assert_invalid']} refused as invalid, "
          f"{counts['assert_malformed']} as malformed")
    print('compared: ' + ', '.join(f'{counts[it]} {it}' for it in COMPARED.values()))
    for why, count in (+suite.skipped).most_common():
        print(f'skipped: {count} {why}')
    print(f'{counts.total()} passed, {suite.failed} failed')
    return 1 if suite.failed or not counts.total() else 0


if __name__ == '__main__':
    sys.exit(main())
