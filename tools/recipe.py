"""Says whether a new instruction stands in every place that the recipe names: crates/wsyntax/README.md.

    $ python3 -m tools.recipe I64Extend32U                   an operator, beside I64Extend32S
    $ python3 -m tools.recipe MemoryMost --like MemoryGrow   another instruction, beside one that resembles it

It compares with a relative, which already stands everywhere: in each file that has a name of the relative (I64Extend32S, I64_EXTEND32_S,
i64.extend32_s) the same form of the new name has to stand. The other files of a step, and something in each folder that it names, have to
differ from the commit --base in more than imports; those that are asked for only `where` something holds are told apart. With --check it
is the recipe that is held to the relatives: each file in which one stands has to be in a step, and each path of a step has to be there.
"""
import os
import re
import subprocess
import sys

from tools.arguments import parser
from tools.files import ROOT, read

RECIPE = 'crates/wsyntax/README.md'
# The heading of each recipe, and a relative that its steps are held to.
OPERATOR, OTHER = 'Add a numeric operator', 'Add another instruction'
RELATIVES = {OPERATOR: 'I64Extend32S', OTHER: 'MemoryGrow'}
# What has a prefix of its own in the text format.
TYPED = re.compile(r'(I32|I64|F32|F64|Memory|Local|Global)([A-Z].*)')
# Where a name stands for another reason than a step: edits of single functions, modules that use an instruction, what is measured.
ELSEWHERE = ('bench/results/', 'bench/LAB.md', 'bench/interpreter.c', 'bench/kernels.wat', 'CHANGELOG.md', 'docs/', 'examples/',
             'tests/instances', 'tests/interface', 'tests/explain', 'tests/wrong_', RECIPE, 'tools/recipe.py')
# What stands there of a relative alone: theorems on growth.
OWN = {name: {'crates/soundness/specs/Growth.antt'} for name in ('MemoryGrow', 'MemorySize')}
# What brings names in: no place in which an instruction stands. In Rattle it may have several lines.
IMPORTS = {'.rt': re.compile(r'^\s*(pub )?(ghost )?use [^;]*;', re.M), '.antt': re.compile(r'^use .*', re.M)}
COMMENT = re.compile(r'\s*(//|--|#).*')
CLAUSE = re.compile(r'(?<=[;.])\s|\n   - ')
PATH = re.compile(r'`([\w./-]+)`|(?<![\w`/])((?:[\w-]+/)+[\w.-]+\w|[A-Z]+\.md)')
PARTS, ENDINGS = ('', 'src', 'specs', 'proofs'), ('', '.rt', '.antt')


def snake(name):
    return re.sub(r'(?<!^)(?=[A-Z])', '_', name).lower()


def forms(name):
    """The name in code, as a constant, and in the text format."""
    typed = TYPED.fullmatch(name)
    text = f'{snake(typed[1])}.{snake(typed[2])}' if typed else snake(name)
    return [name, snake(name).upper(), text]


def places(form):
    """The files in which a form of a name stands as a word, other than in a comment, and not as a call of a method."""
    pattern = rf'(?<!\w){re.escape(form)}(?![\w(])' if '.' in form else rf'(?<!\w){form}(?!\w)'
    found = subprocess.run(['git', 'grep', '-P', pattern], cwd=ROOT, capture_output=True, text=True)
    lines = (line.split(':', 1) for line in found.stdout.splitlines())
    return {path for path, line in lines if not path.startswith(ELSEWHERE) and '/must-fail/' not in path and not COMMENT.fullmatch(line)}


def said_by_git(*words):
    return subprocess.run(['git', *words], cwd=ROOT, capture_output=True, text=True, check=True).stdout


def changed(base):
    """The files that differ from a commit in more than imports, and those that git does not track yet."""
    found = set(said_by_git('ls-files', '--others', '--exclude-standard').split())
    for line in said_by_git('diff', '--name-status', '--no-renames', base).splitlines():
        status, path = line.split('\t', 1)
        imports = IMPORTS.get(os.path.splitext(path)[1])
        if status != 'M' or not imports or beside(imports, said_by_git('show', f'{base}:{path}')) != beside(imports, read(path)):
            found.add(path)
    return found


def beside(imports, text):
    """The lines of a text that are neither imports nor empty."""
    return [line for line in imports.sub('', text).splitlines() if line.strip()]


def paths_of(text):
    """The files and folders that a text names, each with whether it is asked for always, and what looks like a path and is none. What comes
    later in the text stands in a crate, or in a folder, that was named before."""
    found, lost, bases = {}, [], ['', 'crates']
    for clause in CLAUSE.split(text):
        for word in PATH.findall(clause):
            name = word[0] or word[1]
            tried = (os.path.normpath(os.path.join(base, part, name + ending))
                     for base in reversed(bases) for part in PARTS for ending in ENDINGS)
            path = next((it for it in tried if os.path.exists(os.path.join(ROOT, it))), None)
            if path is None:
                lost += [name] if '/' in name or name.endswith(('.rt', '.py', '.md')) else []
            else:
                found[path] = found.get(path, False) or not re.search(r'\bwhere\b', clause)
                folder = path if os.path.isdir(os.path.join(ROOT, path)) else os.path.dirname(path)
                bases += [it for it in ('/'.join(folder.split('/')[:2]), folder) if it.startswith('crates/')]
    return found, lost


class Step:
    def __init__(self, text):
        self.name = ' '.join(re.match(r'\d+\. \*\*(.*?)\*\*', text, re.DOTALL)[0].replace('*', '').split()).rstrip('.:')
        self.is_conditional = re.match(r'\d+\. \*\*(Where|One that)', text) is not None
        self.paths, self.lost = paths_of(text)

    def names(self, path):
        """Whether a file is one of the step, or in a folder that it names; a whole crate is too much."""
        return any(path == it or path.startswith(it + '/') and it.count('/') > 1 for it in self.paths)

    def left(self, done):
        """The files of the step that are not among these, and its folders with none of them, each with whether it is asked for always. A
        whole crate, or all of its code or proofs, is no folder of the step."""
        inside = {folder for path in done for folder in parents(path)}
        return {path: is_sure and not self.is_conditional for path, is_sure in self.paths.items()
                if path not in done | inside and (os.path.isfile(os.path.join(ROOT, path)) or path.count('/') > 2)}


def parents(path):
    """The folders above a path."""
    parts = path.split('/')
    return ['/'.join(parts[:count]) for count in range(1, len(parts))]


def steps(recipe):
    text = read(RECIPE).split(f'\n## {recipe}\n')[1].split('\n## ')[0]
    found = [Step(it) for it in re.split(r'\n(?=\d+\. \*\*)', text) if re.match(r'\d+\. ', it)]
    # Another instruction goes through the last steps of an operator too.
    return found + (steps(OPERATOR)[-2:] if recipe == OTHER else [])


def check():
    """What the recipes lack, a line each."""
    faults = []
    for recipe, relative in RELATIVES.items():
        taken = steps(recipe)
        faults += [f'{recipe}, {step.name}: {path} is not there' for step in taken for path in step.lost]
        standing = sorted(set().union(*map(places, forms(relative))) - OWN.get(relative, set()))
        faults += [f'{recipe}: {path} has {relative}, and no step names it' for path in standing if not any(it.names(path) for it in taken)]
    return faults


def missing(name, relative, recipe, base):
    """The places that a new name lacks, and those that may not be asked for."""
    faults, notes, taken = [], [], steps(recipe)
    for form, old in zip(forms(name), forms(relative)):
        for path in sorted(places(old) - places(form) - OWN.get(relative, set())):
            step = next((it.name for it in taken if it.names(path)), 'no step')
            faults.append(f'{path} has {old}, and not {form} ({step})')
    done, left = changed(base).union(*map(places, forms(relative))), {}
    for step in taken:
        # A place that an earlier step asks for only where something holds is asked for here all the same.
        sure = {path for path, (_, is_sure) in left.items() if is_sure}
        left |= {path: (step.name, is_sure) for path, is_sure in step.left(done | sure).items() if is_sure or path not in left}
    faults += [f'{path} is as it was ({name})' for path, (name, is_sure) in left.items() if is_sure]
    for step in taken:
        unsure = [path for path, (name, is_sure) in left.items() if name == step.name and not is_sure]
        notes += [f'{step.name}: {", ".join(unsure)}'] if unsure else []
    return list(dict.fromkeys(faults)), notes


def main(words):
    if words.check:
        faults, notes = check(), []
    else:
        relative = words.like or RELATIVES[OPERATOR]
        if not places(relative):
            sys.exit(f'recipe.py: {relative} stands nowhere; it is the name of a relative in the code')
        is_operator = relative in read('crates/wsyntax/src/operator_rows.rt')
        faults, notes = missing(words.name, relative, OPERATOR if is_operator else OTHER, words.base)
    if notes:
        print('As it was, and asked for only where something holds:', *(f'    {it}' for it in notes), sep='\n')
    print(*faults, f'{len(faults)} ' + ('faults' if words.check else 'places are missing'), sep='\n')
    return 1 if faults else 0


if __name__ == '__main__':
    taken = parser(__doc__)
    taken.add_argument('name', metavar='NAME', nargs='?', help='the new instruction, by its name in the code')
    taken.add_argument('--like', metavar='NAME', help=f'the relative (default: {RELATIVES[OPERATOR]})')
    taken.add_argument('--base', metavar='COMMIT', default='HEAD', help='what it was added to (default: HEAD)')
    taken.add_argument('--check', action='store_true', help='hold the recipe to the relatives')
    chosen = taken.parse_args()
    if not chosen.name and not chosen.check:
        taken.error('NAME is missing')
    if chosen.name and not re.fullmatch(r'[A-Z]\w*', chosen.name):
        taken.error(f'{chosen.name} is no name in the code, such as {RELATIVES[OPERATOR]}')
    sys.exit(main(chosen))
