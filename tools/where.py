"""Says where a word of a contract is defined, with its comment and its text, and which contracts and laws speak of it.

    $ python3 -m tools.where IsVerdict

A word is a definition, a record, a data type or a constructor of one. It reads the specs/ and the src/ of all crates. A word that several
crates define is told of each. Where no crate defines it, it says which items of src/ have the name, and the status is 1.
"""
import collections
import glob
import os
import re
import signal
import sys

from tools import files
from tools.arguments import parser

# A definition begins at the margin: its kind, modifiers, and its name; an equation of it, a law or a function has its name alone.
HEAD = re.compile(r'^(?:(?:unfoldable|abbrev|data|record|newtype|pub) )*(\S+?)(?= [:({]|$)')
# What lines at the margin are no definitions.
PASSED_OVER = ('use ', '--', ' ', 'pub mod ', 'infix', 'mutual', '}')
# A line of a data type or a record that declares what it has: the constructors, or a field, before a colon.
DECLARES = re.compile(r'^  (?:pub )?((?:[^\s(:{]+ )+): ')
FUNCTION = re.compile(r'^\s*(?:pub(?:\([^)]*\))? )?(?:const )?(?:unsafe )?fn (\w+)')
GHOST = re.compile(r'^\s*(?:pub(?:\([^)]*\))? )?ghost (\w+):')
ITEM = r'^\s*(?:pub(?:\([^)]*\))? )?(?:const |unsafe )*(?:fn|struct|enum|trait|type|const|static|macro_rules!) {}\b'
SHOWN = 12

# A definition: its file, its line, its name, the constructors that it has, the comment above it and its text.
Definition = collections.namedtuple('Definition', 'path line name constructors comment text')


def lines_of(path):
    return files.read(path).splitlines()


def found(pattern):
    return sorted(os.path.relpath(it, files.ROOT) for it in glob.glob(os.path.join(files.ROOT, 'crates', pattern), recursive=True))


def whole_word(name):
    return re.compile(rf'(?<![\w.])({re.escape(name)})(?!\w)')


def comment_above(lines, number):
    """The lines of comment that stand right above a line."""
    first = number
    while first and lines[first - 1].startswith('--'):
        first -= 1
    return lines[first:number]


def text_from(lines, number):
    """A definition, up to the next line that is empty or a comment."""
    last = number + 1
    while last < len(lines) and lines[last].strip() and not lines[last].startswith('--'):
        last += 1
    return lines[number:last]


def constructors_of(text):
    """The names that a data type declares; a record has fields, which are no words of their own."""
    declared = (DECLARES.match(line) for line in text[1:] if re.match(r'(?:unfoldable )?(?:pub )?data ', text[0]))
    return [name for it in declared if it for name in it[1].split()]


def definitions():
    """All definitions of all crates, each once: equations further down are of the one above."""
    for path in found('*/specs/**/*.antt'):
        lines, names = lines_of(path), set()
        for number, line in enumerate(lines):
            head = HEAD.match(line) if line.strip() and not line.startswith(PASSED_OVER) else None
            if head and head[1] not in names:
                names.add(head[1])
                text = text_from(lines, number)
                yield Definition(path, number + 1, head[1], constructors_of(text), comment_above(lines, number), text)


def contract_lines(path):
    """The lines of contracts: each with its number, and the function, or the ghost field, that it is of."""
    owner, has_clause = None, False
    for number, line in enumerate(lines_of(path), 1):
        bare = line.strip()
        if bare.startswith('//'):
            continue
        begins = FUNCTION.match(line) or GHOST.match(line)
        if begins:
            owner, has_clause = (number, begins[1]), bool(GHOST.match(line))
        elif not bare or bare.startswith(('ghost use', '#[')):
            owner = None
        has_clause = has_clause or bare.startswith(('requires', 'ensures'))
        if owner and has_clause:
            yield *owner, line
        if bare == '{' or bare.endswith((' {', '}', ';')) and begins and not GHOST.match(line):
            owner = None


def functions(name):
    """The functions whose contracts have the word: file, line, function."""
    word = whole_word(name)
    return [(path, number, function) for path in found('*/src/**/*.rt') for number, function, line in contract_lines(path)
            if word.search(line)]


def speaks(definition, word):
    return any(word.search(line) for line in definition.text)


def items(name):
    """The items of src/ that have the name."""
    item = re.compile(ITEM.format(re.escape(name)))
    return [(path, number, line.strip()) for path in found('*/src/**/*.rt') for number, line in enumerate(lines_of(path), 1)
            if item.match(line)]


def show(title, places, is_all):
    places = list(dict.fromkeys(places))
    if places:
        print(f'\n{title}:')
    for path, line, name in places if is_all else places[:SHOWN]:
        print(f'    {path}:{line}: {name}')
    if len(places) > SHOWN and not is_all:
        print(f'    and {len(places) - SHOWN} more: --all')


def main(name, is_all):
    word, every = whole_word(name), list(definitions())
    defined = [it for it in every if name == it.name or name in it.constructors]
    for it in defined:
        print('\n'.join([f'{it.path}:{it.line}', *(f'    {line}' for line in it.comment + it.text)]))
    if not defined:
        print(f'{name}: no definition in the specs/ of a crate has this name; `rt lemma {name}` asks the library of the toolchain')
        show('items of src/ that have it', items(name), is_all)
    show('contracts that say it', functions(name), is_all)
    others = (it for it in every if it not in defined and speaks(it, word))
    show('definitions and laws that say it', [(it.path, it.line, it.name) for it in others], is_all)
    return 0 if defined else 1


if __name__ == '__main__':
    # A reader of the output that ends, as `head`, ends this too.
    signal.signal(signal.SIGPIPE, signal.SIG_DFL)
    taken = parser(__doc__)
    taken.add_argument('name', metavar='NAME', help='the whole word')
    taken.add_argument('--all', action='store_true', help='all places, however many')
    words = taken.parse_args()
    sys.exit(main(words.name, words.all))
