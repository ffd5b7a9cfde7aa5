"""Holds the documents to the rules of the house: how many words each may have, how long a sentence may be and how many numbers it
may hold, links and names of files that lead somewhere, and figures of speed and memory that stand in blocks made from a file.

Code, tables, headings and the targets of links are no sentences; an item of a list is a paragraph. Without FILE all documents are
read, and one that is missing is a fault. Of the man pages and the help of the program the sentences are read alone. Each fault is a
line: the file, the line, what is wrong.
"""
import collections
import fnmatch
import glob
import os
import re
import sys

from tools.arguments import parser

LONGEST_SENTENCE = 35
MOST_NUMBERS = 2
# The most words of each document, as `wc -w` counts: what it had on a day, and a fifth (README has two tables more since, CONTRIBUTING
# what goes by position and how an option without a number is added, FORMATS the instructions of an explanation and its keys as data).
# Past it a page wants a reason, or another page. None is no limit.
MOST_WORDS = {'README.md': 1000, 'CONTRIBUTING.md': 1900, 'CHANGELOG.md': None, 'docs/ARCHITECTURE.md': 2070, 'docs/PROVED.md': 1800,
              'docs/PROVING.md': 1200,
              'docs/DEFINITIONS.md': 5940, 'docs/DECISIONS.md': 2980, 'docs/FORMATS.md': 4300, 'docs/HOSTS.md': None,
              'docs/GUESTS.md': 1070, 'docs/SECURITY.md': 1200, 'docs/SPEED.md': 1560, 'bench/LAB.md': 3480,
              'crates/pieces/README.md': 1200, 'tools/editors/README.md': 340, 'tests/README.md': None, 'bench/README.md': None,
              'examples/README.md': None}
# Where a figure may be typed: what an operator plans with, and what trials gave.
FIGURES_ARE_TYPED = ('docs/SECURITY.md', 'bench/LAB.md')
FIGURE = re.compile(r'\d[\d.,]*(?:\s+to\s+\d[\d.]*)?\s+(?:[MG]B/s|[nuµ]s\b|lengths\b'
                    r'|times\s+(?:as\s+(?:fast|long)|faster|ordinary|generated))')

# Where the texts of help stand. Macros of man pages: words that are none of a sentence, and lines without one.
HELP = 'crates/command/src/commands.rt'
MACROS = re.compile(r'^\.\w\w\b|\b(?:Ar|Cm|Dv|Er|Ev|Fa|Fl|Fn|Ft|Li|Nm|No|Ns|Op|Pa|Pf|Ql|Vt|Va|Xr)\b')
NO_SENTENCE = ('Dd', 'Dt', 'Os', 'Nd', 'Pp', 'Bl', 'El', 'In', 'Fd')

MARK = re.compile(r'\s*<!-- (begin|end) ([\w-]+) -->\s*$')
ITEM = re.compile(r'\s*(?:[-*+]|\d+[.)])\s+')
LINK = re.compile(r'!?\[((?:[^\[\]]|\[[^\[\]]*\])*)\]\(([^()\s]*(?:\([^()\s]*\)[^()\s]*)*)(?:\s+"[^"]*")?\)')
CODE = re.compile(r'(`+)(?!`)(.+?)(?<!`)\1(?!`)', re.DOTALL)
SENTENCE_END = re.compile(r'(?<![\s.])[.!?][)\]"\'*_]*\s+(?=[(\["\'*_]*[A-Z0-9])')
ABBREVIATIONS = ('e.g.', 'i.e.', 'cf.', 'vs.', 'etc.')
# What is no figure: versions, places in the standard and numbers of rules.
REFERENCES = re.compile(r'\b(?:Core(?: Specification)?|[Cc]hapters?|[Ss]ections?|[Rr]ules?|[Vv]ersions?|glibc|[Nn]ode|wabt|Python|V8)'
                        r'\s+\d[\d.]*(?:(?:,|,?\s+(?:and|or|to))\s+\d[\d.]*)*|\d+\.\d+\.\d[\d.]*'
                        r'|\(\d\.\d+(?:(?:,|\s+and|\s+to)\s+\d\.\d+)*(?=[),;])')
NUMBER = re.compile(r'(?<![\w.^/-])\d[\d,]*(?:\.\d+)?(?:\^\d+)?(?![\w^]|-[a-z])')
# A path that stands in the text as it is.
PATH = re.compile(r'(?<![\w./-])[\w-]+(?:/[\w*-]+)+(?:\.\w+)*')
# Names that are held to stand for files, wherever the file lies; and folders that are made, whose files are not looked for.
EXTENSIONS = ('.py', '.rt', '.antt', '.md', '.tsv', '.svg', '.sh')
MADE = ('out', 'target')

# A stretch of a document: its first line, its lines in one text, whether it is a paragraph, a table or code, and whether it stands
# in a block that is made from a file.
Stretch = collections.namedtuple('Stretch', 'line text kind made')


def with_ends(lines):
    """Lines in which an item of a list within a sentence ends as a sentence does, and the next one begins with a capital: pages and help
    have such lists, and begin sentences with names in small letters."""
    joined = re.sub(r'[;:](?=\s|$)', '.', '\n'.join(lines))
    return re.sub(r'(?<=[^\s.][.!?])(\s+)([a-z])', lambda found: found[1] + found[2].upper(), joined)


def markdown_of_page(text):
    """A man page as a document with as many lines: blocks of code, items, paragraphs. Name and synopsis have no sentences."""
    lines, section, in_code = [], '', False
    for line in text.split('\n'):
        macro = line[1:3] if line.startswith('.') else ''
        if macro in ('Bd', 'Ed'):
            in_code = macro == 'Bd'
            lines.append('```')
        elif in_code:
            lines.append(line)
        elif macro in ('Sh', 'Ss'):
            section = line[4:] if macro == 'Sh' else section
            lines.append(f'# {line[4:]}')
        elif macro in NO_SENTENCE or section in ('NAME', 'SYNOPSIS') or line.startswith('.\\"'):
            lines.append('')
        else:
            words = re.sub(r' ([.,;:!?)]+)$', r'\1', MACROS.sub('', line.replace('.Nm', '.Nm gate')).strip())
            lines.append(f'- {words}' if macro == 'It' else words)
    return with_ends(lines)


def markdown_of_help(text):
    """The texts of help in the source of the commands, as a document with as many lines."""
    lines, in_text = [], False
    for line in text.split('\n'):
        short = re.search(r'(?:about\(|help\(|let help = |^ {8})"([^"]+)"', line)
        if in_text:
            lines.append(line.removesuffix('";').replace('\\"', '"'))
            in_text = not line.endswith('";')
        else:
            in_text = line.endswith('"\\')
            lines.append(f'- {short[1]}' if short else '')
    return with_ends(lines)


class Document:
    """A document as stretches, its headings as anchors."""

    def __init__(self, path, markdown_of=str):
        with open(path, encoding='utf-8') as file:
            self.text = markdown_of(file.read())
        self.stretches, self.headings = [], []
        self.lines, self.first, self.kind, self.made, self.margin, self.fence = [], 0, None, False, 0, None
        for number, line in enumerate(self.text.split('\n'), 1):
            self.take(number, line)
        self.end()

    def end(self):
        if self.lines:
            self.stretches.append(Stretch(self.first, '\n'.join(self.lines), self.kind, self.made))
        self.lines, self.kind = [], None

    def add(self, number, line, kind, joins=True):
        """Adds a line to the stretch that is open where it is of this kind, else opens one."""
        if self.kind != kind or not joins:
            self.end()
            self.first, self.kind = number, kind
        self.lines.append(line)

    def take(self, number, line):
        mark = MARK.match(line)
        indent = len(line) - len(line.lstrip())
        if self.fence or line.lstrip().startswith(('```', '~~~')):
            self.take_fenced(number, line)
        elif not line.strip():
            self.end()
        elif mark:
            self.end()
            self.made = mark[1] == 'begin'
        elif self.kind != 'paragraph' and indent >= self.margin + 4 or self.kind == 'code' and indent >= self.margin + 4:
            self.add(number, line, 'code')
        elif ITEM.match(line):
            self.margin = ITEM.match(line).end()
            self.add(number, line[self.margin:], 'paragraph', joins=False)
        else:
            self.take_flat(number, line)

    def take_fenced(self, number, line):
        begins = self.fence is None
        self.add(number, line, 'fence', joins=not begins)
        if begins:
            self.fence = line.lstrip()[:3]
        elif line.strip() == self.fence:
            self.fence = None
            self.end()

    def take_flat(self, number, line):
        """A line that is neither code nor the first of an item."""
        if not line[0].isspace() and self.kind is None:
            self.margin = 0
        if line.startswith('#'):
            self.end()
            self.headings.append(line.lstrip('#').strip())
        elif line.lstrip().startswith('|'):
            self.add(number, line, 'table')
        elif not line.lstrip().startswith('<!--'):
            self.add(number, line.lstrip('> '), 'paragraph')

    def anchors(self):
        """The anchors of its headings, as GitHub makes them."""
        found = collections.Counter()
        for heading in self.headings:
            words = LINK.sub(lambda link: link[1], heading).lower().replace(' ', '-')
            slug = ''.join(letter for letter in words if letter.isalnum() or letter in '-_')
            yield f'{slug}-{found[slug]}' if found[slug] else slug
            found[slug] += 1


def kept_lines(word):
    """What stands in place of a match: one word, and as many lines."""
    return lambda match: word + '\n' * match[0].count('\n')


def sentences(text):
    """The sentences of a paragraph, each with how many lines stand before it."""
    plain = LINK.sub(lambda link: link[1], CODE.sub(kept_lines('CODE'), text))
    begin = 0
    for end in SENTENCE_END.finditer(plain):
        if not plain[:end.end()].rstrip().endswith(ABBREVIATIONS):
            yield plain[begin:end.end()], plain[:begin].count('\n')
            begin = end.end()
    yield plain[begin:], plain[:begin].count('\n')


def long_sentences(document):
    for stretch in document.stretches:
        if stretch.kind == 'paragraph':
            for sentence, lines in sentences(stretch.text):
                words = [word for word in sentence.split() if any(map(str.isalnum, word))]
                begins = ' '.join(words[:6])
                if len(words) > LONGEST_SENTENCE:
                    yield stretch.line + lines, f'a sentence of {len(words)} words, over {LONGEST_SENTENCE}: "{begins} .."'
                numbers = NUMBER.findall(REFERENCES.sub(' ', sentence))
                if len(numbers) > MOST_NUMBERS and not stretch.made:
                    yield stretch.line + lines, f'a sentence with {len(numbers)} numbers, over {MOST_NUMBERS}: "{begins} .."'


def dead_links(document, folder):
    for stretch in document.stretches:
        if stretch.kind in ('paragraph', 'table'):
            plain = CODE.sub(kept_lines('CODE'), stretch.text)
            for link in LINK.finditer(plain):
                path, _, anchor = link[2].partition('#')
                target = os.path.join(folder, path)
                line = stretch.line + plain[:link.start()].count('\n')
                if re.match(r'[a-z]+:', link[2]):
                    continue
                if path and not os.path.exists(target):
                    yield line, f'a link to {link[2]}, which is not there'
                elif anchor and (not path or path.endswith('.md')):
                    there = Document(target) if path else document
                    if anchor not in there.anchors():
                        yield line, f'a link to {link[2]}, of which the anchor is not there'


class Files:
    """The names of the files and folders of a repository that stand in no folder that is made."""

    def __init__(self, root):
        self.paths = set()
        for folder, folders, names in os.walk(root):
            folders[:] = [name for name in folders if name not in MADE and name != '.git']
            within = os.path.relpath(folder, root)
            self.paths.update(os.path.normpath(os.path.join(within, name)) for name in names + folders)
        self.tops = {path for path in self.paths if '/' not in path and os.path.isdir(os.path.join(root, path))}
        self.crates = {path.split('/')[1] for path in self.paths if path.startswith('crates/')}
        # Each path, and what it ends with past a slash.
        self.endings = set()
        for path in self.paths:
            parts = path.split('/')
            self.endings.update('/'.join(parts[begin:]) for begin in range(len(parts)))

    def lacks(self, name, folder):
        """Whether the name looks like that of a file of the repository, and there is none. `folder` is that of the document."""
        path = name.rstrip('/')
        parts = path.split('/')
        if re.search(r'[^\w./*-]', path) or any(part.isupper() and '.' not in part or part in MADE for part in parts):
            return False
        if '..' in parts or path.startswith(('/', '.', '*')) or not path:
            return False
        if path.endswith(EXTENSIONS):
            return not self.matches(self.endings, path)
        if len(parts) > 1 and parts[0] in self.tops:
            forms = [path, path + '.rt', path + '.antt', os.path.join(folder, path)]
            return not any(self.matches(self.paths, form) for form in forms)
        if len(parts) > 2 and parts[0] in self.crates:
            return not any(self.matches(self.endings, path + ending) for ending in ('', '.rt', '.antt'))
        return False

    @staticmethod
    def matches(paths, path):
        return path in paths or '*' in path and any(fnmatch.fnmatch(other, path) for other in paths)


def missing_files(document, files, folder):
    for stretch in document.stretches:
        if stretch.kind in ('paragraph', 'table'):
            plain = LINK.sub(kept_lines('LINK'), CODE.sub(kept_lines('CODE'), stretch.text))
            named = [(stretch.text, code.start(), code[2]) for code in CODE.finditer(stretch.text)]
            named += [(plain, path.start(), path[0]) for path in PATH.finditer(plain)]
            for text, begin, name in named:
                if files.lacks(name, folder):
                    yield stretch.line + text[:begin].count('\n'), f'{name}: no file of the repository has this name'


def typed_figures(document):
    for stretch in document.stretches:
        if stretch.kind in ('paragraph', 'table') and not stretch.made:
            plain = CODE.sub(kept_lines('CODE'), stretch.text)
            for figure in FIGURE.finditer(plain):
                words = ' '.join(figure[0].split())
                yield stretch.line + plain[:figure.start()].count('\n'), f'"{words}": a figure that stands in no block made from a file'


def root_of(path):
    """The folder of the repository that a file stands in: the nearest that has crates.txt."""
    folder = os.path.dirname(os.path.abspath(path))
    while not os.path.exists(os.path.join(folder, 'crates.txt')):
        if folder == os.path.dirname(folder):
            sys.exit(f'prose.py: {path} stands in no repository with a crates.txt')
        folder = os.path.dirname(folder)
    return folder


def faults(path, root, files):
    """The lines and faults of a document."""
    document = Document(path)
    within = os.path.relpath(os.path.abspath(path), root)
    folder = os.path.dirname(within)
    most, words = MOST_WORDS.get(within), len(document.text.split())
    if most is not None and words > most:
        yield 1, f'{words} words, over {most}'
    yield from long_sentences(document)
    yield from dead_links(document, os.path.join(root, folder))
    yield from missing_files(document, files, folder)
    if within not in FIGURES_ARE_TYPED:
        yield from typed_figures(document)


def other_texts(root):
    """The man pages and the help, each with its faults."""
    pages = sorted(glob.glob(os.path.join(root, 'man', '*.[0-9]')))
    for path, markdown_of in [(page, markdown_of_page) for page in pages] + [(os.path.join(root, HELP), markdown_of_help)]:
        document = Document(path, markdown_of)
        # Ranges and statuses are numbers that belong together.
        found = [(line, what) for line, what in long_sentences(document) if 'numbers' not in what]
        yield path, found if document.stretches else [(1, 'no sentence was found')]


def main(paths):
    """Reads the documents, and gives 1 where one has a fault."""
    root = root_of(paths[0] if paths else __file__)
    files, found, words = Files(root), 0, 0
    for path, said in [] if paths else other_texts(root):
        found += len(said)
        for line, what in said:
            print(f'{os.path.relpath(path, root)}:{line}: {what}')
    for path in paths or [os.path.join(root, name) for name in MOST_WORDS]:
        within = os.path.relpath(os.path.abspath(path), root)
        if not os.path.exists(path):
            said = [(1, 'the document is not there')]
        else:
            said = sorted(faults(path, root, files))
            with open(path, encoding='utf-8') as file:
                words += len(file.read().split())
        found += len(said)
        for line, what in said:
            print(f'{within}:{line}: {what}')
    print(f'{words} words, {found} faults')
    return 1 if found else 0


if __name__ == '__main__':
    taken = parser(__doc__)
    taken.add_argument('files', metavar='FILE', nargs='*', help='a document; without any, all documents of this repository')
    sys.exit(main(taken.parse_args().files))
