"""Results as files: what was measured as rows with tabs, under lines that say of which commit, when, on what and beside which peers.

A file begins with lines `# NAME: TEXT` (commit, date, processor, peers, command, and notes), then the names of the columns, then
the rows. A field that was not measured is empty.
"""
import datetime
import os
import re
import shutil
import subprocess
import sys

FOLDER = os.path.join(os.path.dirname(os.path.abspath(__file__)), 'results')
HEAD = ('commit', 'date', 'processor', 'peers', 'command')
# How each peer says its version.
VERSIONS = {'V8': ['node', '-p', '`${process.versions.v8} (node ${process.versions.node})`'], 'wabt': ['wasm-validate', '--version'],
            'JavaScriptCore': ['dpkg-query', '-W', '-f', '${Version}\\n', 'libjavascriptcoregtk-*-bin'],
            'clang': ['clang', '-dumpversion'], 'gcc': ['gcc', '-dumpversion']}


def said(words):
    """The first line that a program prints; nothing where there is none."""
    if not shutil.which(words[0]):
        return ''
    lines = subprocess.run(words, stdin=subprocess.DEVNULL, capture_output=True, text=True).stdout.splitlines()
    return lines[0].strip() if lines else ''


def plain(model):
    """The name of a processor without marks and empty words: Intel(R) Xeon(R) Processor @ 2.50GHz is Intel Xeon at 2.5 GHz."""
    name = re.sub(r'\((?:R|TM)\)|\b(?:CPU|Processor)\b', ' ', model)
    name = re.sub(r'@ *(\d+(?:\.\d*[1-9])?)[.0]*GHz', r'at \1 GHz', name)
    return ' '.join(name.split())


def processor():
    """The machine, as heads and documents name it."""
    with open('/proc/cpuinfo') as file:
        told = file.read()
    model = re.search(r'^model name\s*: (.*)', told, re.M)
    where = ' in a virtual machine' if re.search(r'^flags.* hypervisor\b', told, re.M) else ''
    return f'{plain(model[1])}{where}, {os.cpu_count()} cores' if model else ''


def commit():
    """The commit of the tree, and a + where files of it are changed."""
    folder = ['git', '-C', FOLDER]
    return said(folder + ['rev-parse', '--short', 'HEAD']) + ('+' if said(folder + ['status', '--porcelain', '-uno']) else '')


def head():
    """What stands above the rows: of this tree, this day and this machine."""
    peers = [(name, said(words)) for name, words in VERSIONS.items()]
    words = [os.path.basename(word) if os.path.isabs(word) else word for word in sys.argv[1:]]
    return {'commit': commit(), 'date': datetime.date.today().isoformat(), 'processor': processor(),
            'peers': ', '.join(f'{name} {version}' for name, version in peers if version),
            'command': ' '.join(['python3', '-m', 'bench.' + os.path.basename(sys.argv[0]).removesuffix('.py')] + words)}


def field(value):
    """A field as text, numbers with four digits that count, or whole."""
    if not isinstance(value, float):
        return '' if value is None else f'{value}'
    return f'{value:.4g}' if abs(value) < 1e4 else f'{value:.0f}'


class Recorder:
    """The rows of a run, which it writes to a file each time that one comes, so that a run that is cut off leaves what it had."""

    def __init__(self, path, columns):
        self.path, self.columns, self.rows, self.head = path, columns, [], head() if path else {}

    def add(self, **fields):
        """A row, by the names of its columns; without a path nothing is kept."""
        unknown = set(fields) - set(self.columns)
        if unknown:
            raise KeyError(f'no column {", ".join(sorted(unknown))}')
        if self.path:
            self.rows.append([field(fields.get(column)) for column in self.columns])
            self.write()

    def write(self):
        with open(self.path, 'w') as file:
            file.writelines(f'# {name}: {text}'.rstrip() + '\n' for name, text in self.head.items())
            file.writelines('\t'.join(row) + '\n' for row in [self.columns] + self.rows)


class Results:
    """The head and the rows of a file of results."""

    def __init__(self, path):
        with open(path) as file:
            lines = file.read().splitlines()
        notes = [line[2:].partition(':') for line in lines if line.startswith('# ')]
        self.head = {name: text.strip() for name, _, text in notes}
        table = [line.split('\t') for line in lines if line and not line.startswith('#')]
        self.rows = [dict(zip(table[0], row)) for row in table[1:]]
        wrong = [name for name in HEAD if name not in self.head] + [row for row in table if len(row) != len(table[0])]
        if wrong:
            sys.exit(f'{path}: {wrong[0]} is missing, or has another number of fields')


def number(row, column):
    """A field as a number; None where it is empty."""
    return float(row[column]) if row[column] else None
