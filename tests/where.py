"""Holds tools/where.py to what it says, by words of the specs/ of each kind.

found      an abbreviation, a record, a data type, a constructor, a ghost field and a word of a contract are found, with their lines
every      each line of specs/ that declares a definition as public is a definition, and has its name
unknown    an unknown word has a line that says so, and the items of src/ that have the name; the status is 1
cut        a reader that ends early gets no traceback
"""
import re
import subprocess
import sys

from tools import where
from tools.counting import Count
from tools.files import ROOT, read

# A word, and what has to stand in what is printed of it.
FOUND = [('IsVerdict', 'unfoldable pub IsVerdict'), ('AnswerBy', 'abbrev pub AnswerBy'), ('Ends', 'pub record Ends'),
         ('EndsOn', 'pub data EndsOn'), ('TooLarge', 'pub data Verdict'), ('in_start', 'pub data EndsOn'), ('IsLayoutOf', ': laid\n'),
         ('IsVerdict', ': explain\n'), ('IsMissing', ': export\n')]
DECLARED = re.compile(r'^(?:unfoldable |abbrev )?pub (?:record |data |newtype )?([^\s:({]+)|^(?:abbrev|record|data|newtype) pub (\S+)')


def said(*words):
    ran = subprocess.run([sys.executable, '-m', 'tools.where', *words], cwd=ROOT, capture_output=True, text=True)
    return ran.stdout, ran.returncode, ran.stderr


def every(count):
    known = {(it.path, it.line): it.name for it in where.definitions()}
    declared = 0
    for path in where.found('*/specs/**/*.antt'):
        for number, line in enumerate(read(path).splitlines(), 1):
            name = DECLARED.match(line)
            if name and not line.startswith('pub mod '):
                declared += 1
                count.expect(known.get((path, number)) in name.groups()[:2], f'{path}:{number}', line)
    count.expect(declared > 1_000, 'definitions that are declared', declared)


def main():
    count = Count('where')
    for word, wanted in FOUND:
        printed, status, error = said(word, '--all')
        count.expect(wanted in printed and status == 0 and not error, f'{word}: {wanted}', (printed, status, error))
    every(count)
    printed, status, error = said('rotl')
    count.expect('no definition' in printed and 'word32.rt' in printed and status == 1 and not error, 'rotl', (printed, status, error))
    printed, status, error = said('no_such_word')
    count.expect('no definition' in printed and status == 1 and not error, 'no_such_word', (printed, status, error))
    cut = subprocess.run(f'{sys.executable} -m tools.where Accepted --all | head -1', shell=True, cwd=ROOT, capture_output=True, text=True)
    count.equal('cut', (cut.stdout.count('\n'), cut.stderr), (1, ''))
    return count.status()


if __name__ == '__main__':
    sys.exit(main())
