"""Shows that wrong definitions are refused: of each edit in tests/wrong_definitions.

A must-fail edit reaches its own crate alone, while the definitions stand in `wsyntax` and the theorems in `soundness`. So
each edit here is applied to a copy of these crates, and the check of `soundness` must fail in a proof: the first error
stands in a file of `proofs/`, not of `specs/`, where it would only say that the definition is no definition. An edit begins
with the line `file:`, and has pairs of lines `old:` and `new:`; each old text stands exactly once in the file.

With MINUTES not all may be tried: another commit begins with another one, those that are left are named, and more than five sixths
may not be.
"""
import math
import os
import re
import shutil
import subprocess
import sys
import tempfile
import time

from tools import crates
from tools.arguments import parser
from tools.files import ROOT, read, write

EDITS = os.path.join(ROOT, 'tests', 'wrong_definitions')
CRATES = ['wnum', 'wsyntax', 'soundness']
# Of the edits at most this part may be left for want of time.
MOST_LEFT = 5 / 6
SECONDS_OF_A_DAY = 86_400


def copy_into(folder):
    os.makedirs(os.path.join(folder, 'crates'))
    for crate in CRATES:
        shutil.copytree(os.path.join(ROOT, 'crates', crate), os.path.join(folder, 'crates', crate), symlinks=True)
    write(os.path.join(folder, 'crates.txt'), ''.join(line for line in crates.lines() if crates.name_of(line) in CRATES))
    shutil.copy(os.path.join(ROOT, 'HANDLES'), folder)


def check(folder):
    ran = subprocess.run(['rt', 'check'], cwd=os.path.join(folder, 'crates', 'soundness'), capture_output=True, text=True)
    return ran.returncode, ran.stdout + ran.stderr


def applied(text, edit):
    pairs = re.findall(r'^old: (.*)\nnew: (.*)$', edit, re.M)
    for old, new in pairs:
        if text.count(old) != 1:
            sys.exit(f'an old text stands {text.count(old)} times: {old}')
        text = text.replace(old, new)
    return text


def first_error(output):
    found = re.search(r'^(\S+\.antt):\d+:\d+: error', output, re.M)
    return found.group(1) if found else 'nowhere'


def beginning(count):
    """The number of the edit to begin with, and by what it goes: the commit, or the day where there is none."""
    ran = subprocess.run(['git', 'rev-parse', 'HEAD'], cwd=ROOT, capture_output=True, text=True)
    if ran.returncode == 0:
        return int(ran.stdout, 16) % count, f'commit {ran.stdout[:12]}'
    day = int(time.time()) // SECONDS_OF_A_DAY
    return day % count, f'day {day}'


def in_turn():
    """The names of the edits, from the one on that it begins with."""
    names = sorted(os.listdir(EDITS))
    first, reason = beginning(len(names))
    print(f'begins with {names[first]}, by the {reason}')
    return names[first:] + names[:first]


def is_refused(folder, name):
    """Tries an edit in the copy, and says what came of it."""
    edit = read(os.path.join(EDITS, name))
    path = os.path.join(folder, re.match(r'file: (.*)', edit).group(1))
    text = read(path)
    write(path, applied(text, edit))
    status, output = check(folder)
    write(path, text)
    place = first_error(output)
    refused = status != 0 and '/proofs/' in place
    print(f'{name}: refused in {place}' if refused else f'{name}: status {status}, the first error in {place}', flush=True)
    return refused


def main(minutes):
    names = in_turn()
    with tempfile.TemporaryDirectory() as top:
        folder = os.path.join(top, 'copy')
        copy_into(folder)
        if check(folder)[0] != 0:
            sys.exit('soundness is not proved as it stands')
        refused, end = [], time.monotonic() + minutes * 60
        while len(refused) < len(names) and time.monotonic() < end:
            refused.append(is_refused(folder, names[len(refused)]))
    left = names[len(refused):]
    print(*(f'{name}: not tried, for want of time' for name in left), sep='\n', end='\n' if left else '')
    failed = refused.count(False)
    print(f'{len(refused) - failed} wrong definitions refused, {failed} not, {len(left)} not tried')
    if len(left) > MOST_LEFT * len(names):
        print(f'too many are not tried: more than {MOST_LEFT * len(names):.0f} of {len(names)}')
    return 1 if failed or not refused or len(left) > MOST_LEFT * len(names) else 0


if __name__ == '__main__':
    words = parser(__doc__)
    words.add_argument('minutes', metavar='MINUTES', nargs='?', type=float, default=math.inf,
                       help='after this many no further edit is begun; with none given, all are tried')
    sys.exit(main(words.parse_args().minutes))
