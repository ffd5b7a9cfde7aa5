"""Shows that the prover refuses wrong bodies.

A wrong body is an edit of one function, in a crate's must-fail/ or, where that has another one of the same function, in
tests/wrong_bodies, in a folder of the crate's name. `rt must-fail` tries those of must-fail/ one by one, and each costs a
check of its crate, with all that the crate stands on. Here those of a crate that turn different functions stand together in
one copy of it, a round: functions know one another by their contracts alone, so that a wrong body shows in its own function
and nowhere else. One check of these functions and of those that they call (`--only`) has to name each of them among what is not proved,
and in other files none but what calls one of them; `rt must-fail` takes any refusal. What turns no single function, as a constant, has to
be named in a function of its file. What no check names is tried alone, by a check of the whole crate.

A round goes by what ./prove or `rt check` kept of the crate on this machine, else by what the rounds before it kept. So the last check of
a crate is that of its own text: what was turned over kept work has to be proved.

What is refused is kept beside the kit, by the sum of this script, the kit, the crate, the libraries below it and the edit. A later run in
any clone on the machine takes it from there, and says how many it took.

Of tests/wrong_bodies a run over all crates tries those of some crates, which the commit chooses, as many as fit into some minutes of a
processor; of the others is only seen that each can be applied. With --all every one is tried, and nothing is taken from earlier runs.

Where a proof by hand names what an edit took away, that proof is refused, whether the body is wrong or right. Such an edit has a line of
its own; with --names it counts as one that is not refused. A wrong body that changes a value and keeps the names is none.

The libraries that a crate stands on are taken as they lie in FOLDER, a tree that `rt ci` has proved (this one, where none is
given).
"""
import contextlib
import functools
import glob
import math
import os
import re
import shutil
import sys
import tempfile
import time
from collections import Counter
from concurrent.futures import ThreadPoolExecutor, as_completed
from dataclasses import dataclass

from tests.wrong_definitions import beginning
from tools import proof_times
from tools.arguments import parser
from tools.files import ROOT, read
from tools.kit import checks_at_once, load_kit

# What a check says of a function, and what it may say of one that no wrong body turns.
OF_FUNCTION = re.compile(r'fn (\S+): (.*)')
EXCUSED = re.compile(r'proved|assumed|(no proof|not proved): it calls ')

# What a check says of a proof that names what is gone, and of what cites that proof; of a goal that it shows to be false; and what
# `rt must-fail` makes of the first.
LOST_NAME = re.compile(r'has no field|is not in scope|has no `|was not admitted')
SHOWN_FALSE = 'the facts known there allow values'
BY_NAMES = re.compile('a proof file names what (it|the edit) took away')

ONE_JOB = ['--jobs', '1']
# The status of a check that was called wrongly, as with a name that fits no function or several.
CALLED_WRONGLY = 2
# How many minutes of a processor the edits of tests/wrong_bodies may take in a run over all crates; and which part of its crate's proof one
# edit takes, about.
MOST_MINUTES, PART_OF_A_PROOF = 10, 0.08

HEADER = re.compile(r'^([ \t]*)(?:pub(?:\([a-z]+\))? )?(?:const |extern "C" )?fn (\w+)', re.M)


@dataclass(frozen=True)
class Function:
    """A function of a source file: its name, and where its text begins and ends."""
    file: str
    name: str
    first: int
    end: int


@dataclass(frozen=True)
class Change:
    file: str
    first: int
    end: int
    new: str


@dataclass
class Body:
    """A wrong body: its file, what it changes, and the functions in which that stands; none where it stands in no function."""
    path: str
    changes: list
    functions: frozenset

    def name(self):
        return os.path.basename(self.path)[: -len('.edit')]

    def files(self):
        return {it.file for it in self.changes}

    def is_in_code(self):
        return all(it.startswith('src/') for it in self.files())


def function_at(file, text, at):
    """The function in which a place lies, with the lines right above its header."""
    headers = [it for it in HEADER.finditer(text) if it.start() <= at]
    if not headers:
        return None
    header = headers[-1]
    closing = re.compile(rf'^{header[1]}\}}$', re.M).search(text, header.end())
    if closing is None or closing.end() < at:
        return None
    first = text.rfind('\n\n', 0, header.start()) + 1
    return Function(file, header[2], first, closing.end())


def changes_of(edit, folder):
    """What an edit changes; its texts are read as `rt` reads them."""
    changes, file, old = [], None, None
    for line in read(edit).split('\n'):
        word, _, text = line.partition(':')
        text = text.removeprefix(' ')
        if word == 'file':
            file = text.strip()
        elif word == 'old':
            old = text
        elif word == 'new':
            at = read(os.path.join(folder, file)).index(old)
            changes.append(Change(file, at, at + len(old), text))
    return changes


def body_of(edit, folder):
    changes = changes_of(edit, folder)
    found = [function_at(it.file, read(os.path.join(folder, it.file)), it.first) for it in changes]
    body = Body(edit, changes, frozenset())
    return Body(edit, changes, frozenset(found)) if body.is_in_code() and None not in found else body


def rounds_of(bodies):
    """The bodies in as few rounds as it takes for no function to be turned twice in one, as far as they come in turn."""
    rounds = []
    for body in bodies:
        free = (it for it in rounds if not any(body.functions & other.functions for other in it))
        room = next(free, None)
        if room is None:
            rounds.append([body])
        else:
            room.append(body)
    return rounds


def texts_of(bodies, folder):
    """The files that these bodies change, with all of their changes."""
    texts = {}
    for change in sorted({it for body in bodies for it in body.changes}, key=lambda it: -it.first):
        text = texts.get(change.file) or read(os.path.join(folder, change.file))
        texts[change.file] = text[: change.first] + change.new + text[change.end:]
    return texts


def lines_in(function, bodies, folder):
    """The lines of a function in the text with these bodies."""
    changes = [it for body in bodies for it in body.changes if it.file == function.file]
    moved = lambda at: at + sum(len(it.new) - (it.end - it.first) for it in changes if it.end <= at)
    text = texts_of(bodies, folder)[function.file]
    return text.count('\n', 0, moved(function.first)) + 1, text.count('\n', 0, moved(function.end)) + 1


def module_of(file):
    """The module that a source file is, by its path below the crate."""
    return file[len('src/'): -len('.rt')].replace('/', '::')


@functools.cache
def functions_named(folder):
    """How many functions of a crate have each name."""
    files = glob.glob(os.path.join(folder, 'src', '**', '*.rt'), recursive=True)
    return Counter(found[2] for it in files for found in HEADER.finditer(read(it)))


def is_only_one(function, folder):
    """Whether no other function of the crate has its name."""
    return functions_named(folder)[function.name] == 1


def only(crate, bodies):
    """The words that have a check look at the functions alone that these bodies turn: a function by its name, or all of its module where
    others have that name; of a body that turns none, those of its files."""
    turned = {it for body in bodies for it in body.functions}
    paths = {it.name if is_only_one(it, crate.folder) else module_of(it.file) for it in turned}
    paths |= {module_of(it) for body in bodies if not body.functions for it in body.files()}
    return [word for path in sorted(paths) for word in ('--only', path)]


def says(line, file, proofs, lines):
    """Whether a line of the prover says that something is not proved, in these lines of a source file or in these proof files."""
    place = re.match(r'(?:note: )?(?:\./)?(\S+?):(\d+):\d+: (.*)', line)
    if not place:
        return False
    if place[1] == file:
        return line.startswith('note: ') and lines[0] <= int(place[2]) <= lines[1]
    return bool(re.fullmatch(proofs, place[1])) and place[3].startswith('error')


def naming(said, crate, bodies, body):
    """Of each function that a body of a round turns the lines of the check that name it; of a body that turns none those in its files."""
    found = []
    for it in body.functions:
        # The proofs of a method lie where its type stands, which may be another file.
        within = r'(?:\w+/)*' if is_only_one(it, crate.folder) else rf"{re.escape(it.file[len('src/'): -len('.rt')])}/(?:\w+/)*"
        proofs, lines = rf'proofs/{within}{it.name}/\w+\.antt', lines_in(it, bodies, crate.folder)
        found.append([line for line in said if says(line, it.file, proofs, lines)])
    if not body.functions:
        proofs = '|'.join(rf"proofs/{re.escape(it[len('src/'): -len('.rt')])}/.*\.antt" for it in body.files())
        found.append([line for line in said for it in body.files() if says(line, it, proofs, (1, math.inf))])
    return found


def not_named(said, crate, bodies):
    """Of the bodies of a round those whose functions the check does not all name."""
    return [body for body in bodies if not all(naming(said, crate, bodies, body))]


def is_by_names(lines):
    """Whether these lines say of proofs only that they name what is gone. A goal that has another name then stays open."""
    of_proofs = [it for it in lines if not it.startswith('note: ')]
    return bool(of_proofs) and all(map(LOST_NAME.search, of_proofs)) and not any(SHOWN_FALSE in it for it in lines)


def refused_by_names(said, crate, bodies):
    """Of the bodies of a round those that are refused because proofs name what they took away."""
    return [body for body in bodies if is_by_names(sum(naming(said, crate, bodies, body), []))]


def named_beside(said, crate, bodies):
    """The functions that the check does not prove, but those in the files that the bodies turn, and what calls one of these.

    A method goes by the file of its type there, so that the names of what is turned are left out too. A body that turns no function, as a
    constant, stands alone in its round, so whatever is not proved there is its work."""
    if not all(it.functions for it in bodies):
        return []
    files = {it for body in bodies for it in body.files()}
    modules = tuple(f'{crate.name}::{module_of(it)}::' for it in files)
    turned = {it.name for body in bodies for it in body.functions}
    lines = [found for found in map(OF_FUNCTION.fullmatch, said) if found and not EXCUSED.match(found[2])]
    return [found[1] for found in lines if not found[1].startswith(modules) and found[1].rpartition('::')[2] not in turned]


@contextlib.contextmanager
def begun(kit, crate):
    """Gives what a check of a crate goes by, as a call that opens a folder, and whether anything is in it at first. Where a check on this
    machine has proved the crate's text as it stands, each check begins with a copy of what that one kept; else with what those before it
    kept, the first with that of another text, or with nothing."""
    with tempfile.TemporaryDirectory() as room:
        start, kept = kit.work_for(crate), os.path.join(room, 'kept')
        try:
            if start:
                kit.linked(start, kept)
        except (OSError, shutil.Error):
            # Another check writes there.
            shutil.rmtree(kept, ignore_errors=True)
            start = None
        os.makedirs(kept, exist_ok=True)
        own = [os.path.join(folder, 'out', 'incremental') for folder, stamp in kit.places_of(crate) if stamp == crate.stamp()]
        yield lambda: copied(kit, kept) if start in own else contextlib.nullcontext(kept), start is not None


@contextlib.contextmanager
def copied(kit, folder):
    with tempfile.TemporaryDirectory() as room:
        kit.linked(folder, os.path.join(room, 'kept'))
        yield os.path.join(room, 'kept')


def try_round(kit, crate, bodies, over):
    """Tries the bodies of a round at once; answers of those that it refuses what to tell, those whose functions it does not all name, and
    what else it does not prove. Where there is such a thing, none counts as refused."""
    with over() as kept:
        ran = kit.checked(crate, texts_of(bodies, crate.folder), [*ONE_JOB, *only(crate, bodies)], kept)
    said = ran.stdout.rstrip('\n').split('\n')
    if ran.returncode == CALLED_WRONGLY:
        return {}, [], [f'{crate.name}: a round did not begin: {said[-1]}']
    missing, lost = not_named(said, crate, bodies), refused_by_names(said, crate, bodies)
    beside = [f'{crate.name}: {it} is not proved beside wrong bodies of others' for it in named_beside(said, crate, bodies)]
    tell = lambda it: f'{crate.name}/{it.name()}: refused where a proof file names what it took away' if it in lost else ''
    return {} if beside else {it.path: tell(it) for it in bodies if it not in missing}, missing, beside


def unreadable(kit, crate, edits):
    """Of these edits those that cannot be applied, with the reason."""
    found = [(it, kit.read_edit(it, crate.folder)[1]) for it in edits]
    return {it: f'{crate.name}/{os.path.basename(it)}: BAD EDIT: {why}' for it, why in found if why}


def try_rounds(kit, crate, rounds, over):
    """Tries bodies in rounds; answers of those that are refused what to tell, what is wrong, and those that no round names."""
    refused, wrong, left = {}, [], []
    for bodies in rounds:
        told, missing, beside = try_round(kit, crate, bodies, over)
        refused, wrong, left = {**refused, **told}, wrong + beside, left + missing
    return refused, wrong, left


def try_alone(kit, crate, bodies, over):
    """Tries bodies one by one; answers of those that are refused what to tell, and what is told of the others."""
    refused, wrong = {}, []
    for body in bodies:
        with over() as kept:
            came_to, said = kit.must_fail(crate, body.path, ONE_JOB, kept)
        if came_to == kit.REFUSED:
            refused[body.path] = said
        else:
            wrong.append(said)
    return refused, wrong


def try_bodies(kit, crate, bodies):
    """Tries bodies of a crate; answers of those that are refused what to tell, what is wrong, and how they were tried."""
    rounds = rounds_of([it for it in bodies if it.functions]) + [[it] for it in bodies if not it.functions and it.is_in_code()]
    with begun(kit, crate) as (over, has_begun):
        refused, wrong, left = try_rounds(kit, crate, rounds, over)
        alone = [it for it in bodies if not it.is_in_code()] + left
        by_one, missed = try_alone(kit, crate, alone, over)
        how = f'{len(rounds)} rounds and {len(alone)} alone'
        over_kept = sum(rounds if has_begun else rounds[1:], [])
        if over_kept or alone:
            with over() as kept:
                if kit.checked(crate, {}, [*ONE_JOB, *([] if alone else only(crate, over_kept))], kept).returncode != 0:
                    return {}, [*wrong, f'{crate.name}: its own text is not proved over what these checks kept'], how
    return {**refused, **by_one}, wrong + missed, how


class Earlier:
    """What was refused on this machine before, where `rt ci` keeps what it tried: by the sum of all that a refusal rests on. Of a crate
    over libraries of other sources nothing is kept."""

    def __init__(self, kit, crates, tree, anew):
        every = {it.name: it for crate in crates for it in [crate, *crate.below()]}
        self.kit, self.kept, self.sums = kit, kit.Kept(every.values(), anew), {}
        self.judge = read(__file__)
        # `rt ci` writes no stamps, and its tree was proved as it stands.
        self.counts = {it.name: tree != ROOT or all(below.is_built() for below in it.below()) for it in crates}

    def name_of(self, crate, edit):
        return self.kept.of_edit(edit, (self.judge, self.kit.stamp_of(crate, self.sums)))

    def told(self, crate, edit):
        """What was told of an edit that was refused before, or None."""
        found = self.kept.tried(self.name_of(crate, edit)) if self.counts[crate.name] else None
        return found and found[1]

    def keep(self, crate, refused, names):
        """Keeps what was refused just now, unless a file that it rests on was touched since, or an edit has another name by now."""
        if self.counts[crate.name] and all(map(self.kept.is_untouched, [crate, *crate.below()])):
            for edit in (it for it in refused if self.name_of(crate, it) == names[it]):
                self.kept.keep_tried(names[edit], self.kit.REFUSED, refused[edit])


def try_crate(kit, crate, edits, names_count, earlier):
    """Tries the wrong bodies of a crate; answers the lines to print, how many were not refused, and how many were so in earlier runs.
    Whether those count as refused that are by names, is said by `names_count`."""
    started = time.monotonic()
    bad, names = unreadable(kit, crate, edits), {it: earlier.name_of(crate, it) for it in edits}
    before = {it: told for it in edits if it not in bad and (told := earlier.told(crate, it)) is not None}
    bodies = [body_of(it, crate.folder) for it in edits if it not in bad and it not in before]
    now, wrong, how = try_bodies(kit, crate, bodies) if bodies else ({}, [], 'no rounds')
    earlier.keep(crate, now, names)
    refused = {**before, **now}
    lost = [] if names_count else [it for it in refused.values() if BY_NAMES.search(it)]
    failed = max(len(edits) - len(refused) + len(lost), len(wrong))
    lines = [*bad.values(), *filter(None, refused.values()), *wrong]
    lines.append(f'{crate.name}: {len(refused) - len(lost)} of {len(edits)} wrong bodies refused, {len(before)} of them in earlier runs, '
                 f'the others in {how} ({time.monotonic() - started:.0f} s)')
    return lines, failed, len(before)


def edits_in(*folder):
    return sorted(glob.glob(os.path.join(ROOT, *folder, '*.edit')))


def further(name):
    return edits_in('tests', 'wrong_bodies', name)


def chosen(crates, earlier):
    """The crates of which the edits of tests/wrong_bodies are tried too: from one on that the commit names, as many as fit."""
    able = sorted((it for it in crates if further(it.name)), key=lambda it: it.name)
    if not able:
        return []
    first, reason = beginning(len(able))
    seconds, found, left = proof_times.seconds_of(it.name for it in able), [], MOST_MINUTES * 60
    for crate in able[first:] + able[:first]:
        untried = [it for it in further(crate.name) if earlier.told(crate, it) is None]
        needed = len(untried) * PART_OF_A_PROOF * seconds[crate.name]
        if needed <= left or not found:
            found, left = [*found, crate], left - needed
    print(f'of tests/wrong_bodies too, by the {reason}:', *(it.name for it in found), flush=True)
    return found


def try_all(kit, edits, names_count, earlier):
    """Tries these edits, a list a crate, several crates side by side, and prints of each what it came to; answers how many were not
    refused, and how many were in earlier runs."""
    failed = taken = 0
    with ThreadPoolExecutor(checks_at_once()) as pool:
        for tried in as_completed([pool.submit(try_crate, kit, crate, edits[crate], names_count, earlier) for crate in edits]):
            lines, bad, before = tried.result()
            print(*lines, sep='\n', flush=True)
            failed, taken = failed + bad, taken + before
    return failed, taken


def main():
    taken = parser(__doc__)
    taken.add_argument('--all', action='store_true', help='also all of tests/wrong_bodies, and nothing from earlier runs')
    taken.add_argument('--names', action='store_true', help='one that a proof by hand refuses by its names counts as not refused')
    taken.add_argument('--tree', metavar='FOLDER', default=ROOT, help='where libraries are taken from (default: this tree)')
    taken.add_argument('crates', metavar='CRATE', nargs='*', help='without any, all')
    words = taken.parse_args()
    kit = load_kit()
    tree = os.path.realpath(words.tree)
    names = words.crates or sorted(os.listdir(os.path.join(ROOT, 'crates')))
    crates = [kit.rtlib.Crate(os.path.join(tree, 'crates', it), tree, {}, name=it) for it in names]
    crates.sort(key=lambda it: -it.count(rb'\n'))
    earlier = Earlier(kit, crates, tree, words.all)
    more = crates if words.all else [] if words.crates else chosen(crates, earlier)
    edits = {it: edits_in('crates', it.name, 'must-fail') + (further(it.name) if it in more else []) for it in crates}
    edits = {it: found for it, found in edits.items() if found}
    left = [why for it in crates for why in unreadable(kit, it, further(it.name)).values()]
    print(*left, sep='\n', end='\n' if left else '')
    failed, before = try_all(kit, edits, not words.names, earlier)
    count = sum(map(len, edits.values()))
    print(f'{count - failed} wrong bodies refused, {before} of them in earlier runs, {failed} not')
    return 1 if failed or left or count == 0 else 0


if __name__ == '__main__':
    sys.exit(main())
