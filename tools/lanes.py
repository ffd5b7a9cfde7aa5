"""The proof of one crate in a tree of its own, a lane under out/lanes.

Two calls of `rt` in one tree wait for each other. So a lane has the crate and those below it, their libraries as hard links, and what
the check keeps is moved back. What is proved stays in the crates' folders, also where a run is cut off.
"""
import fcntl
import functools
import os
import shutil
import signal
import subprocess
import sys
import time
from dataclasses import dataclass

from . import crates
from .files import ROOT, write
from .kit import load_kit
from .processes import usage_of

KIT = load_kit()

LANES = os.path.join(ROOT, 'out', 'lanes')
# What `rt` says where a check begins with what one in another clone kept.
TAKEN_OVER = 'begins with what a check kept in'


def folder_of(name, tree=ROOT):
    return os.path.join(tree, 'crates', name)


def built(name):
    """When what stands of a crate was built; 0 where nothing does."""
    places = (os.path.join(folder_of(name), 'out', it) for it in ('rlib/stamp', name, f'lib{name}.a'))
    return max((os.path.getmtime(it) for it in places if os.path.exists(it)), default=0)


def crate_of(name):
    """A crate, as the kit has it."""
    return KIT.rtlib.Crate(folder_of(name), ROOT, {}, name=name)


def is_changed(name, graph):
    """Whether what is built of a crate is of other sources than those of it and of the crates below it; so too where nothing is."""
    crate = crate_of(name)
    if crate.makes_rlib():
        return not crate.is_built()
    return max(map(newest, {name, *crates.below(name, graph)})) > built(name)


def is_offered(name):
    """Whether another clone on this machine has the library of a crate of these sources, over libraries of these."""
    crate = crate_of(name)
    return any(stamp == crate.stamp() and os.path.isdir(os.path.join(folder, 'out', 'rlib')) for folder, stamp in KIT.places_of(crate))


@functools.cache
def newest(name):
    """When a source of a crate was written last."""
    places = [os.path.join(folder, file) for part in ('src', 'specs', 'proofs')
              for folder, _, files in os.walk(os.path.join(folder_of(name), part)) for file in files]
    return max(map(os.path.getmtime, places), default=0)


@dataclass
class Check:
    """How the check of a crate ended: what the prover said, the seconds by the clock, those of processors, and how much the largest of its
    processes held."""
    is_proved: bool
    said: str
    seconds: float
    processor_seconds: int
    megabytes: int
    # Whether it began with nothing that another check had kept, here or in another clone.
    is_fresh: bool = False


class Lanes:
    """The checks of one run, which holds the tree as long as it or one of its checks lives."""

    def __init__(self, graph):
        self.graph, self.checks, self.is_stopped = graph, set(), False
        self.lock = hold_tree()

    def prove(self, name, jobs):
        """Proves a crate and builds its library."""
        lane = make_lane(name, self.graph)
        kept, moved = os.path.join(folder_of(name), 'out'), os.path.join(folder_of(name, lane), 'out')
        is_fresh = not os.path.isdir(kept)
        if not is_fresh:
            shutil.move(kept, moved)
        try:
            return self.run(['rt', 'lib', '--jobs', str(jobs)], folder_of(name, lane), is_fresh)
        finally:
            if os.path.isdir(moved):
                shutil.move(moved, kept)
            shutil.rmtree(lane)
            self.note(name)

    def note(self, name):
        """Notes for other clones on this machine where the work of a crate lies; the note that the check left names its lane."""
        crate = crate_of(name)
        KIT.offer(crate, crate.stamp() if crate.is_built() else None)

    def build(self, name, jobs):
        """Proves a program or a static library over the libraries that stand, and builds it, but for programs that know no `--help`."""
        verb = 'lib' if crates.is_static_library(name) else 'run' if name == 'gate' else 'check'
        words = ['rt', verb, '--jobs', str(jobs), *(['--', '--help'] if verb == 'run' else [])]
        return self.run(words, folder_of(name), not os.path.isdir(os.path.join(folder_of(name), 'out')))

    def run(self, words, folder, is_fresh):
        begun = time.monotonic()
        with subprocess.Popen(words, cwd=folder, stdout=subprocess.PIPE, stderr=subprocess.STDOUT, text=True, errors='replace',
                              pass_fds=[self.lock.fileno()], start_new_session=True) as check:
            self.checks.add(check)
            if self.is_stopped:
                end(check)
            said = check.stdout.read()
            usage = usage_of(check)
            self.checks.remove(check)
        return Check(check.returncode == 0, said, time.monotonic() - begun, round(usage.ru_utime), usage.ru_maxrss * 1_024 // 1_000_000,
                     is_fresh and TAKEN_OVER not in said)

    def stop(self, *_):
        """Ends all checks that run, and with them this run."""
        self.is_stopped = True
        for check in list(self.checks):
            end(check)
        raise KeyboardInterrupt


def end(check):
    """Ends a check and what it started."""
    try:
        os.killpg(check.pid, signal.SIGTERM)
    except ProcessLookupError:
        pass


def make_lane(name, graph):
    """A tree for the check of one crate."""
    lane, wanted = os.path.join(LANES, name), {name, *crates.below(name, graph)}
    for crate in wanted:
        there, library = folder_of(crate, lane), os.path.join(folder_of(crate), 'out', 'rlib')
        shutil.copytree(folder_of(crate), there, symlinks=True, ignore=shutil.ignore_patterns('out'))
        if crate != name and os.path.isdir(library):
            shutil.copytree(library, os.path.join(there, 'out', 'rlib'), symlinks=True, copy_function=os.link)
    shutil.copy(os.path.join(ROOT, 'HANDLES'), lane)
    write(os.path.join(lane, 'crates.txt'), ''.join(line for line in crates.lines() if crates.name_of(line) in wanted))
    return lane


def hold_tree():
    """Waits until no other run works in this tree, and takes back what one that was killed left in its lanes."""
    os.makedirs(os.path.join(ROOT, 'out'), exist_ok=True)
    lock = open(os.path.join(ROOT, 'out', 'prove.lock'), 'w')
    try:
        fcntl.flock(lock, fcntl.LOCK_EX | fcntl.LOCK_NB)
    except BlockingIOError:
        print('gate: waiting for another run in this tree', file=sys.stderr)
        fcntl.flock(lock, fcntl.LOCK_EX)
    for name in os.listdir(LANES) if os.path.isdir(LANES) else []:
        left, kept = os.path.join(folder_of(name, os.path.join(LANES, name)), 'out'), os.path.join(folder_of(name), 'out')
        if os.path.isdir(left) and not os.path.isdir(kept):
            shutil.move(left, kept)
    shutil.rmtree(LANES, ignore_errors=True)
    return lock


def errors_of(said):
    """The lines of a prover's text that tell why a crate is not proved."""
    lines = said.splitlines()
    return [line for line in lines if 'error' in line] or lines[-20:]
