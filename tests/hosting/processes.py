"""Processes, side by side, and how much of what is expected of them holds."""
import os
import shutil
import subprocess
import threading

from tools.counting import Count
from tools.files import ROOT

VALGRIND = ['valgrind', '-q', '--error-exitcode=99']
MEMCHECK = VALGRIND + ['--leak-check=full', '--errors-for-leak-kinds=all', '--show-leak-kinds=all']


class Left(Exception):
    """Why a host or a tool is left out."""


class Tally(Count):
    """How much holds, and what was left out; on any thread."""

    def __init__(self, test):
        super().__init__(test)
        self.lock, self.left = threading.Lock(), []

    def expect(self, holds, name, got=''):
        with self.lock:
            super().expect(holds, name, got)

    def leave_out(self, name, why):
        with self.lock:
            self.left.append(f'{name} ({why})')


def started(words, given=None, environment=None, timeout=300, **settings):
    """What a process writes, and its status."""
    ran = subprocess.run(words, input=given, capture_output=True, timeout=timeout, env={**os.environ, **(environment or {})}, **settings)
    return ran.stdout, ran.returncode, ran.stderr


def needs(tool, path=None):
    found = shutil.which(tool, path=path)
    if not found:
        raise Left(f'no {tool}')
    return found


def needs_folder(name):
    folder = os.path.join(ROOT, 'examples', name)
    if not os.path.isdir(folder):
        raise Left(f'no examples/{name}')
    return folder


def built(words, **settings):
    said, status, error = started(words, **settings)
    if status:
        raise RuntimeError(f'{words}: {(error + said).decode(errors="replace")}')


class Jobs:
    """What is done side by side, and what comes of it."""

    def __init__(self, tally, pool):
        self.tally, self.pool, self.running = tally, pool, []

    def begin(self, name, job, *given):
        self.running.append((name, self.pool.submit(job, self.tally, *given)))

    def all(self):
        return [self.ended(name, job) for name, job in self.running]

    def ended(self, name, job):
        """What a job answers; nothing where it was left out or went wrong."""
        try:
            return job.result()
        except Left as why:
            self.tally.leave_out(name, why)
        except (OSError, ValueError, RuntimeError, subprocess.SubprocessError) as error:
            self.tally.expect(False, name, repr(error))
        return None
