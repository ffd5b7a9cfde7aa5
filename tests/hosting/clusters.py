"""on_dask.py of examples/many, on a scheduler and two workers of this machine, one of which is killed on the way."""
import json
import os
import signal
import subprocess
import sys
import time

from tests.hosting.languages import of_python
from tests.hosting.processes import Left, needs_folder, started
from tools.counting import difference
from tools.files import ROOT, write

# Debian's package is for the Python of the system.
PYTHONS = [sys.executable, '/usr/bin/python3']
SCRIPT = os.path.join(ROOT, 'examples', 'many', 'on_dask.py')
PRIMES = os.path.join(ROOT, 'examples', 'primes.wasm')
MODULES = [os.path.join(ROOT, 'examples', it) for it in ('add.wasm', 'fold.wasm', 'primes.wasm', 'guests/greet.wasm', 'fold.wat')]
# Calls that end in many ways; the last one runs until its fuel is spent, so that a worker is at work when it is killed.
CALLS = [b'count\ti32:10', b'last\ti32:5', b'is_prime\ti32:7', b'ask\ti32:3\ti32:4', b'none', b'count\ti64:1', b'count\ti32:900000']
TURNS, OF_PIECE, FUEL, FRAMES_AND_PAGES = 12, 1, '500000', ['1024', '256']
# Seconds for a process of Dask to begin.
LONGEST = 120


def text_of(calls):
    return b''.join(b'%b\n' % it for it in calls)


def python_with_dask():
    for python in PYTHONS:
        if os.path.exists(python) and started([python, '-c', 'import distributed'])[1] == 0:
            return python
    raise Left('no Dask')


class Cluster:
    """A scheduler and its workers, each a process, which are ended with it."""

    def __init__(self, python, environment, work):
        self.python, self.environment, self.work = python, {**os.environ, **environment}, work
        self.file, self.processes = os.path.join(work, 'scheduler.json'), []

    def __enter__(self):
        self.begin('dask_scheduler', '--host', '127.0.0.1', '--port', '0')
        until = time.monotonic() + LONGEST
        while not os.path.exists(self.file) and time.monotonic() < until:
            time.sleep(0.05)
        with open(self.file) as file:
            self.address = json.load(file)['address']
        return self

    def __exit__(self, *_):
        for process in reversed(self.processes):
            process.kill()
            process.wait()

    def begin(self, module, *words):
        """Starts a process of Dask."""
        words = [self.python, '-m', f'distributed.cli.{module}', '--scheduler-file', self.file, '--no-dashboard', *words]
        with open(os.path.join(self.work, f'said-{len(self.processes)}'), 'wb') as said:
            self.processes.append(subprocess.Popen(words, env=self.environment, stdout=said, stderr=said, cwd=self.work))
        return self.processes[-1]

    def worker(self):
        return self.begin('dask_worker', '--no-nanny', '--nthreads', '1', '--local-directory', self.work)

    def begun(self, *words):
        """The script on this cluster."""
        words = [self.python, SCRIPT, self.address, *words]
        return subprocess.Popen(words, env=self.environment, stdout=subprocess.PIPE, stderr=subprocess.PIPE)


    def ended(self, *words):
        """What the script prints, and its status."""
        running = self.begun(*words)
        return running.communicate()[0], running.returncode

    def alone(self, words, given=None):
        """What the host in Python prints by itself, and its status."""
        out, status, _ = started([self.python, os.path.join(needs_folder('python'), 'host.py'), *words], given, self.environment)
        return out, status

    def kill_on_the_way(self, tally, calls):
        """Kills one of two workers after the first piece; what the script prints, and its status."""
        worker, _ = self.worker(), self.worker()
        running = self.begun('run', PRIMES, calls, '--lines', str(OF_PIECE * len(CALLS)), '--fuel', FUEL)
        first = running.stderr.readline()
        tally.expect(first.endswith(b' 1 of %d pieces\n' % (TURNS // OF_PIECE)), 'on_dask tells of the first piece', first)
        worker.kill()
        out, _ = running.communicate()
        tally.expect(worker.wait() == -signal.SIGKILL, 'a worker of Dask is killed on the way', worker.returncode)
        return out, running.returncode


def cluster(tally, folder, work):
    """The report of a text in pieces is that of one run, also where a worker is killed; and the verdicts are those of one process."""
    python, environment = python_with_dask(), {**of_python(folder), 'PYTHONPATH': needs_folder('python')}
    if 'PYTHONPATH' in os.environ:
        environment['PYTHONPATH'] += os.pathsep + os.environ['PYTHONPATH']
    place = os.path.join(work, 'dask')
    calls, names = os.path.join(place, 'calls'), ''.join(f'{path}\n' for path in MODULES).encode()
    os.mkdir(place)
    with Cluster(python, environment, place) as it:
        write(calls, text_of(CALLS * TURNS))
        got, wanted = it.kill_on_the_way(tally, calls), it.alone(['run', PRIMES, calls, FUEL, *FRAMES_AND_PAGES])
        tally.expect(got == wanted and wanted[1] == 0, 'a report by Dask, where a worker is killed', difference(got, wanted))
        write(calls, text_of([*CALLS * 2, b'count\ti32:01', *CALLS]))
        got = it.ended('run', PRIMES, calls, '--lines', '5', '--fuel', '100')
        wanted = it.alone(['run', PRIMES, calls, '100', *FRAMES_AND_PAGES])
        tally.expect(got == wanted and wanted[1] == 3, 'a line that is refused, by Dask', difference(got, wanted))
        lines = zip(names.splitlines(), it.alone(['check', '-'], names)[0].splitlines())
        got, wanted = it.ended('check', *MODULES), (b''.join(b'%b: %b\n' % pair for pair in lines), 0)
        tally.expect(got == wanted and wanted[0].count(b': accepted\n') == 4, 'verdicts by Dask', difference(got, wanted))
