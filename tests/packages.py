"""Uses the packages for Python, Rust and Go of a release as strangers do: each in an empty folder, offline, where no variable of the
environment tells of a library.

Python  The sums in the wheel hold, its library wants no later glibc than its name says, and a host over musl uses it. pip installs it
        into a fresh environment; there all tests of the package pass, and mypy finds no fault, where it is there.
Rust    The tests of the crate pass, and clippy finds no fault in both, where it is there. GATE_LIB_DIR comes before the library inside.
Go      The tests of the module pass, and go vet finds no fault. A host that vendors the module is built too.
Hosts   What docs/HOSTS.md of the release shows for each language, as a program outside the release, prints what it has to.
Again   packaging/packages.py makes the same packages of the library in the release.
What is left out, for want of a tool, is counted and named at the end; with --all nothing may be.
"""
import base64
import csv
import hashlib
import io
import os
import re
import shutil
import subprocess
import sys
import tarfile
import tempfile
import zipfile

from tools.arguments import parser
from tools.counting import difference
from tools.files import ROOT

# Where the tools of Go stand that are not on the PATH.
GO_FOLDERS = '/usr/local/go/bin:/usr/lib/go/bin'
# What could name a library, or a package, that is not the one under test.
NAMES = ('CGO_', 'GATE_', 'GO', 'LD_', 'PKG_CONFIG', 'PYTHON', 'VIRTUAL_ENV')
# What the hosts of HOSTS.md print: of examples/guests/upper.wasm the texts `hello` and `again` in upper case.
PYTHON_PRINTS = RUST_PRINTS = 'HELLO\nAGAIN\n'
GO_PRINTS = 'HELLO\n'

CONSUMER_CRATE = """\
[package]
name = "consumer"
version = "0.0.0"
edition = "2021"

[dependencies]
gate = {{ path = "{folder}" }}
"""
CONSUMER_MODULE = """\
module example.org/consumer

go 1.19

require example.org/gate v0.0.0

replace example.org/gate => {folder}
"""
# It judges a module of eight bytes, and prints the line.
MUSL_HOST = """\
#include <gate.h>
#include <stdio.h>

int main(void) {
    static const uint8_t module[] = {0, 'a', 's', 'm', 1, 0, 0, 0};
    uint8_t line[64];
    size_t length;
    gate_verdict verdict;
    if (gate_check(module, sizeof module, &verdict) != GATE_OK) return 1;
    if (gate_verdict_line(&verdict, line, sizeof line, &length) != GATE_OK) return 1;
    return fwrite(line, 1, length, stdout) != length;
}
"""


class Left(Exception):
    """Why a part is left out."""


class Tally:
    """How much holds, and what was left out."""

    def __init__(self):
        self.passed, self.failed, self.left = 0, 0, []

    def expect(self, holds, name, got=''):
        self.passed, self.failed = self.passed + bool(holds), self.failed + (not holds)
        if not holds:
            print(f'packages: {name}: {got}')

    def ends(self, name, ended):
        """Expects that a process ended with 0."""
        self.expect(ended.returncode == 0, name, ended.stdout[-4000:] + ended.stderr[-4000:])

    def prints(self, name, ended, wanted):
        got = ended.returncode, ended.stdout
        self.expect(got == (0, wanted), name, f'{difference(got, (0, wanted))}; {ended.stderr[-4000:]}')


def run(words, folder, **environment):
    """A process in an environment that tells of no library but by these variables."""
    kept = {name: value for name, value in os.environ.items() if not name.startswith(NAMES)}
    return subprocess.run(words, cwd=folder, capture_output=True, text=True, timeout=600, env={**kept, **environment})


def needs(tool, path=None):
    found = shutil.which(tool, path=path)
    if not found:
        raise Left(f'no {tool}')
    return found


def write(path, text):
    os.makedirs(os.path.dirname(path), exist_ok=True)
    with open(path, 'w') as file:
        file.write(text)


def shown(release, language):
    """The program that docs/HOSTS.md shows for a language."""
    with open(os.path.join(release, 'docs', 'HOSTS.md')) as file:
        return re.search(rf'^```{language}\n(.*?)^```$', file.read(), re.MULTILINE | re.DOTALL)[1]


def copied(release, work, language):
    """A copy of the examples, where the package of that language lies among the modules of its tests; answers its folder."""
    shutil.copytree(os.path.join(release, 'examples'), os.path.join(work, 'examples'))
    return os.path.join(work, 'examples', language)


# Python.

def wheel_of(release):
    folder = os.path.join(release, 'examples', 'python')
    return os.path.join(folder, *(it for it in os.listdir(folder) if it.endswith('.whl')))


def sums(tally, path):
    """Holds a wheel's files beside the list in it."""
    with zipfile.ZipFile(path) as wheel:
        names = wheel.namelist()
        listing = next(it for it in names if it.endswith('.dist-info/RECORD'))
        rows = list(csv.reader(io.StringIO(wheel.read(listing).decode())))
        tally.expect([row[0] for row in rows] == names and rows[-1] == [listing, '', ''], 'the files that RECORD lists', rows)
        for name, total, length in rows[:-1]:
            held = wheel.read(name)
            wanted = 'sha256=' + base64.urlsafe_b64encode(hashlib.sha256(held).digest()).decode().rstrip('=')
            tally.expect((total, length) == (wanted, str(len(held))), f'the sum of {name}', (total, length))


def platforms(tally, path):
    """Holds the platforms that the wheel lists beside those in its name, of which pip takes one that it runs on."""
    *front, last = os.path.basename(path).removesuffix('.whl').split('-')
    with zipfile.ZipFile(path) as wheel:
        said = wheel.read(next(it for it in wheel.namelist() if it.endswith('.dist-info/WHEEL'))).decode()
    listed = re.findall(r'^Tag: py3-none-(\w+)$', said, re.MULTILINE)
    tally.expect(last.split('.') == listed and front[-2:] == ['py3', 'none'], 'the platforms that the wheel lists', listed)
    tally.expect([it.partition('_')[0] for it in listed] == ['manylinux', 'musllinux'], 'a wheel for glibc and for musl', listed)


def musl(tally, path, work):
    """A host that musl's loader starts, over the library of the wheel."""
    compiler, host = needs('musl-gcc'), os.path.join(work, 'musl-host')
    with zipfile.ZipFile(path) as wheel:
        library = wheel.extract('gate/libgate.so.1', work)
    write(f'{host}.c', MUSL_HOST)
    tally.ends('a host by musl-gcc', run([compiler, f'-I{ROOT}/include', '-o', host, f'{host}.c', library], work))
    tally.prints('a host over musl', run([host], work, LD_LIBRARY_PATH=os.path.dirname(library)), 'accepted\n')


def versions(tally, path, work):
    """Holds the versions of glibc that the library wants beside the one in the wheel's name."""
    needs('objdump')
    most = tuple(map(int, re.search(r'manylinux_(\d+)_(\d+)_', path).groups()))
    with zipfile.ZipFile(path) as wheel:
        library = wheel.extract('gate/libgate.so.1', work)
    said = run(['objdump', '-T', library], work).stdout
    wanted = {tuple(map(int, it.split('.'))) for it in re.findall(r'GLIBC_([\d.]+)', said)}
    tally.expect(wanted and max(wanted)[:2] <= most, 'the versions of glibc that the library wants', wanted)


def python(tally, release, work):
    path, folder, environment = wheel_of(release), copied(release, work, 'python'), os.path.join(work, 'environment')
    sums(tally, path)
    platforms(tally, path)
    attempt(tally, 'the versions of glibc', versions, path, work)
    attempt(tally, 'musl', musl, path, work)
    made = run([sys.executable, '-m', 'venv', environment], work)
    if made.returncode:
        raise Left('no venv')
    interpreter = os.path.join(environment, 'bin', 'python')
    tally.ends('pip', run([interpreter, '-m', 'pip', '-q', 'install', '--no-index', '--no-cache-dir', path], work))
    consumer = os.path.join(work, 'consumer', 'main.py')
    write(consumer, shown(release, 'python'))
    words = [interpreter, consumer, 'examples/guests/upper.wasm', 'hello', 'again']
    tally.prints('the host in Python of HOSTS', run(words, release), PYTHON_PRINTS)
    # The tests take the package that is installed, and the tables of the repository.
    shutil.rmtree(os.path.join(folder, 'gate'))
    for part in ('tests/rows.py', 'crates/suite/data', 'include/gate.h'):
        copy(os.path.join(ROOT, part), os.path.join(work, part))
    tests = run([interpreter, '-m', 'unittest', 'discover', '-s', 'tests', '-t', '.'], folder)
    tally.ends('the tests of the package for Python', tests)
    ran = re.search(r'^Ran (\d+) tests', tests.stderr, re.MULTILINE)
    tally.expect(ran and int(ran[1]) > 0 and 'skipped' not in tests.stderr, 'all tests of the package for Python', tests.stderr[-1000:])
    attempt(tally, 'mypy', types, interpreter, folder, consumer)


def copy(path, to):
    os.makedirs(os.path.dirname(to), exist_ok=True)
    if os.path.isdir(path):
        shutil.copytree(path, to)
    else:
        shutil.copyfile(path, to)


def types(tally, interpreter, folder, consumer):
    checker = needs('mypy')
    words = [checker, '--strict', '--no-error-summary', '--python-executable', interpreter]
    tally.ends('mypy of the package', run([*words, '-p', 'gate'], folder))
    tally.ends('mypy of what uses it', run([*words, 'host.py', 'plugin_host.py', 'tests', consumer], folder))


# Rust.

def rust(tally, release, work):
    needs('cc')
    cargo, folder, consumer = needs('cargo'), copied(release, work, 'rust'), os.path.join(work, 'consumer')
    target = ['--offline', '--quiet', '--target-dir', os.path.join(work, 'target')]
    write(os.path.join(consumer, 'Cargo.toml'), CONSUMER_CRATE.format(folder=folder))
    write(os.path.join(consumer, 'src', 'main.rs'), shown(release, 'rust'))
    manifest = os.path.join(consumer, 'Cargo.toml')
    tally.prints('the host in Rust of HOSTS', run([cargo, 'run', *target, '--manifest-path', manifest], release), RUST_PRINTS)
    tally.ends('the tests of the crate for Rust', run([cargo, 'test', *target], folder))
    elsewhere = run([cargo, 'build', *target], folder, GATE_LIB_DIR='/nowhere')
    is_refused = elsewhere.returncode and 'no libgate.a in /nowhere' in elsewhere.stderr
    tally.expect(is_refused, 'GATE_LIB_DIR comes first', elsewhere.stderr)
    if run([cargo, 'clippy', '--version'], folder).returncode:
        raise Left('no clippy')
    for crate in ('gate', 'gate-sys'):
        tally.ends(f'clippy on {crate}', run([cargo, 'clippy', '-p', crate, '--all-targets', *target, '--', '-D', 'warnings'], folder))


# Go.

def go(tally, release, work):
    needs('cc')
    tool = needs('go', os.environ.get('PATH', '') + ':' + GO_FOLDERS)
    folder, consumer = copied(release, work, 'go'), os.path.join(work, 'consumer')
    offline = {'GOPROXY': 'off', 'GOFLAGS': '-mod=mod', 'GOTOOLCHAIN': 'local', 'GOMODCACHE': os.path.join(work, 'modules')}
    write(os.path.join(consumer, 'go.mod'), CONSUMER_MODULE.format(folder=folder))
    write(os.path.join(consumer, 'main.go'), shown(release, 'go'))
    tally.ends('a host in Go', run([tool, 'build', '-o', 'host', '.'], consumer, **offline))
    tally.prints('the host in Go of HOSTS', run([os.path.join(consumer, 'host')], release), GO_PRINTS)
    tally.ends('go mod vendor', run([tool, 'mod', 'vendor'], consumer, **offline))
    vendored = {**offline, 'GOFLAGS': '-mod=vendor'}
    tally.ends('a host in Go that vendors', run([tool, 'build', '-o', 'vendored', '.'], consumer, **vendored))
    tally.prints('a host in Go that vendors', run([os.path.join(consumer, 'vendored')], release), GO_PRINTS)
    tally.ends('the tests of the module for Go', run([tool, 'test', './...'], folder, **offline))
    tally.ends('go vet', run([tool, 'vet', './...'], folder, **offline))


def again(tally, release, work):
    script = os.path.join(ROOT, 'packaging', 'packages.py')
    made = run([sys.executable, script, '--library', os.path.join(release, 'lib'), '--to', work], work)
    tally.ends('packages.py', made)
    paths = [os.path.relpath(os.path.join(at, name), work) for at, _, names in os.walk(work) for name in names]
    others = [it for it in paths if read(os.path.join(work, it)) != read(os.path.join(release, it))]
    tally.expect(paths and not others, 'what packages.py makes is in the release', others)


def read(path):
    """The bytes of a file; nothing where it is not there."""
    if not os.path.exists(path):
        return None
    with open(path, 'rb') as file:
        return file.read()


def attempt(tally, name, part, *given):
    """A part, which counts what it left out."""
    try:
        part(tally, *given)
    except Left as why:
        tally.left.append(f'{name} ({why})')


def unpacked(path, work):
    """The folder of a release, which may be packed."""
    if os.path.isdir(path):
        return os.path.abspath(path)
    with tarfile.open(path) as archive:
        archive.extractall(work)
    return os.path.join(work, os.path.basename(path).removesuffix('.tar.gz'))


def main(path, wants_all):
    tally = Tally()
    with tempfile.TemporaryDirectory() as work:
        release = unpacked(path, os.path.join(work, 'release'))
        for name, part in (('Python', python), ('Rust', rust), ('Go', go), ('Again', again)):
            os.mkdir(os.path.join(work, name))
            attempt(tally, name, part, release, os.path.join(work, name))
    left = f'{len(tally.left)} left out' + (f': {", ".join(tally.left)}' if tally.left else '')
    print(f'packages: {tally.passed} passed, {tally.failed} failed, {left}')
    return 1 if tally.failed or not tally.passed or wants_all and tally.left else 0


if __name__ == '__main__':
    taken = parser(__doc__)
    taken.add_argument('release', metavar='ARCHIVE_OR_FOLDER', help='what packaging/release packed, or the same unpacked')
    taken.add_argument('--all', action='store_true', help='nothing may be left out')
    words = taken.parse_args()
    sys.exit(main(words.release, words.all))
