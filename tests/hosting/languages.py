"""The hosts of examples/, in each language whose compiler is on the machine."""
import os
import re
import sys
from typing import NamedTuple

from tools import library
from tests.hosting.compiling import INCLUDE, WARNINGS, debugged
from tests.hosting.processes import Left, built, needs, needs_folder

# Where the tools of Go stand that are not on the PATH.
GO_FOLDERS = '/usr/local/go/bin:/usr/lib/go/bin'


class Host(NamedTuple):
    name: str
    check: list
    run: list
    call: list
    environment: dict = {}
    plug_in: list = []
    # The process for a plug-in, and the host that sets it deadlines.
    worker: str = ''
    deadline_host: str = ''
    exchange: str = ''


def by_words(name, words, environment=None, plug_in=()):
    """A host whose first word says what it is to do."""
    return Host(name, [*words, 'check', '-'], [*words, 'run'], [*words, 'call'], environment or {}, list(plug_in))


def c_host(name, folder, work, linked):
    needs('cc')
    target = os.path.join(work, re.sub(r'\W', '_', name))
    flags = 'CFLAGS=' + ' '.join(['-O2'] + WARNINGS)
    built([needs('make'), '-s', '-C', needs_folder('c'), f'LIBRARY={folder}', f'TO={target}', flags] + linked)
    names = 'judge_folder', 'run_batch', 'call', 'plugin_host', 'worker', 'deadline_host', 'exchange'
    judge_folder, run_batch, call, plug_in, worker, deadline_host, exchange = [os.path.join(target, it) for it in names]
    return Host(name, [judge_folder, '-'], [run_batch], [call], {}, [plug_in], worker, deadline_host, exchange)


def static_host(folder, work):
    return c_host('C', folder, work, [])


def shared_host(folder, work):
    return c_host('C (shared)', folder, work, [f'LDLIBS=-L{folder} -lgate -Wl,-rpath,{folder} -pthread'])


def debugged_host(folder, work):
    flags, source = debugged()[:-1], debugged()[-1]
    archive = os.path.join(folder, library.ARCHIVE)
    return c_host('C (debug)', folder, work, ['CPPFLAGS=' + ' '.join(flags), f'LDLIBS={source} {archive} -pthread'])


def cargo(folder, work, *words):
    """Runs cargo on the package; answers where it puts what it builds."""
    target = os.path.join(work, 'rust')
    options = ['--quiet', '--release', '--offline', '--target-dir', target]
    built([needs('cargo'), *words, *options], cwd=needs_folder('rust'), environment={'GATE_LIB_DIR': folder})
    return target


def rust_host(folder, work):
    return by_words('Rust', [os.path.join(cargo(folder, work, 'build'), 'release', 'gate-host')])


def of_python(folder):
    return {'GATE_LIBRARY': os.path.join(folder, library.SHARED)}


def python_host(folder, work):
    host, plug_in = [[sys.executable, os.path.join(needs_folder('python'), name)] for name in ('host.py', 'plugin_host.py')]
    return by_words('Python', host, of_python(folder), plug_in)


def go(folder, *words):
    """Runs go on the package."""
    tool = needs('go', os.environ.get('PATH', '') + ':' + GO_FOLDERS)
    environment = {'CGO_LDFLAGS': f'-L{folder}', 'CGO_CFLAGS': f'-I{INCLUDE}', 'GOPROXY': 'off', 'LD_LIBRARY_PATH': folder}
    built([tool, *words], cwd=needs_folder('go'), environment=environment)


def go_host(folder, work):
    target = os.path.join(work, 'go-host')
    go(folder, 'build', '-o', target, './host')
    return by_words('Go', [target], {'LD_LIBRARY_PATH': folder})


HOSTS = {'C': static_host, 'C (shared)': shared_host, 'C (debug)': debugged_host, 'Rust': rust_host, 'Python': python_host,
         'Go': go_host}


def hosts(tally, pool, folder, work):
    """Builds the hosts, side by side."""
    found = []
    for name, host in [(name, pool.submit(make, folder, work)) for name, make in HOSTS.items()]:
        try:
            found.append(host.result())
        except Left as why:
            tally.leave_out(name, why)
        except RuntimeError as error:
            tally.expect(False, f'{name} is not built', error)
    return found
