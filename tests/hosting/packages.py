"""The tests of the packages for Rust, Go and Python, and of the addon for Node."""
import os
import sys

from tests import rows
from tools import library
from tests.hosting.compiling import INCLUDE, WARNINGS
from tests.hosting.exchanges import compare_exchange, shown
from tests.hosting.languages import Host, cargo, go, of_python
from tests.hosting.plug_ins import compare_plug_ins
from tests.hosting.processes import Left, built, needs, needs_folder, started
from tools.files import ROOT

NODE_HEADERS = '/usr/include/node'


def tests_of_rust(tally, folder, work):
    target = cargo(folder, work, 'test')
    tally.expect(True, 'cargo test')
    compare_exchange(tally, 'Rust', [os.path.join(target, 'release', 'examples', 'exchange')], work)


def tests_of_go(tally, folder, work):
    go(folder, 'test', './...')
    tally.expect(True, 'go test')
    target = os.path.join(work, 'go-exchange')
    go(folder, 'build', '-o', target, './exchange')
    compare_exchange(tally, 'Go', [target], work, {'LD_LIBRARY_PATH': folder})


def tests_of_python(tally, folder):
    needs_folder('python')
    words = [sys.executable, '-m', 'unittest', 'discover', '-s', 'tests', '-t', '.']
    got = started(words, None, of_python(folder), cwd=needs_folder('python'))
    tally.expect(got[1] == 0, 'the tests of the package for Python', got[2][-600:])


def types_of_python(tally, work):
    words = [needs('mypy'), '--strict', '--cache-dir', os.path.join(work, 'mypy'), 'gate', 'tests', 'host.py', 'plugin_host.py']
    got = started(words, cwd=needs_folder('python'))
    tally.expect(got[1] == 0, 'the types of the package for Python', got[0])


def node_addon(folder, work):
    """Builds the addon, where Node and its headers are; what its users are told of it."""
    if not os.path.exists(os.path.join(NODE_HEADERS, 'node_api.h')):
        raise Left('no headers of Node')
    needs('node')
    target, source = os.path.join(work, 'gate.node'), os.path.join(needs_folder('node'), 'addon.c')
    words = [needs('cc'), '-std=c11', '-O2', *WARNINGS, '-shared', '-fPIC', f'-I{INCLUDE}', f'-I{NODE_HEADERS}', '-o', target, source]
    built([*words, os.path.join(folder, library.ARCHIVE)])
    return {'GATE_NODE': target}


def node(tally, folder, work, place):
    """The tests of the addon, the host of plug-ins over it, and the one that HOSTS shows."""
    environment = node_addon(folder, work)
    got = started(['node', '--test', os.path.join(needs_folder('node'), 'test.js')], None, environment)
    tally.expect(got[1] == 0 and b'# fail 0' in got[0], 'the tests of the addon for Node', got[0][-600:])
    words = ['node', os.path.join(needs_folder('node'), 'plugin_host.js')]
    compare_plug_ins(tally, Host('Node', [], [], [], environment, words), place)
    compare_exchange(tally, 'Node', ['node', os.path.join(needs_folder('node'), 'exchange.js')], place, environment)
    packages, host = os.path.join(work, 'node_modules'), os.path.join(work, 'host.js')
    os.makedirs(packages)
    os.symlink(needs_folder('node'), os.path.join(packages, 'gate'))
    rows.write(host, shown('js'))
    got = started(['node', host, 'examples/guests/upper.wasm', 'hello', 'again'], None, environment, cwd=ROOT)
    tally.expect(got == (b'HELLO\nAGAIN\n', 0, b''), 'the host in Node of HOSTS', got)
