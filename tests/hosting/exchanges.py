"""Plug-ins that ask their host for what they want: the host in Python of HOSTS, and `exchange` of examples/ in the other languages."""
import os
import re
import sys

from tests import rows
from tests.hosting.languages import of_python
from tests.hosting.plug_ins import PLUG_IN
from tests.hosting.processes import needs_folder, started
from tools.files import ROOT

GREET = os.path.join(ROOT, 'examples', 'guests', 'greet.wasm')
# It answers `?` after 100,000 turns, each time. So nine times cost 900,018, and the `alloc` of the tenth leaves 99,981.
ASKS = PLUG_IN + bytes.fromhex('0a 1f 02 04 00 41 08 0b 18 01 01 7f 41 a0 8d 06 21 02 03 40 20 02 41 01 6b 22 02 0d 00 0b 42 01 0b'
                               '0b 07 01 00 41 00 0b 01 3f')
# What each of them is given after the plug-in, what it says, and its status: an exchange with greet costs 4, one for each call.
EXCHANGES = [
    (GREET, ['Hello', '1000', 'name=World'], 'Hello World', 0),
    (GREET, ['Hello', '4', 'else=Moon', 'name=World=all'], 'Hello World=all', 0),
    (GREET, ['Hello', '4', 'name'], 'Hello ', 0),
    (GREET, ['Hello', '4'], 'Hello ', 0),
    (GREET, ['Hello', '3', 'name=World'], 'out-of-fuel', 1),
    (GREET, ['x' * 300, '1000'], 'no.room', 1),
    ('asks', ['Hello', '1000000', 'name=World'], 'out-of-fuel', 1),
    ('traps', ['Hello', '1000'], 'trap unreachable', 1),
]


def shown(language, number=0):
    """A program in that language that HOSTS shows."""
    with open(os.path.join(ROOT, 'docs', 'HOSTS.md')) as file:
        return re.findall(rf'^```{language}\n(.*?)^```$', file.read(), re.MULTILINE | re.DOTALL)[number].encode()


def compare_exchange(tally, name, words, work, environment=None):
    """A host in another language: what it says, and that all calls together have the fuel."""
    asks = os.path.join(work, f'asks {name}')
    rows.write(asks, ASKS)
    for plug_in, given, wanted, status in EXCHANGES:
        path = asks if plug_in == 'asks' else os.path.join(work, plug_in)
        out, got, error = started([*words, path, *given], None, environment)
        said = (out + error).decode()
        holds = out == wanted.encode() + b'\n' and not error if status == 0 else re.search(wanted, said)
        tally.expect(holds and got == status, f'{name}: an exchange for {given[1:]}', (out, got, error))


def exchange_of_python(tally, folder, work):
    """The host of HOSTS."""
    host, environment = os.path.join(work, 'exchange.py'), {**of_python(folder), 'PYTHONPATH': needs_folder('python')}
    rows.write(host, shown('python', 1))
    got = started([sys.executable, host, 'examples/guests/greet.wasm', 'Hello'], None, environment, cwd=ROOT)
    tally.expect(got == (b'Hello World\n', 0, b''), 'the exchange of HOSTS', got)
    rows.write(os.path.join(work, 'asks.wasm'), ASKS)
    got = started([sys.executable, host, os.path.join(work, 'asks.wasm'), 'Hello'], None, environment, cwd=ROOT)
    tally.expect(got[1] == 1 and got[2].endswith(b'CallError: out-of-fuel fuel 99981\n'), 'an exchange without end', got)
