"""Hosts of plug-ins, over those of examples/ and over plug-ins by hand that lie, trap, leave their stack or have no room."""
import os

from tests import rows
from tests.hosting.processes import started
from tools.files import ROOT

# Plug-ins by hand: a memory of one page, and `alloc` of type [i32] -> [i32], `handle` of type [i32 i32] -> [i64], with these bodies.
PLUG_IN = bytes.fromhex('0061736d01000000 01 0c 02 60 01 7f 01 7f 60 02 7f 7f 01 7e 03 03 02 00 01 05 03 01 00 01'
                        '07 12 02 05 616c6c6f63 00 00 06 68616e646c65 00 01')
BODIES = {
    # alloc gives 8; handle says that the answer is two bytes at 65,535, or 4,294,967,295 bytes at 0.
    'lies': '0a 13 02 04 00 41 08 0b 0c 00 42 ff ff 03 42 20 86 42 02 84 0b',
    'boasts': '0a 0f 02 04 00 41 08 0b 08 00 42 ff ff ff ff 0f 0b',
    # handle is `unreachable`.
    'traps': '0a 0a 02 04 00 41 08 0b 03 00 00 0b',
    # alloc gives 65,535, or 0.
    'points outside': '0a 0d 02 06 00 41 ff ff 03 0b 04 00 42 7f 0b',
    'has no room': '0a 0b 02 04 00 41 00 0b 04 00 42 7f 0b',
    # handle gives -1.
    'has no answer': '0a 0b 02 04 00 41 08 0b 04 00 42 7f 0b',
}
BY_HAND = {name: PLUG_IN + bytes.fromhex(body) for name, body in BODIES.items()}
# As a compiler makes it: handle takes a frame of 8 bytes of a stack of 16, which the global 0 points to, writes to it, gives it back, and
# answers with the text. For a text of one byte it is `unreachable` before it gives the frame back. So the third such call would write
# at -8, where nobody resets the instance.
BY_HAND['leaves its stack'] = bytes.fromhex(
    '0061736d01000000 01 0c 02 60 01 7f 01 7f 60 02 7f 7f 01 7e 03 03 02 00 01 05 03 01 00 01 06 06 01 7f 01 41 10 0b'
    '07 12 02 05 616c6c6f63 00 00 06 68616e646c65 00 01 0a 32 02 05 00 41 c0 00 0b'
    '2a 00 23 00 41 08 6b 24 00 23 00 41 00 3a 00 00 20 01 41 01 46 04 40 00 0b 23 00 41 08 6a 24 00'
    '20 00 ad 42 20 86 20 01 ad 84 0b')
OBJECT = '{"name": "gate", "room": 8192}'
# Of each plug-in the texts, the lines that are wanted, and the status. Of a fault the words are the host's own, but for the name of an end.
PLUG_INS = {
    'examples/guests/upper.wasm': [(['hello', 'and again', 'a-\u00fc'], ['HELLO', 'AND AGAIN', 'A-\u00fc'], 0),
                                   (['x' * 8193, 'y'], ['fault', 'Y'], 1), ([], [], 0)],
    'examples/guests/pick.wasm': [([f'name\n{OBJECT}', f'room\n{OBJECT}'], ['gate', '8192'], 0),
                                  ([f'size\n{OBJECT}', f'name\n{OBJECT}'], ['no answer', 'gate'], 1)],
    'examples/add.wasm': [(['ab', 'cd'], ['fault', 'fault'], 1)],
    **{name: [(['ab', 'cd'], ['fault'] * 2, 1)] for name in ('lies', 'boasts', 'points outside', 'has no room')},
    'traps': [(['ab', 'cd'], ['fault: trap unreachable'] * 2, 1)],
    'has no answer': [(['ab', 'cd'], ['no answer'] * 2, 1)],
    'leaves its stack': [(['a', 'b', 'c', 'de'], ['fault: trap unreachable'] * 3 + ['de'], 1)],
}


def write_plug_ins(place):
    """Writes the plug-ins by hand there."""
    for name, module in BY_HAND.items():
        rows.write(os.path.join(place, name), module)


def is_told(line, wanted):
    """Whether a host prints the wanted line."""
    return line.startswith(wanted) if wanted.startswith('fault') else line == wanted


def compare_plug_ins(tally, host, place, before=()):
    """A host of plug-ins, over those by hand and those of examples/."""
    for name, cases in PLUG_INS.items():
        path = os.path.join(place if name in BY_HAND else ROOT, name)
        for texts, wanted, status in cases:
            out, got, error = started([*before, *host.plug_in, path, *texts], None, host.environment)
            lines = out.decode().splitlines()
            holds = len(lines) == len(wanted) and all(is_told(*it) for it in zip(lines, wanted))
            tally.expect(holds and (got, error) == (status, b''), f'{host.name}: the plug-in {name}', (out, got, error))
