"""The worker, a process for one plug-in, and the hosts that set it deadlines: the one in C, and the one in Python of HOSTS."""
import os
import sys

from tests import rows
from tests.hosting.exchanges import shown
from tests.hosting.plug_ins import PLUG_IN
from tests.hosting.processes import started
from tools.files import ROOT

UPPER, ADD = (os.path.join(ROOT, 'examples', it) for it in ('guests/upper.wasm', 'add.wasm'))
# The head of a plug-in whose `alloc` has another type, as PLUG_IN else.
EXPORTS = bytes.fromhex('03 03 02 00 01 05 03 01 00 01 07 12 02 05 616c6c6f63 00 00 06 68616e646c65 00 01')
MODULES = {
    # handle answers with the text, but turns for ever where it has one byte.
    'turns': PLUG_IN + bytes.fromhex('0a 20 02 04 00 41 08 0b 19 00 20 01 41 01 46 04 40 03 40 0c 00 0b 0b'
                                     '20 00 ad 42 20 86 20 01 ad 84 0b'),
    # handle enters itself.
    'enters': PLUG_IN + bytes.fromhex('0a 0f 02 04 00 41 08 0b 08 00 20 00 20 01 10 01 0b'),
    # handle counts its calls, and answers with as many bytes from the text on. A text of one byte is `unreachable`.
    'counts': bytes.fromhex('0061736d01000000 01 0c 02 60 01 7f 01 7f 60 02 7f 7f 01 7e 03 03 02 00 01 05 03 01 00 01'
                            '06 06 01 7f 01 41 00 0b 07 12 02 05 616c6c6f63 00 00 06 68616e646c65 00 01 0a 23 02 04 00 41 08 0b'
                            '1c 00 20 01 41 01 46 04 40 00 0b 23 00 41 01 6a 24 00 20 00 ad 42 20 86 23 00 ad 84 0b'),
    # alloc has no result, or no parameter.
    'gives nothing': bytes.fromhex('0061736d01000000 01 0b 02 60 01 7f 00 60 02 7f 7f 01 7e') + EXPORTS
                     + bytes.fromhex('0a 09 02 02 00 0b 04 00 42 7f 0b'),
    'takes nothing': bytes.fromhex('0061736d01000000 01 0b 02 60 00 01 7f 60 02 7f 7f 01 7e') + EXPORTS
                     + bytes.fromhex('0a 0b 02 04 00 41 08 0b 04 00 42 7f 0b'),
    # The start function is `unreachable`.
    'fails to start': bytes.fromhex('0061736d01000000 01 04 01 60 00 00 03 02 01 00 08 01 00 0a 05 01 03 00 00 0b'),
    'no module': b'oops',
}
# Of each plug-in the options, what is read, what is written, and the status.
AB = b'2\nab'
WORKER = [
    (UPPER, [], b'5\nhello9\nand again', b'values 5 fuel 4\nHELLOvalues 9 fuel 5\nAND AGAIN', 0),
    (UPPER, [], b'8193\n' + b'x' * 8193 + b'1\ny', b'no-room fuel 1\nvalues 1 fuel 3\nY', 0),
    ('counts', [], AB * 3, b'values 1 fuel 2\na' * 3, 0),
    ('counts', [], b'0\n', b'values 1 fuel 2\n\0', 0),
    ('counts', ['--keep'], AB * 2 + b'1\nx' + AB * 2,
     b'values 1 fuel 2\navalues 2 fuel 2\nabtrap unreachable fuel 2\nvalues 1 fuel 2\navalues 2 fuel 2\nab', 0),
    ('turns', ['--fuel', '10'], b'1\nx' + AB, b'out-of-fuel fuel 10\nvalues 2 fuel 2\nab', 0),
    ('enters', ['--frames', '5'], AB * 2, b'out-of-frames fuel 6\n' * 2, 0),
    ('counts', ['--pages', '0'], AB * 2, b'not-started memory-limit\n' * 2, 0),
    ('fails to start', [], AB * 2, b'trap unreachable fuel 1\n' * 2, 0),
    ('no module', [], AB * 2, b'refused malformed\n' * 2, 2),
    ('no module', [], b'', b'', 2),
    (ADD, [], AB * 2, b'no-export\n' * 2, 0),
    ('takes nothing', [], AB, b'bad-arguments\n', 0),
    ('gives nothing', [], AB, b'no-number fuel 1\n', 0),
    ('traps', ['--keep'], AB * 2, b'trap unreachable fuel 2\n' * 2, 0),
    ('has no room', [], AB, b'no-room fuel 1\n', 0),
    ('has no answer', [], AB, b'no-answer fuel 2\n', 0),
    ('points outside', [], AB, b'outside fuel 1\n', 0),
    ('lies', [], AB, b'outside fuel 2\n', 0),
    ('boasts', [], AB, b'outside fuel 2\n', 0),
    ('turns', [], b'', b'', 0),
    *(('turns', [], AB + frame, b'values 2 fuel 2\nabbad-frame length\n', 3)
      for frame in (b'\n', b'two\nab', b'02\nab', b'00\n', b'2 \nab', b'+2\nab', b'-2\nab', b'2\r\nab', b'\0', b' 2\nab')),
    *(('turns', [], frame, b'bad-frame too-large\n', 3) for frame in (b'67108865\n', b'9' * 100)),
    *(('turns', [], AB + frame, b'values 2 fuel 2\nabbad-frame cut-short\n', 3) for frame in (b'2', b'2\n', b'2\na', b'67108864\nab')),
]
WRONG_WORDS = [[], ['--wrong'], ['--keep', '2'], ['--fuel'], ['--fuel', '1000000001'], ['--pages', '1025'], ['--frames', '4097'],
               ['--frames', '0'], ['--frames', 'x'], ['--fuel', '-1']]
# How many seconds a host may take: less than one that waits for each script that sleeps.
LONGEST = 60
# Scripts in the place of the worker: one that ends at once, one that does nothing, and two that answer in part.
SCRIPTS = {'ends': 'exit 0', 'sleeps': 'exec sleep 60', 'answers in part': "printf 'values 9 fuel 2\\nabc'",
           'stops in an answer': "printf 'values 9 fuel 2\\nabc'; exec sleep 60"}
# Deadlines in milliseconds: one that nothing meets which does not end, one that an answer meets too, and one that none misses.
AT_ONCE, SOON, LATE = 200, 2000, 60_000
LONG = 'ab' * 30_000
# Of each worker and plug-in the deadline, the texts, the lines that both hosts print, and how many workers there were, if the last answers.
DEADLINES = [
    ('worker', UPPER, LATE, ['hello', 'and again', ''], ['HELLO', 'AND AGAIN', ''], 1),
    ('worker', UPPER, LATE, ['x' * 8193, 'y'], ['no-room fuel 1', 'Y'], 1),
    ('worker', 'traps', LATE, ['ab', 'cd'], ['trap unreachable fuel 2'] * 2, 1),
    ('worker', 'no module', LATE, ['ab', 'cd'], ['refused malformed'] * 2, 1),
    ('worker', 'turns', LATE, [LONG, 2 * LONG, 'ab'], [LONG, 'outside fuel 1', 'ab'], 1),
    ('worker', 'turns', SOON, ['ab', 'x', 'cd', 'x', 'ef'], ['ab', 'deadline', 'cd', 'deadline', 'ef'], 3),
    ('ends', UPPER, LATE, ['ab', 'cd'], ['ended'] * 2, None),
    ('answers in part', UPPER, LATE, ['ab', 'cd'], ['ended'] * 2, None),
    ('sleeps', UPPER, AT_ONCE, ['ab', 2 * LONG], ['deadline'] * 2, None),
    ('stops in an answer', UPPER, AT_ONCE, ['ab', 'cd'], ['deadline'] * 2, None),
]


def write_modules(place):
    """Writes the plug-ins there, beside those by hand of plug_ins.py."""
    for name, module in MODULES.items():
        rows.write(os.path.join(place, name), module)


def compare_worker(tally, host, place, before=()):
    """What the worker writes for texts, and for what is none."""
    for name, options, given, wanted, status in WORKER:
        out, got, error = started([*before, host.worker, os.path.join(place, name), *options], given)
        tally.expect((out, got, error) == (wanted, status, b''), f'{host.name}: a worker of {name} for {given[:20]!r}', (out, got, error))
    for words in WRONG_WORDS:
        out, got, error = started([host.worker, *([UPPER] if words else []), *words], AB)
        tally.expect((out, got) == (b'', 64) and error.count(b'\n') == 1, f'{host.name}: a worker with {words}', (out, got, error))
    out, got, error = started([host.worker, os.path.join(place, 'no such module')], AB)
    tally.expect((out, got) == (b'', 74) and b'cannot read' in error, f'{host.name}: a worker without a module', (out, got, error))


def is_alive(process):
    """Whether there is still such a process."""
    try:
        os.kill(process, 0)
        return True
    except ProcessLookupError:
        return False


def script(path, lines):
    rows.write(path, f'#!/bin/sh\necho $$ >> "$PROCESSES"\n{lines}\n'.encode())
    os.chmod(path, 0o755)


def compare_deadlines(tally, host, place):
    """The hosts in C and in Python: what they print, and that each worker was ended."""
    work = os.path.join(place, host.name + ' workers')
    os.mkdir(work)
    for name, lines in {**SCRIPTS, 'worker': f'exec "{host.worker}" "$@"'}.items():
        script(os.path.join(work, name), lines)
    rows.write(os.path.join(work, 'host.py'), shown('python', 2))
    for words in ([host.deadline_host], [sys.executable, os.path.join(work, 'host.py')]):
        for number, (worker, name, deadline, texts, wanted, workers) in enumerate(DEADLINES):
            processes = os.path.join(work, f'{os.path.basename(words[-1])}-{number}')
            rows.write(processes, b'')
            given = [*words, os.path.join(work, worker), os.path.join(place, name), str(deadline), *texts]
            out, got, error = started(given, None, {'PROCESSES': processes}, LONGEST)
            holds = (out.decode(), got, error) == (''.join(f'{it}\n' for it in wanted), 0, b'')
            tally.expect(holds, f'{host.name}: {words[-1]}: {worker}, {name}', (out[:200], got, error))
            with open(processes) as file:
                begun = [int(it) for it in file]
            holds = workers in (None, len(begun)) and not any(map(is_alive, begun))
            tally.expect(holds, f'{host.name}: {words[-1]}: the processes of {worker}, {name}', (begun, workers))
