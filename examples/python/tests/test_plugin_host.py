"""The program plugin_host.py."""
import os
import subprocess
import sys
import tempfile
import unittest

from tests.modules import EXAMPLES, GOES_ON, LIAR, PLUGIN_HOST, START_TRAPS

OBJECT = '{"name": "gate", "room": 8192}'


def host(module: str, *texts: str) -> tuple[int, str]:
    """The status and what is printed."""
    ran = subprocess.run([sys.executable, PLUGIN_HOST, module, *texts], stdout=subprocess.PIPE, stderr=subprocess.PIPE, text=True)
    return ran.returncode, ran.stdout + ran.stderr


def guest(name: str) -> str:
    return os.path.join(EXAMPLES, 'guests', f'{name}.wasm')


class PlugInHost(unittest.TestCase):
    def host_of(self, module: bytes) -> tuple[int, str]:
        """The host over these bytes, for the texts a and b."""
        with tempfile.TemporaryDirectory() as folder:
            path = os.path.join(folder, 'plug_in.wasm')
            with open(path, 'wb') as file:
                file.write(module)
            return host(path, 'a', 'b')

    def test_upper(self) -> None:
        self.assertEqual(host(guest('upper'), 'hello', 'and again', 'a1\u00fc!'), (0, 'HELLO\nAND AGAIN\nA1\u00fc!\n'))

    def test_pick(self) -> None:
        self.assertEqual(host(guest('pick'), f'name\n{OBJECT}', f'room\n{OBJECT}'), (0, 'gate\n8192\n'))
        self.assertEqual(host(guest('pick'), f'size\n{OBJECT}', f'name\n{OBJECT}'), (1, 'no answer\ngate\n'))

    def test_room(self) -> None:
        # Its room is 8,192 bytes, and each text has all of it.
        self.assertEqual(host(guest('upper'), 'x' * 8192, 'y' * 8192), (0, 'X' * 8192 + '\n' + 'Y' * 8192 + '\n'))
        self.assertEqual(host(guest('upper'), 'x' * 8193, 'y'), (1, 'fault: no room\nY\n'))

    def test_faults(self) -> None:
        outside = 'fault: 2 bytes at 65535 do not lie in a memory of 65536 bytes\n'
        self.assertEqual(self.host_of(LIAR), (1, outside * 2))
        self.assertEqual(self.host_of(GOES_ON), (1, 'fault: no-export\n' * 2))

    def test_no_plug_in(self) -> None:
        self.assertEqual(self.host_of(START_TRAPS), (2, 'no instance: trap unreachable fuel 1\n'))
        self.assertEqual(self.host_of(b'a')[0], 2)
