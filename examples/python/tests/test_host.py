"""The program host.py."""
import os
import subprocess
import sys
import tempfile
import unittest

from tests.modules import EXAMPLES, HOST, example


def host(*words: str, given: bytes = b'') -> tuple[int, bytes]:
    """The status and what is printed."""
    ran = subprocess.run([sys.executable, HOST, *words], input=given, stdout=subprocess.PIPE, stderr=subprocess.DEVNULL)
    return ran.returncode, ran.stdout


class Host(unittest.TestCase):
    def setUp(self) -> None:
        folder = tempfile.TemporaryDirectory()
        self.addCleanup(folder.cleanup)
        self.short = os.path.join(folder.name, 'short.wasm')
        with open(self.short, 'wb') as file:
            file.write(b'\0asm\1\0\0')

    def test_check(self) -> None:
        add = os.path.join(EXAMPLES, 'add.wasm')
        self.assertEqual(host('check', add), (0, b'accepted\n'))
        self.assertEqual(host('check', self.short), (2, b'refused malformed\n'))
        names = os.fsencode(f'{add}\n{self.short}\n{add}')
        self.assertEqual(host('check', '-', given=names), (0, b'accepted\nrefused malformed\naccepted\n'))
        names = os.fsencode(f'{self.short}x\n{add}\n')
        self.assertEqual(host('check', '-', given=names), (74, b'cannot be read\naccepted\n'))

    def test_run(self) -> None:
        module, calls = (os.path.join(EXAMPLES, f'fold.{end}') for end in ('wasm', 'calls'))
        limits = ['1000000', '1024', '256']
        self.assertEqual(host('run', module, calls, *limits), (0, example('fold.report')))
        self.assertEqual(host('run', self.short, calls, *limits), (2, b'refused malformed\n'))
        self.assertEqual(host('run', module, self.short, *limits), (3, b'accepted\ncalls line 1 refused\n'))

    def test_call(self) -> None:
        module = os.path.join(EXAMPLES, 'fold.wasm')
        self.assertEqual(host('call', module, 'fold', 'i32:0', 'i32:10'), (0, b'values i32:385 fuel 31\n'))
        self.assertEqual(host('call', module, 'square', 'i64:-3000000000'), (0, b'values i64:9000000000000000000 fuel 12\n'))
        self.assertEqual(host('call', self.short, 'fold'), (2, b'refused malformed\n'))

    def test_wrong_words(self) -> None:
        module, calls = (os.path.join(EXAMPLES, f'fold.{end}') for end in ('wasm', 'calls'))
        for line in '', 'judge', 'check', f'run {module} {calls} 0 0 0', f'call {module} fold i32:x':
            self.assertEqual(host(*line.split()), (64, b''))
        self.assertEqual(host('check', self.short + 'x'), (74, b''))
