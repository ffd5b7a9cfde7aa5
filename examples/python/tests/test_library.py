"""Finding the library."""
import ctypes.util
import os
import shutil
import subprocess
import sys
import tempfile
import unittest

import gate
from gate import _library
from tests.modules import ROOT

PACKAGE = os.path.dirname(os.path.abspath(gate.__file__))
BESIDE = os.path.basename(_library.BESIDE)


class Library(unittest.TestCase):
    def setUp(self) -> None:
        folder = tempfile.TemporaryDirectory()
        self.addCleanup(folder.cleanup)
        self.release, self.folder = folder.name, os.path.join(folder.name, 'examples', 'python')
        self.package = os.path.join(self.folder, 'gate')
        shutil.copytree(PACKAGE, self.package, ignore=shutil.ignore_patterns(BESIDE, '__pycache__'))

    def imports_with(self, library: str) -> str:
        """The last line of what Python says where the environment names that library, of a package without one beside it."""
        ran = subprocess.run([sys.executable, '-c', 'import gate; assert gate.check(b"").refusal'],
                             env={**os.environ, 'GATE_LIBRARY': library}, cwd=self.folder, capture_output=True, text=True)
        return ran.stderr.splitlines()[-1] if ran.returncode else ''

    def test_build(self) -> None:
        self.assertRegex(gate.build(), rf'^gate {gate.__version__} \(commit \S{{12}}, rattle-kit-\w+\)$')

    def test_missing(self) -> None:
        self.assertRegex(self.imports_with('/nowhere/libgate.so.1'), 'ImportError: /nowhere/libgate.so.1 is no libgate')

    def test_another(self) -> None:
        self.assertRegex(self.imports_with(ctypes.util.find_library('c') or ''), 'ImportError: .* is no libgate: .*gate_version')

    def test_beside_comes_first(self) -> None:
        found = _library.find()
        if found is None or not os.path.exists(found):
            self.skipTest('the library is found by name')
        self.assertEqual(self.imports_with(found), '')
        shutil.copyfile(found, os.path.join(self.package, BESIDE))
        self.assertEqual(self.imports_with('/nowhere/libgate.so.1'), '')

    def test_in_a_release(self) -> None:
        found = _library.find()
        if found is None or not os.path.exists(found):
            self.skipTest('the library is found by name')
        os.mkdir(os.path.join(self.release, 'lib'))
        shutil.copyfile(found, os.path.join(self.release, 'lib', BESIDE))
        self.assertEqual(self.imports_with(''), '')
        # The environment comes first.
        self.assertRegex(self.imports_with('/nowhere/libgate.so.1'), 'ImportError: /nowhere/libgate.so.1 is no libgate')

    def test_version(self) -> None:
        with open(os.path.join(ROOT, 'include', 'gate.h')) as header:
            self.assertIn(f'#define GATE_VERSION "{gate.__version__}"\n', header.readlines())
