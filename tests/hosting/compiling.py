"""Programs in C and C++ over the library, by the compilers, with all warnings."""
import glob
import os

from tools import library
from tests.hosting.processes import built, needs
from tools.files import ROOT

INCLUDE = os.path.join(ROOT, 'include')
HEADER = os.path.join(INCLUDE, 'gate.h')
DEBUG = os.path.join(ROOT, 'debug')
WARNINGS = ['-Wall', '-Wextra', '-pedantic', '-Werror']
MORE_WARNINGS = ['-Wconversion', '-Wsign-conversion', '-Wshadow']


def compile_c(source, target, folder, more=()):
    """A file of tests/, or all those of a folder there."""
    path = os.path.join(ROOT, 'tests', source)
    words = [needs('cc'), '-std=c11', '-O2', *WARNINGS, f'-I{INCLUDE}', '-o', target, *(sorted(glob.glob(f'{path}/*.c')) or [path])]
    built(words + [*more, os.path.join(folder, library.ARCHIVE), '-pthread'])


def compile_cpp(source, target, folder, standard, more=()):
    words = [needs('c++'), f'-std={standard}', *WARNINGS, *MORE_WARNINGS, f'-I{INCLUDE}', '-o', target, source]
    built([*words, *more, os.path.join(folder, library.ARCHIVE), '-pthread'])


def debugged():
    """What a compiler is told of a host in C of which each call is looked at first."""
    return ['-DGATE_DEBUG', f'-I{DEBUG}', os.path.join(DEBUG, 'gate_debug.c')]
