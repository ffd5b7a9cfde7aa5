"""Runs the plug-ins of examples/guests, and compiles them anew where their compilers are on the machine.

committed  each module is accepted, and its text of calls gives the report beside it, byte by byte
compiled   by the Makefile, where clang finds wasm-ld, and where rustc has the target: each is accepted, and answers the same. Fuel is not
           compared, since another compiler makes other loops. What is left out is named; the variables of the Makefile choose tools.
"""
import glob
import os
import re
import shutil
import subprocess
import sys
import tempfile

from tools.arguments import program
from tools.counting import Count

GUESTS = os.path.join(os.path.dirname(os.path.abspath(__file__)), '..', 'examples', 'guests')
# Seconds that a command may take; a program without a proof is slow.
LONGEST = 600
PLUG_INS = {'steps': 'C', 'pick': 'C', 'greet': 'C', 'upper': 'Rust'}


def started(*words):
    """The status of a command, and what it says; no status where there is no such command, and words where it does not end."""
    try:
        ran = subprocess.run(words, stdout=subprocess.PIPE, stderr=subprocess.STDOUT, timeout=LONGEST)
    except FileNotFoundError:
        return None, b''
    except subprocess.TimeoutExpired:
        return 'no end', b''
    return ran.returncode, ran.stdout


def beside(name, ending):
    with open(os.path.join(GUESTS, f'{name}.{ending}'), 'rb') as file:
        return file.read()


def without_fuel(report):
    return re.sub(rb' fuel \d+$', b'', report, flags=re.MULTILINE)


def compiles_c(folder):
    """Whether the compiler of C makes a module of an empty file."""
    words = ['--target=wasm32', '-mcpu=mvp', '-nostdlib', '-Wl,--no-entry', '-x', 'c', os.devnull, '-o', os.path.join(folder, 'empty')]
    return started(*os.environ.get('CLANG', 'clang').split(), *words)[0] == 0


def compiles_rust(_):
    """Whether the compiler of Rust has the target, and there is a linker."""
    target = os.environ.get('RUST_TARGET', 'wasm32-unknown-unknown')
    status, said = started(os.environ.get('RUSTC', 'rustc'), '--print', 'target-libdir', '--target', target)
    there = glob.glob(os.path.join(said.decode().strip(), 'libcore-*.rlib')) if status == 0 else []
    return bool(there) and shutil.which(os.environ.get('WASM_LD', 'wasm-ld')) is not None


def committed(count, gate, name):
    module, calls = (os.path.join(GUESTS, f'{name}.{ending}') for ending in ('wasm', 'calls'))
    count.equal(f'{name} is accepted', started(gate, 'check', module), (0, b'accepted\n'))
    count.equal(f'the report of {name}', started(gate, 'run', module, calls), (0, beside(name, 'report')))


def compiled(count, gate, name, folder):
    module, calls = os.path.join(folder, f'{name}.wasm'), os.path.join(GUESTS, f'{name}.calls')
    status, said = started('make', '-s', '-C', GUESTS, f'TO={folder}', module)
    count.equal(f'{name} is compiled without a warning', (status, said), (0, b''))
    count.equal(f'{name}, compiled anew, is accepted', started(gate, 'check', module), (0, b'accepted\n'))
    status, said = started(gate, 'run', module, calls)
    count.equal(f'the report of {name}, compiled anew', (status, without_fuel(said)), (0, without_fuel(beside(name, 'report'))))


def main(gate):
    """Runs both parts; 1 where something does not hold."""
    count = Count('guests')
    for name in PLUG_INS:
        committed(count, gate, name)
    with tempfile.TemporaryDirectory() as folder:
        has_make = shutil.which('make') is not None
        can = {'C': has_make and compiles_c(folder), 'Rust': has_make and compiles_rust(folder)}
        for name, language in PLUG_INS.items():
            if can[language]:
                compiled(count, gate, name, folder)
            else:
                print(f'guests: {name} is not compiled anew: no compiler of {language} that makes modules, or no linker')
    return count.status()


if __name__ == '__main__':
    sys.exit(main(program(__doc__)))
