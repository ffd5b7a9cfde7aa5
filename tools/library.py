"""Makes the library for hosts in other languages from the object that `rt lib` left of the proved crate c_api.

FOLDER gets libgate.a, one object in which the three functions of the heap from the kit stand too, so that a host links nothing else, and
whose names but those of gate.h are its own, so that another library of this kit may stand beside it in a host;
libgate.so.1, which exports the functions of include/gate.h alone; and libgate.so, a link to it. The same objects give the same bytes.
libgate.so.1 tells the loader which processors it wants, where the linker can say so, and debuggers by a hash of its bytes which one it is.
With --commit the twelve dashes of the text of gate_build are those characters in what is made.
"""
import os
import subprocess
import sys
import tempfile

from .arguments import parser
from .files import ROOT
from .kit import in_kit

MAP = os.path.join(ROOT, 'include', 'gate.map')
CRATE_OUT = os.path.join(ROOT, 'crates', 'c_api', 'out')
ARCHIVE, SHARED, LINK = 'libgate.a', 'libgate.so.1', 'libgate.so'
HEAP = os.path.join('c', 'liblibc_c.a')
# What the kit links a program with.
OF_PROGRAMS = [os.path.join('c', 'libos_c.a'), HEAP]
# What stands for the commit in the text of a build, in the library and in the program.
DASHES = b'(commit ------------, '
# The loader refuses the library on a processor below this level.
LEVEL = '-Wl,-z,x86-64-v2'


def run(words, **settings):
    ran = subprocess.run(words, capture_output=True, text=True, **settings)
    if ran.returncode:
        sys.exit(f'library: {words[0]} failed:\n{ran.stderr}')


def objects_of(archive, folder):
    """Takes the objects of an archive out into a folder of their own."""
    os.mkdir(folder)
    run(['ar', 'x', archive], cwd=folder)
    return [os.path.join(folder, name) for name in sorted(os.listdir(folder))]


def make_archive(archives, path):
    with tempfile.TemporaryDirectory() as folder:
        objects = [it for n, archive in enumerate(archives) for it in objects_of(archive, os.path.join(folder, str(n)))]
        joined = os.path.join(folder, 'libgate.o')
        run(['ld', '-r', '-o', joined, *objects])
        run(['objcopy', '--wildcard', '--keep-global-symbol=gate_*', joined])
        if os.path.exists(path):
            os.remove(path)
        # D: no times, owners and modes of files.
        run(['ar', 'qcsD', path, joined])


def make_shared(archive, path):
    words = ['cc', '-shared', '-o', path, f'-Wl,-soname,{SHARED}', f'-Wl,--version-script={MAP}', '-Wl,-z,defs', '-Wl,-z,now',
             '-Wl,--build-id=sha1', '-Wl,--strip-debug', '-Wl,--whole-archive', archive, '-Wl,--no-whole-archive']
    if subprocess.run([*words, LEVEL], capture_output=True).returncode:
        run(words)


def stamped(path, commit):
    """The bytes of a file in which the commit stands for the dashes, which have to stand there once."""
    with open(path, 'rb') as file:
        held = file.read()
    if held.count(DASHES) != 1:
        sys.exit(f'library: {path} has {DASHES.decode()!r} {held.count(DASHES)} times, and not once')
    text = f'(commit {commit}, '.encode()
    if len(text) != len(DASHES):
        sys.exit(f'library: {commit!r} has not twelve characters')
    return held.replace(DASHES, text)


def stamp(path, commit):
    held = stamped(path, commit)
    with open(path, 'wb') as file:
        file.write(held)


def make_program(of_crate, path):
    """Links the program from its object with all that it wants of the C library, so that it starts on each Linux."""
    run(['cc', '-static-pie', '-o', path, of_crate, *map(in_kit, OF_PROGRAMS), '-Wl,-z,now',
         '-Wl,--build-id=sha1', '-Wl,--strip-debug'])


def make(crate_out, folder, commit=None):
    """Makes the library in the folder."""
    proved = os.path.abspath(os.path.join(crate_out, 'libc_api.a'))
    if not os.path.exists(proved):
        sys.exit(f'library: {proved} is missing: run `rt lib` in crates/c_api, or `./prove c_api`, first')
    os.makedirs(folder, exist_ok=True)
    archive, link = os.path.join(folder, ARCHIVE), os.path.join(folder, LINK)
    make_archive([proved, in_kit(HEAP)], archive)
    if commit:
        stamp(archive, commit)
    make_shared(archive, os.path.join(folder, SHARED))
    if os.path.lexists(link):
        os.remove(link)
    os.symlink(SHARED, link)


if __name__ == '__main__':
    words = parser(__doc__)
    words.add_argument('--from', dest='crate_out', metavar='CRATE_OUT', default=CRATE_OUT,
                       help='the folder of libc_api.a (default: crates/c_api/out)')
    words.add_argument('--to', metavar='FOLDER', required=True, help='where the library is put')
    words.add_argument('--commit', metavar='TWELVE', help='the first twelve digits of the commit')
    chosen = words.parse_args()
    make(chosen.crate_out, chosen.to, chosen.commit)
