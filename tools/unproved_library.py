"""Makes FILE, the library libc_api.a, of the crate c_api as it stands, without a proof: to try a change of the crate or of a wrapper.

    $ python3 -m tools.unproved_library out/unproved-library/libc_api.a

`rt lib` builds a library only where it is proved, and `rt try` builds programs alone. So a copy of the crates has c_api as a program,
whose `main` calls each export. Its module is kept (tools/tried_module.py), and nothing runs. The exports then get their names, and the
kit's clang makes an object of them, without the sanitizer. Overflows and the like, which a proof rules out, end the process of the host,
by SIGILL.
"""
import glob
import os
import re
import shutil
import signal
import subprocess
import sys
import tempfile

from .arguments import parser
from .files import ROOT, read, write
from .kit import in_kit
from .tried_module import AS_TEXT, CLANG, keep_module

# Of the words that a try gives clang those that this object is not made with.
LEFT_OUT = {'-fsanitize=address', '-c', '-x', 'ir', 'module.bc', '-o', 'module.o', '-fPIE', '-O0'}
EXPORT = re.compile(r'^#\[unsafe\(no_mangle\)\]\npub extern "C" fn (\w+)\(', re.M)
DEFINED = re.compile(r'^define internal (.*@)"(c_api::\w+::(gate_\w+))"\(', re.M)
NAMED = re.compile(r'@"(c_api::\w+::gate_\w+)"')
# Calls each export; it is compiled, and never runs.
MAIN = '''
fn any<T>() -> T {{
    any()
}}

fn take<T>(value: T) {{
    take(value)
}}

fn main(_rt: HostRuntime) {{
{calls}}}
'''


def run(*words):
    """Runs a command; answers what it prints."""
    ran = subprocess.run(words, stdout=subprocess.PIPE, stderr=subprocess.PIPE, text=True)
    if ran.returncode:
        sys.exit(f'unproved_library: {words[0]} failed:\n{ran.stderr}')
    return ran.stdout


def parameters(text, at):
    """How many parameters stand from here to the closing parenthesis."""
    depth, count, has_one = 1, 0, False
    while depth:
        depth += {'(': 1, '[': 1, '<': 1, ')': -1, ']': -1, '>': -1}.get(text[at], 0)
        is_end = depth == 1 and text[at] == ',' or not depth
        count, has_one = count + (is_end and has_one), not is_end and (has_one or not text[at].isspace())
        at += 1
    return count


def exports(folder):
    """The exports of the crate in that folder: the module in which each stands, its name, and how many parameters it has."""
    for path in sorted(glob.glob(os.path.join(folder, 'src', '*.rt'))):
        text = read(path)
        for found in EXPORT.finditer(text):
            yield os.path.basename(path)[:-len('.rt')], found[1], parameters(text, found.end())


def copy_crates(to):
    """A copy of the crates, in which c_api is a program; answers its folder."""
    shutil.copytree(os.path.join(ROOT, 'crates'), os.path.join(to, 'crates'), ignore=shutil.ignore_patterns('out', 'must-fail'))
    shutil.copyfile(os.path.join(ROOT, 'HANDLES'), os.path.join(to, 'HANDLES'))
    write(os.path.join(to, 'crates.txt'), read('crates.txt').replace('\nc_api staticlib:', '\nc_api:'))
    crate = os.path.join(to, 'crates', 'c_api')
    calls = ''.join(f'    take({module}::{name}({", ".join(["any()"] * count)}));\n' for module, name, count in exports(crate))
    root = os.path.join(crate, 'src', 'lib.rt')
    write(os.path.join(crate, 'src', 'main.rt'), read(root) + MAIN.format(calls=calls))
    os.remove(root)
    return crate


def named(text):
    """The text of a module in which the exports have their names, and nothing else is seen from outside; and these names."""
    names = {found[2]: found[3] for found in DEFINED.finditer(text)}
    text = DEFINED.sub(r'define \1"\2"(', text).replace('\ndefine i32 @main(', '\ndefine internal i32 @main(')
    return NAMED.sub(lambda found: '@' + names[found[1]], text), set(names.values())


def compiled(module, given, folder):
    """Compiles the module as a library, by the words that clang got for a program; answers the object."""
    flags = [it for it in given if it not in LEFT_OUT]
    before, after, made = (os.path.join(folder, name) for name in ('before.ll', 'after.ll', 'c_api.o'))
    run(in_kit(CLANG), *AS_TEXT, '-x', 'ir', module, '-o', before)
    text, names = named(read(before))
    wanted = {name for _, name, _ in exports(os.path.join(ROOT, 'crates', 'c_api'))}
    if names != wanted:
        sys.exit(f'unproved_library: of the exports rt try compiled {", ".join(names)}, and not {", ".join(wanted)}')
    write(after, text)
    # What no export reaches goes at this level.
    run(in_kit(CLANG), *flags, '-fPIC', '-O1', '-c', '-x', 'ir', after, '-o', made)
    return made


def make(path):
    signal.signal(signal.SIGTERM, lambda number, _: sys.exit(128 + number))
    with tempfile.TemporaryDirectory(prefix='gate-library-') as work:
        tree = os.path.join(work, 'tree')
        os.mkdir(tree)
        made = compiled(*keep_module(copy_crates(tree), work), work)
        if os.path.exists(path):
            os.remove(path)
        run('ar', 'qcsD', path, made)


if __name__ == '__main__':
    words = parser(__doc__)
    words.add_argument('file', metavar='FILE', help='the library that is made')
    make(words.parse_args().file)
