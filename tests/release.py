"""Packs the built program and library into a release, twice, and uses what is packed as others would.

packed     Two packings have the same bytes: of this tree, and of a copy of it in another folder, with other times and modes of
           files, another time zone, language and umask. `packaging/release --check` finds them equal, and names a program that is not.
           A program that has no place for the commit is not packed.
unpacked   `sha256sum -c` holds, program and library name the commit, and the program judges and runs the examples, and what gate.1,
           README.md and docs/FORMATS.md show. gate.3 names all functions of the header, and `man` has no warning, where it is there.
           What is written of the command line holds (manual.py). Each relative link of a document leads to something packed; what the
           user's pages name of the sources is packed too, or the same line says that it is in the repository. The packages install and
           work (packages.py).
Debian     `dpkg` installs the three packages below a folder, where it is there, and takes them away; the program and the library answer
           from there; `lintian` finds nothing but what is written here, where it is there.
installed  `install.sh` below a DESTDIR: the example of gate.3 is compiled by what pkg-config says, for the shared library and for
           the static one, where `cc` and `pkg-config` are there, and says what the program says. What others have is not written
           over. An uninstall leaves what was there before.
"""
import glob
import os
import re
import shutil
import subprocess
import sys
import tempfile
import textwrap

from tools.arguments import parser
from tools.counting import Count
from tools.files import ROOT
from tools.kit import load_kit

MODULES = ['add', 'fold', 'primes']
# What lintian may say of the packages: the owner has stated no address and no licence, symbols are left for debuggers, and it takes the
# program, which wants no library, for one itself.
LINTIAN = {'bogus-mail-host', 'bogus-mail-host-in-debian-changelog', 'copyright-without-copyright-notice', 'unstripped-binary-or-object',
           'shared-library-lacks-prerequisites'}
# The pages of which all that they name is looked for.
PAGES = ['README.md', 'docs/FORMATS.md', 'docs/HOSTS.md', 'docs/SECURITY.md']
LINK = re.compile(r'\]\(([^()\s#]+)(?:#[^()\s]*)?\)')


def run(*words, **settings):
    """The status of a command, and what it says."""
    ran = subprocess.run(words, stdout=subprocess.PIPE, stderr=subprocess.STDOUT, text=True, **settings)
    return ran.returncode, ran.stdout


def read(path):
    with open(path, 'rb') as file:
        return file.read()


def is_there(*names):
    return all(map(shutil.which, names))


def copy_tree(folder):
    """A copy of the tree as git sees it."""
    listed = subprocess.run(['git', 'ls-files', '-coz', '--exclude-standard'], cwd=ROOT, capture_output=True, text=True, check=True)
    for path in filter(None, listed.stdout.split('\0')):
        if os.path.exists(os.path.join(ROOT, path)):
            os.makedirs(os.path.dirname(os.path.join(folder, path)), exist_ok=True)
            shutil.copy(os.path.join(ROOT, path), os.path.join(folder, path), follow_symlinks=False)
    run('cp', '-R', os.path.join(ROOT, '.git'), os.path.join(folder, '.git'))


def pack(tree, program, library, *options, **settings):
    script = os.path.join(tree, 'packaging', 'release')
    return run(sys.executable, script, '--dirty', '--program', program, '--library', library, *options, **settings)


def turned(path, old, new):
    """Changes the first of these bytes in a file."""
    held = read(path)
    with open(path, 'wb') as file:
        file.write(held.replace(old, new, 1))


def packed(count, program, library, work):
    """Packs twice. Answers the folder of the first packing, and the name of the release."""
    first, second, other = (os.path.join(work, name) for name in ('first', 'second', 'other'))
    copy_tree(os.path.join(other, 'tree'))
    os.mkdir(os.path.join(other, 'library'))
    shutil.copyfile(os.path.join(library, 'libc_api.a'), os.path.join(other, 'library', 'libc_api.a'))
    shutil.copyfile(program, os.path.join(other, 'program'))
    shutil.copyfile(f'{program}.o', os.path.join(other, 'program.o'))
    os.chmod(os.path.join(other, 'program'), 0o700)
    ended = pack(ROOT, program, library, '--to', first)
    count.expect(ended[0] == 0, 'a packing', ended)
    ended = pack(os.path.join(other, 'tree'), os.path.join(other, 'program'), os.path.join(other, 'library'), '--to', second, umask=0o077,
                 cwd='/', env={**os.environ, 'TZ': 'Asia/Tokyo', 'LC_ALL': 'C'})
    count.expect(ended[0] == 0, 'a packing of a copy of the tree', ended)
    name = os.path.basename(glob.glob(os.path.join(first, '*.sha256'))[0]).removesuffix('.sha256')
    sums = os.path.join(first, f'{name}.sha256')
    for path in os.listdir(first):
        count.expect(read(os.path.join(first, path)) == read(os.path.join(second, path)), f'{path} of two packings')
    ended = pack(ROOT, program, library, '--check', sums)
    count.expect(ended[0] == 0, '--check of the same', ended)
    turned(os.path.join(other, 'program.o'), b'accepted', b'Accepted')
    ended = pack(ROOT, os.path.join(other, 'program'), library, '--check', sums)
    is_named = f'{name}/bin/gate differs' in ended[1] and 'libgate' not in ended[1]
    count.expect(ended[0] == 1 and is_named, '--check of another program', ended)
    turned(os.path.join(other, 'program.o'), b'(commit ------------, ', b'(commit 0123456789ab, ')
    ended = pack(ROOT, os.path.join(other, 'program'), library, '--to', second)
    count.expect(ended[0] == 1 and '0 times' in ended[1], 'a packing of a program of some commit', ended)
    return first, name


def unpacked(count, folder, name):
    """Unpacks a release, and uses it where it lies. Answers its folder."""
    count.expect(run('tar', 'xzf', f'{name}.tar.gz', cwd=folder)[0] == 0, 'tar')
    ended = run('sha256sum', '--quiet', '-c', f'{name}.sha256', cwd=folder)
    count.expect(ended == (0, ''), 'sha256sum -c', ended)
    there = os.path.join(folder, name)
    answers(count, there)
    manuals(count, there)
    sessions(count, there, folder)
    shown(count, there)
    links(count, there)
    for page in PAGES:
        lost = list(missing(there, page))
        count.expect(not lost, f'what {page} names is packed, or said to be in the repository', lost)
    ended = run(sys.executable, '-m', 'tests.packages', there, cwd=ROOT)
    print(ended[1], end='')
    count.expect(ended[0] == 0, 'the packages')
    ended = run(sys.executable, '-m', 'tests.manual', os.path.join(there, 'bin', 'gate'), cwd=ROOT)
    count.expect(ended[0] == 0, 'what is written of the command line', ended)
    return there


def answers(count, there):
    """The program on the examples."""
    gate = os.path.join(there, 'bin', 'gate')
    for module in MODULES:
        ended = run(gate, 'check', f'examples/{module}.wasm', cwd=ROOT)
        count.expect(ended == (0, 'accepted\n'), f'the program on {module}', ended)
    builds(count, there)
    ended = run(gate, 'run', 'examples/fold.wasm', 'examples/fold.calls', cwd=ROOT)
    count.equal('the report of fold', ended, (0, read(os.path.join(ROOT, 'examples/fold.report')).decode()))


def builds(count, there):
    """Program, library and archive say of which commit they are, and none has the dashes still."""
    commit = run('git', 'rev-parse', 'HEAD', cwd=ROOT)[1][:11]
    ended = run(os.path.join(there, 'bin', 'gate'), '--version')
    text = ended[1].rstrip('\n').removeprefix('gate ').encode()
    count.expect(ended[0] == 0 and re.search(rf'\(commit {commit}[0-9a-f+], ', ended[1]), 'gate --version', ended)
    for path in [*glob.glob(os.path.join(there, 'lib', 'libgate.*')), os.path.join(there, 'bin', 'gate')]:
        held = read(path)
        count.expect(held.count(text) == 1 and b'-' * 12 + b', rattle' not in held, f'the build that {os.path.basename(path)} names')


def manuals(count, there):
    """The functions that gate.3 names, and the pages as `man` shows them."""
    share = os.path.join(there, 'share')
    functions = re.findall(r'\b(gate_\w+)\(', read(os.path.join(there, 'include/gate.h')).decode())
    text = read(os.path.join(share, 'man/man3/gate.3')).decode()
    lost = [it for it in functions if not re.search(rf'^\.F[no] {it}\b', text, re.MULTILINE)]
    count.expect(not lost and functions, 'the functions in gate.3', lost)
    for page in glob.glob(os.path.join(share, 'man/*/*')) if is_there('man') else []:
        shown = subprocess.run(['man', '--warnings', '-l', page], capture_output=True, text=True, env={**os.environ, 'LC_ALL': 'C.UTF-8'})
        is_silent = shown.returncode == 0 and 'EXAMPLES' in shown.stdout and not shown.stderr
        count.expect(is_silent, f'man of {os.path.basename(page)}', shown.stderr)


def blocks(page):
    """The literal blocks of a page."""
    text = read(os.path.join(ROOT, 'man', page)).decode()
    return [it.replace(r'\e', '\\') for it in re.findall(r'^\.Bd -literal.*?\n(.*?)^\.Ed', text, re.MULTILINE | re.DOTALL)]


def sessions(count, there, folder):
    """The commands that gate.1 shows, each with what it prints."""
    shutil.copy(os.path.join(ROOT, 'examples/add.wasm'), folder)
    path = {**os.environ, 'PATH': os.path.join(there, 'bin') + ':' + os.environ['PATH']}
    shown = [line for block in blocks('gate.1') for line in re.split(r'^\$ ', block, flags=re.MULTILINE)[1:]]
    for command, printed in (it.split('\n', 1) for it in shown):
        ended = run('sh', '-c', command, cwd=folder, env=path)
        count.equal(f'{command}, as gate.1 shows it', ended[1], printed)
    count.expect(len(shown) == 4, 'the commands that gate.1 shows', shown)


def shown(count, there):
    """The commands that README.md and FORMATS show, each block with what it prints, in the unpacked release."""
    for page in PAGES[:2]:
        sessions = re.findall(r'(?:^    .*\n)+', read(os.path.join(there, page)).decode(), re.MULTILINE)
        sessions = [textwrap.dedent(it) for it in sessions if it.startswith('    $ ')]
        count.expect(sessions, f'the commands that {page} shows')
        for session in sessions:
            commands = ''.join(re.findall(r'^\$ (.*\n)', session, re.MULTILINE))
            ended = run('sh', '-c', commands, cwd=there)
            count.equal(f'{commands}, as {page} shows it', ended[1], re.sub(r'^\$ .*\n', '', session, flags=re.MULTILINE))


def links(count, there):
    """The relative links of all documents that are packed."""
    pages = glob.glob(os.path.join(there, '**', '*.md'), recursive=True)
    for page in pages:
        targets = [it for it in LINK.findall(read(page).decode()) if not re.match('[a-z]+:', it)]
        lost = [it for it in targets if not os.path.exists(os.path.join(os.path.dirname(page), it))]
        count.expect(not lost, f'the links of {os.path.relpath(page, there)}', lost)
    count.expect({os.path.join(there, it) for it in PAGES} < set(pages), 'the documents of a release', pages)


def missing(there, page):
    """What a page names of the sources that is not packed, where neither the line nor that before the code says where it lies."""
    said = ''
    for line in read(os.path.join(there, page)).decode().splitlines():
        if line and not line.startswith('    '):
            said = line
        names = [it.removeprefix('./').rstrip('/.') for it in re.findall(r'[\w./-]+', line) if re.search(r'[./]\w', it)]
        for name in names:
            is_source = name and not name.startswith('/') and os.path.exists(os.path.join(ROOT, name))
            if is_source and not os.path.exists(os.path.join(there, name)) and not re.search('repository|clone', line + said):
                yield name


def everything(folder):
    return sorted(os.path.join(at, name) for at, folders, files in os.walk(folder) for name in folders + files)


def installed(count, there, work):
    """Installs below a folder in which others have things too, and takes it away."""
    top = os.path.join(work, 'top')
    os.makedirs(os.path.join(top, 'srv/other/share/man'))
    at = {**os.environ, 'DESTDIR': top, 'PREFIX': '/srv/other'}
    script = os.path.join(there, 'install.sh')
    before = everything(top)
    for _ in range(2):
        ended = run(script, env=at)
        count.expect(ended[0] == 0, 'an install', ended)
    files = {os.path.relpath(it, os.path.join(top, 'srv/other')) for it in everything(top) if not os.path.isdir(it)}
    wanted = {'bin/gate', 'lib/libgate.a', 'lib/libgate.so', 'lib/pkgconfig/gate.pc', 'include/gate.h', 'share/man/man3/gate.3'}
    count.expect(wanted <= files, 'what is installed', wanted - files)
    if is_there('cc', 'pkg-config'):
        hosts(count, there, os.path.join(top, 'srv/other'), os.path.join(work, 'host'), top)
    ended = run(script, 'uninstall', env=at)
    count.expect(ended[0] == 0 and everything(top) == before, 'what an uninstall leaves', (ended, set(everything(top)) ^ set(before)))
    count.expect(run(script, 'uninstall', env=at)[0] == 1, 'an uninstall of nothing')
    os.makedirs(os.path.join(top, 'srv/other/bin'))
    with open(os.path.join(top, 'srv/other/bin/gate'), 'w') as file:
        file.write('of another one\n')
    before = everything(top)
    ended = run(script, 'install', env=at)
    count.expect(ended[0] == 1 and everything(top) == before, 'an install over what others have', ended)
    count.expect(run(script, 'install', env={**at, 'PREFIX': 'opt'})[0] == 64, 'a PREFIX that does not begin with /')


def hosts(count, there, prefix, host, top):
    """Compiles the example of gate.3, over what is installed and over what is only unpacked."""
    with open(f'{host}.c', 'w') as file:
        file.write(next(it for it in blocks('gate.3') if '#include' in it))
    staged = {'PKG_CONFIG_LIBDIR': os.path.join(prefix, 'lib/pkgconfig'), 'PKG_CONFIG_SYSROOT_DIR': top}
    loose = {'PKG_CONFIG_LIBDIR': os.path.join(there, 'lib/pkgconfig')}
    for way, settings in (('installed', staged), ('unpacked', loose)):
        for linking in ([], ['-static']):
            said = run('pkg-config', '--cflags', '--libs', *linking[:1] and ['--static'], 'gate', env={**os.environ, **settings})
            count.expect(said[0] == 0, f'pkg-config, {way}', said)
            ended = run('cc', '-std=c99', '-Wall', '-Wextra', '-Werror', '-o', host, f'{host}.c', *linking, *said[1].split())
            count.expect(ended == (0, ''), f'the example of gate.3, {way} {linking}', ended)
            shared = {} if linking else {'LD_LIBRARY_PATH': os.path.join(prefix if way == 'installed' else there, 'lib')}
            for module in (*(f'examples/{it}.wasm' for it in MODULES), 'README.md'):
                ended = run(host, module, cwd=ROOT, env={**os.environ, **shared})
                wanted = run(os.path.join(there, 'bin', 'gate'), 'check', module, cwd=ROOT)
                count.equal(f'the example of gate.3 on {module}, {way} {linking}', ended, wanted)


def debian(count, folder, work):
    """Installs the packages for Debian below a folder, uses them, and takes them away."""
    debs = sorted(glob.glob(os.path.join(folder, '*.deb')))
    count.expect([os.path.basename(it).partition('_')[0] for it in debs] == ['gate', 'libgate-dev', 'libgate1'], 'the packages', debs)
    top = os.path.join(work, 'debian')
    dpkg = ['dpkg', f'--root={top}', '--force-not-root', '--force-depends', f'--log={os.path.join(work, "log")}']
    for part in ('info', 'updates', 'triggers', 'parts'):
        os.makedirs(os.path.join(top, 'var/lib/dpkg', part))
    for name in ('status', 'available'):
        open(os.path.join(top, 'var/lib/dpkg', name), 'x').close()
    ended = run(*dpkg, '--install', *debs)
    count.expect(ended[0] == 0, 'dpkg --install', ended)
    answers(count, os.path.join(top, 'usr'))
    if is_there('cc', 'pkg-config'):
        compiled(count, top, os.path.join(work, 'debian_host'))
    ended = run(*dpkg, '--remove', 'gate', 'libgate1', 'libgate-dev')
    left = [it for it in everything(top) if not it.startswith(os.path.join(top, 'var')) and not os.path.isdir(it)]
    count.expect(ended[0] == 0 and not left, 'what dpkg --remove leaves', (ended, left))
    if is_there('lintian'):
        said = run('lintian', '--no-cfg', '--allow-root', *debs)[1]
        tags = set(re.findall(r'^[EW]: \S+: (\S+)', said, re.MULTILINE))
        count.expect(tags and tags <= LINTIAN, 'what lintian says', said)


def compiled(count, top, host):
    """Compiles the example of gate.3 by what the packages have, and runs it over their library."""
    with open(f'{host}.c', 'w') as file:
        file.write(next(it for it in blocks('gate.3') if '#include' in it))
    libraries = os.path.join(top, 'usr/lib/x86_64-linux-gnu')
    at = {**os.environ, 'PKG_CONFIG_LIBDIR': os.path.join(libraries, 'pkgconfig'), 'PKG_CONFIG_SYSROOT_DIR': top}
    said = run('pkg-config', '--cflags', '--libs', 'gate', env=at)
    # gate.pc is of /usr, where a compiler looks anyhow.
    flags = [*said[1].split(), f'-I{os.path.join(top, "usr/include")}', f'-L{libraries}']
    ended = run('cc', '-o', host, f'{host}.c', *flags)
    count.expect((said[0], *ended) == (0, 0, ''), 'the example of gate.3 over the packages', (said, ended))
    ended = run(host, 'examples/add.wasm', cwd=ROOT, env={**os.environ, 'LD_LIBRARY_PATH': libraries})
    count.expect(ended == (0, 'accepted\n'), 'the example of gate.3 over the packages on add', ended)


def with_object(program):
    """The program where its object lies beside it. `./gate` copies it without; `rt ci` may leave none, and then it is built here, over the
    libraries that are in the tree."""
    made = os.path.join(ROOT, 'crates', 'gate', 'out', 'gate')
    for path in (program, made):
        if os.path.exists(f'{path}.o') and read(path) == read(program):
            return os.path.abspath(path)
    folder = os.path.dirname(os.path.dirname(os.path.realpath(program)))
    if not os.path.exists(os.path.join(folder, 'src', 'main.rt')):
        sys.exit(f'release: {program}.o is not there')
    crate = load_kit().rtlib.Crate(folder, os.path.dirname(os.path.dirname(folder)), {}, name='gate')
    crate.out = sys.stdout
    if crate.compile(['--jobs', '2'], 'out/gate.o'):
        sys.exit(f'release: {program}.o is not built')
    return os.path.abspath(program)


def main(program, library):
    count = Count('release')
    with tempfile.TemporaryDirectory() as work:
        folder, name = packed(count, with_object(program), os.path.abspath(library), work)
        if is_there('dpkg'):
            debian(count, folder, work)
        installed(count, unpacked(count, folder, name), work)
    return count.status()


if __name__ == '__main__':
    taken = parser(__doc__)
    taken.add_argument('program', metavar='PROGRAM', help='the built program')
    taken.add_argument('library', metavar='LIBRARY_OUT', help='the folder of libc_api.a, as crates/c_api/out')
    words = taken.parse_args()
    sys.exit(main(words.program, words.library))
