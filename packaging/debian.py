"""Makes Debian packages of what a release packs: gate, the program; libgate1, the shared library; libgate-dev, what hosts are made with.

`packaging/release` writes them beside its archive. They are made of the same files, by no tool of Debian's, and have fixed times, owners
and modes. No package has a script.
"""
import email.utils
import gzip
import io
import os
import tarfile

LIBRARIES = 'usr/lib/x86_64-linux-gnu'
ZSH = 'share/zsh/site-functions/'
# The owner has named no address for mail.
MAINTAINER = 'The owners of gate <gate@localhost>'
# The least glibc that the library wants; the program wants none.
LIBRARY_WANTS = 'libc6 (>= 2.14)'

CONTROL = """\
Package: {name}
Source: gate
Version: {version}
Architecture: amd64
Maintainer: {maintainer}
Installed-Size: {size}
{depends}Section: {section}
Priority: optional
Description: {summary}
 gate says whether foreign bytes are a valid WebAssembly module, and runs
 exported functions under exact limits of fuel, frames and memory. Every
 function of it is proved to meet its contract.
"""
COPYRIGHT = """\
gate {version}

The owners of gate have stated no licence: all rights are theirs.
"""
CHANGELOG = """\
gate ({version}) unstable; urgency=medium

  * The changes stand in CHANGELOG.md.

 -- {maintainer}  {date}
"""


class Package:
    """A package: its name, what it depends on, if anything, its section, its summary, and which files of a release it has."""

    def __init__(self, name, depends, section, summary, place_of, extra=()):
        self.name, self.depends, self.section, self.summary = name, depends, section, summary
        self.place_of, self.extra = place_of, dict(extra)


def document(place, name):
    """The place of a document, so that its links lead to others."""
    return f'usr/share/doc/{name}/{place}'


def of_program(place):
    """Where the package of the program has a file of a release; None where it has it not."""
    if place.startswith(ZSH):
        return f'usr/share/zsh/vendor-completions/{place.removeprefix(ZSH)}'
    if place == 'bin/gate' or place.startswith(('share/man/man1/', 'share/bash-completion/', 'share/fish/')):
        return f'usr/{place}'
    is_document = place.endswith(('.md', '.svg')) and place.startswith('docs/') and place != 'docs/HOSTS.md'
    return document(place, 'gate') if is_document or place in ('README.md', 'CHANGELOG.md', 'PROOFS') else None


def of_library(place):
    return f'{LIBRARIES}/{place.removeprefix("lib/")}' if place.startswith('lib/libgate.so.') else None


def of_hosts(place):
    if place.startswith('lib/') and not place.startswith('lib/libgate.so.'):
        return f'{LIBRARIES}/{place.removeprefix("lib/")}'
    if place.startswith(('include/', 'share/man/man3/', 'share/gate/')):
        return f'usr/{place}'
    if place.startswith(('examples/c/', 'examples/cpp/')) or place.startswith('examples/') and place.count('/') == 1:
        return document(place, 'libgate-dev')
    return document(place, 'libgate-dev') if place == 'docs/HOSTS.md' else None


def packages(version):
    """The packages of that version."""
    shared = {'triggers': 'activate-noawait ldconfig\n', 'shlibs': f'libgate 1 libgate1 (>= {version})\n'}
    return [
        Package('gate', None, 'utils', 'proved validator and sandbox for WebAssembly', of_program),
        Package('libgate1', LIBRARY_WANTS, 'libs', 'proved validator and sandbox for WebAssembly - library', of_library, shared),
        Package('libgate-dev', f'libgate1 (= {version})', 'libdevel', 'proved validator and sandbox for WebAssembly - for hosts', of_hosts),
    ]


def packed_text(held):
    return gzip.compress(held, 9, mtime=0)


def settled(place, held):
    """A file as Debian has it: pages are packed, and what tells where the library lies, says so."""
    if place.startswith('usr/share/man/'):
        return f'{place}.gz', f'{held}.gz' if isinstance(held, str) else packed_text(held)
    if place.endswith('/gate.pc'):
        lines = held.decode().split('\n', 2)
        return place, f'prefix=/usr\nlibdir=${{prefix}}/{LIBRARIES.removeprefix("usr/")}\n{lines[2]}'.encode()
    if place.endswith('/gateConfig.cmake'):
        first = b'get_filename_component(gate_prefix "${CMAKE_CURRENT_LIST_DIR}/../../../.." ABSOLUTE)\n'
        return place, first + held.split(b'\n', 1)[1]
    return place, held


def contents(package, files, facts):
    """The files of a package, by their places below the root."""
    placed = ((package.place_of(place), held) for place, held in files.items())
    held = dict(settled(place, held) for place, held in placed if place)
    about = f'usr/share/doc/{package.name}'
    held[f'{about}/copyright'] = COPYRIGHT.format(**facts).encode()
    held[f'{about}/changelog.gz'] = packed_text(CHANGELOG.format(**facts).encode())
    return held


def entry(name, kind, mode, size=0, link=''):
    """The head of a file, a folder or a link, of root."""
    head = tarfile.TarInfo(name)
    head.type, head.mode, head.size, head.linkname = kind, mode, size, link
    head.uname = head.gname = 'root'
    return head


def tree(files, time):
    """A packed tape of these files and of the folders that they lie in."""
    folders = {os.path.dirname(it)[:end] for it in files for end, letter in enumerate(os.path.dirname(it) + '/') if letter == '/'}
    written = io.BytesIO()
    with tarfile.open(fileobj=written, mode='w', format=tarfile.GNU_FORMAT) as tape:
        for place in sorted({'', *folders, *files}):
            held = files.get(place)
            if held is None:
                head = entry(f'./{place}', tarfile.DIRTYPE, 0o755)
            elif isinstance(held, str):
                head = entry(f'./{place}', tarfile.SYMTYPE, 0o777, link=held)
            else:
                mode = 0o755 if place.startswith('usr/bin/') or held.startswith(b'#!') else 0o644
                head = entry(f'./{place}', tarfile.REGTYPE, mode, len(held))
            head.mtime = time
            tape.addfile(head, io.BytesIO(held) if isinstance(held, bytes) else None)
    return packed_text(written.getvalue())


def member(name, held, time):
    """A member of an archive of ar."""
    return b'%-16s%-12d%-6d%-6d%-8o%-10d`\n' % (name.encode(), time, 0, 0, 0o100644, len(held)) + held + b'\n' * (len(held) % 2)


def deb(package, files, facts, time):
    """The bytes of a package."""
    held = contents(package, files, facts)
    size = -(-sum(len(it) for it in held.values()) // 1024)
    depends = f'Depends: {package.depends}\n' if package.depends else ''
    control = CONTROL.format(name=package.name, depends=depends, section=package.section, summary=package.summary,
                             size=size, **facts)
    about = {'control': control.encode(), **{name: text.encode() for name, text in package.extra.items()}}
    parts = {'debian-binary': b'2.0\n', 'control.tar.gz': tree(about, time), 'data.tar.gz': tree(held, time)}
    return b'!<arch>\n' + b''.join(member(name, part, time) for name, part in parts.items())


def packages_of(files, version, time):
    """The Debian packages of the files of a release, by their names."""
    facts = {'version': version, 'maintainer': MAINTAINER, 'date': email.utils.formatdate(time)}
    return {f'{it.name}_{version}_amd64.deb': deb(it, files, facts, time) for it in packages(version)}
