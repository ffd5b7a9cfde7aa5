"""Names, words, links and rights, and the environment of the process."""
import ctypes
import os
import pty
import socket
import tempfile

from tools.encoding import HEADER
from .gate import ACCEPTED, as_nobody, cannot_read, report


def names(gate):
    is_usage = [(b'', 64, True)]
    for word in (b'\xff.wasm', b'\xc3', b'\xed\xa0\x80', b'\xc0\xaf', b'--fuel=\xff'):
        path = gate.path(word.decode(errors='surrogateescape').replace('/', '_'))
        gate.write(path, HEADER)
        for words in ['check', os.fsencode(path)], ['check', word], ['run', gate.module, word], ['check', gate.module, word], [word]:
            text, status, error = gate.run(*words)
            gate.equal(f'no UTF-8: {words}', (text, status, error != b''), *is_usage)
    for name in 'a blank', 'a\nnewline', 'a\ttab', 'ünï', '\U0001F600', 'e\u0301', '*', '$HOME', '%s%n', 'a' * 255, '\x1b[31m', '\x7f':
        path = gate.path(name)
        gate.equal(f'missing: {name!r}', gate.run('check', path), cannot_read(path))
        gate.equal(f'no calls: {name!r}', gate.run('run', gate.module, path), cannot_read(path))
        gate.write(name, HEADER)
        gate.equal(f'the name {name!r}', gate.run('check', path), ACCEPTED)
    long = b'no file can have this name'
    for name, reason in ('', b'no such file'), ('a' * 256, long), ('a/' * 5_000, long), ('a' * 100_000, long):
        gate.equal(f'the name {name[:9]!r}', gate.run('check', name, cwd=gate.folder), cannot_read(name, reason))
        gate.equal(f'the name {name[:9]!r} of calls', gate.run('run', gate.module, name, cwd=gate.folder), cannot_read(name, reason))
    gate.equal('after --', gate.run('check', '--', '--help', cwd=gate.folder), cannot_read('--help'))
    words_at_all(gate)
    links(gate)
    links_in_folders(gate)
    process(gate)


def words_at_all(gate):
    text, status, error = gate.run('check', *['x'] * 20_000)
    gate.equal('very many words', (text, status, error != b''), (b'', 64, True))
    text, status, error = gate.run()
    gate.equal('no words', (text, status, error != b''), (b'', 64, True))
    text, status, error = gate.run(preexec_fn=lambda: without_words(gate.program))
    gate.equal('no words, and no name of the program', (text, status, error != b''), (b'', 64, True))


def without_words(program):
    """Becomes the program, which is given not even its own name."""
    nothing = (ctypes.c_char_p * 1)(None)
    ctypes.CDLL(None).execve(os.fsencode(program), nothing, nothing)


def links(gate):
    os.symlink(gate.module, gate.path('link'))
    os.symlink(gate.path('link'), gate.path('link of a link'))
    os.symlink(gate.calls, gate.path('calls by a link'))
    gate.equal('a link', gate.run('check', gate.path('link')), ACCEPTED)
    gate.equal('a link of a link', gate.run('run', gate.path('link of a link'), gate.path('calls by a link')), report(1))
    secret = gate.write('secret', HEADER)
    os.chmod(secret, 0)
    locked = gate.path('locked')
    os.mkdir(locked)
    inside = gate.write('locked/inside', HEADER)
    os.chmod(locked, 0)
    for path in secret, inside:
        as_nobody(gate, f'without the right to read {os.path.basename(path)}', [cannot_read(path, b'permission denied')], 'check', path)
    os.chmod(locked, 0o700)


def leads_to(gate):
    """What a link in a folder leads to, by its name, and the end of its line, or None where it has none."""
    os.mkfifo(gate.path('fifo'))
    with socket.socket(socket.AF_UNIX) as server:
        server.bind(gate.path('a socket'))
    yield 'a FIFO', gate.path('fifo'), None
    yield 'a socket', gate.path('a socket'), None
    yield 'a device', '/dev/zero', None
    yield 'standard input', '/dev/stdin', None
    yield 'a module', gate.module, b'accepted\n'
    yield 'nothing', gate.path('no file'), b'cannot read: no such file\n'
    yield 'a folder', gate.folder, b'cannot read: a folder\n'
    main, terminal = pty.openpty()
    yield 'a terminal', os.ttyname(terminal), None
    os.close(terminal)
    os.close(main)


def links_in_folders(gate):
    """Links below a folder: where one leads to no file, it is passed over, and nothing is waited for or taken from standard input."""
    for number, (name, target, end) in enumerate(leads_to(gate)):
        folder = gate.path(f'links {number}')
        os.mkdir(folder)
        os.symlink(target, os.path.join(folder, 'x.wasm'))
        line = b'' if end is None else f'{folder}/x.wasm\t'.encode() + end
        cannot = end is not None and end.startswith(b'cannot')
        given, giver = os.pipe()
        with open(given, 'rb') as given, open(giver, 'wb') as giver:
            giver.write(b'kept')
            giver.flush()
            ran = gate.run('check-all', '-r', folder, stdin=given, timeout=10)
            giver.close()
            gate.equal(f'a link to {name} in a folder', ran, (line, 74 if cannot else 0, b'gate: cannot read some files\n' if cannot else b''))
            gate.equal(f'standard input beside a link to {name}', given.read(), b'kept')


def process(gate):
    gate.equal('an empty environment', gate.run('run', gate.module, gate.calls, env={}), report(1))
    strange = {b'X\xff': b'\xff', b'LANG': b'\xff', b'LC_ALL': b'xx_XX', b'COLUMNS': b'0', b'HOME': b'', b'PATH': b'', b'TERM': b'dumb',
               b'BIG': b'x' * 100_000}
    gate.equal('a strange environment', gate.run('run', gate.module, gate.calls, env=strange), report(1))
    whole_help = gate.run('--help', env={})
    gate.equal('help in it', gate.run('--help', env={**strange, b'CLICOLOR_FORCE': b'1'}), whole_help)
    gate.equal('help has no escapes', b'\x1b' in whole_help[0], False)

    def deleted():
        folder = tempfile.mkdtemp(dir=gate.folder)
        os.chdir(folder)
        os.rmdir(folder)
    gate.equal('a deleted working directory', gate.run('run', gate.module, gate.calls, preexec_fn=deleted), report(1))
    gate.equal('a name in it', gate.run('check', 'module.wasm', preexec_fn=deleted), cannot_read('module.wasm'))
    os.mkdir(gate.path('\udcff'))
    gate.write('\udcff/x', HEADER)
    gate.equal('a working directory that is no UTF-8', gate.run('check', 'x', cwd=gate.path('\udcff')), ACCEPTED)
