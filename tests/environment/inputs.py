"""What is read: standard input, pipes, devices, files that change, and what cannot be read."""
import os
import socket
import subprocess
import threading
import time

from tools.encoding import HEADER, whole
from .gate import ACCEPTED, CALLS_LIMIT, CALLS_TOO_LARGE, MALFORMED, MODULE_LIMIT, NO_CALLS, TOO_LARGE, as_nobody, cannot_read, report
from .outputs import closed

# A custom section that is four bytes long.
CUSTOM = b'\x00\x02\x01a'


def inputs(gate):
    gate.equal('standard input is closed', gate.run('run', gate.module, gate.calls, preexec_fn=closed(0)), report(1))
    gate.equal('/dev/stdin where it is closed', gate.run('check', '/dev/stdin', preexec_fn=closed(0)),
               cannot_read('/dev/stdin', b'a read failed'))
    gate.equal('the module is standard input', gate.run('check', '/dev/stdin', input=whole(b'')), ACCEPTED)
    gate.equal('it has a byte too many', gate.run('check', '/dev/stdin', input=bytes(MODULE_LIMIT + 1)), TOO_LARGE)
    gate.equal('it goes on past the limit', gate.run('run', '/dev/stdin', gate.calls, input=bytes(2 * MODULE_LIMIT)), TOO_LARGE)
    gate.equal('calls are standard input', gate.run('run', gate.module, '/dev/stdin', input=b'f\n' * 3), report(3))
    gate.equal('both are, one pipe', gate.run('run', '/dev/stdin', '/dev/stdin', input=HEADER), NO_CALLS)
    gate.equal('- is the name of a file', gate.run('check', '-', input=HEADER, cwd=gate.folder), cannot_read('-'))
    gate.equal('/dev/null is the module', gate.run('check', os.devnull), MALFORMED)
    gate.equal('/dev/null has the calls', gate.run('run', gate.module, os.devnull), NO_CALLS)
    gate.equal('/dev/zero is the module', gate.run('check', '/dev/zero'), TOO_LARGE)
    gate.equal('/dev/zero is the module of a run', gate.run('run', '/dev/zero', gate.calls), TOO_LARGE)
    gate.equal('/dev/zero has the calls', gate.run('run', gate.module, '/dev/zero'), CALLS_TOO_LARGE)
    gate.equal('both are /dev/zero', gate.run('run', '/dev/zero', '/dev/zero'), TOO_LARGE)
    descriptor(gate)
    pipes(gate)
    growing(gate)
    unreadable(gate)


def uses(gate):
    """Words that read standard input, what stands there, and what is to be said."""
    module = whole(b'')
    exports = b'function 0 "f" [] -> []\nstarts\n', 0, b''
    listed = gate.module.encode() + b'\taccepted\n', 0, b''
    yield ('check', '/dev/stdin'), module, ACCEPTED
    yield ('explain', '-'), module, ACCEPTED
    yield ('exports', '-'), module, exports
    yield ('run', '/dev/stdin', gate.calls), module, report(1)
    yield ('run', gate.module, '/dev/stdin'), b'f\nf\n', report(2)
    yield ('stream', gate.module), b'f\nf\n', report(2)
    yield ('stream', gate.module, '-'), b'f\nf\n', report(2)
    yield ('check-all', '-'), gate.module.encode(), listed
    yield ('check-all', '-r', '-'), gate.module.encode() + b'\n', listed


def descriptor(gate):
    """Standard input is what the process has as its descriptor 0, from where that stands: to open its path would be another thing."""
    for words, held, wanted in uses(gate):
        gate.equal(f'a socket: {words}', by_socket(gate, held, *words), wanted)
        path = gate.write('in part', b'f\n' + held)
        with open(path, 'rb', buffering=0) as file:
            file.seek(2)
            gate.equal(f'a file that was read in part: {words}', gate.run(*words, stdin=file), wanted)
            file.seek(2)
            os.chmod(path, 0)
            as_nobody(gate, f'a file that only its opener may read: {words}', [wanted], *words, stdin=file)
        os.unlink(path)
    without_proc(gate)
    with open(gate.write('header', HEADER), 'rb') as file:
        gate.equal('both are, one file', gate.run('run', '/dev/stdin', '/dev/stdin', stdin=file), NO_CALLS)
    with open(gate.write('long', b''), 'r+b', buffering=0) as file:
        file.truncate(2 * MODULE_LIMIT)
        gate.equal('a file past the limit', gate.run('check', '/dev/stdin', stdin=file), TOO_LARGE)
        gate.equal('what is past the limit stays', file.tell(), MODULE_LIMIT + 1)
    os.unlink(gate.path('long'))


def by_socket(gate, held, *words):
    """What the program says where standard input is a socket, through which this comes."""
    ours, theirs = socket.socketpair()
    with ours, theirs:
        ours.sendall(held)
        ours.shutdown(socket.SHUT_WR)
        return gate.run(*words, stdin=theirs)


def without_proc(gate):
    """Runs the program where no folder /proc is seen."""
    alone = ['unshare', '--map-root-user', '--mount', 'sh', '-c', 'mount -t tmpfs none /proc && exec "$@"', 'sh']
    try:
        subprocess.run([*alone, 'true'], check=True, capture_output=True)
    except (OSError, subprocess.CalledProcessError):
        gate.leave_out('standard input without /proc', 'unshare may not be used here')
        return
    for words, held, wanted in uses(gate):
        ran = subprocess.run([*alone, gate.program, *words], input=held, capture_output=True)
        gate.equal(f'without /proc: {words}', (ran.stdout, ran.returncode), wanted[:2])


def by_pipe(gate, parts, *words, ends=True):
    """What the program says where `PIPE` among its words is a pipe, into which the parts are written one after another. Where the
    pipe does not end, the program has to end without that."""
    path = gate.path('pipe')
    os.mkfifo(path)

    def write():
        with open(path, 'wb', buffering=0) as file:
            for part in parts:
                try:
                    file.write(part)
                except BrokenPipeError:
                    break
                time.sleep(0.002)
            if not ends:
                over.wait()

    over, writer = threading.Event(), threading.Thread(target=write)
    writer.start()
    try:
        return gate.run(*(path if word == 'PIPE' else word for word in words))
    finally:
        over.set()
        # A writer that nobody met goes on.
        os.close(os.open(path, os.O_RDONLY | os.O_NONBLOCK))
        writer.join()
        os.unlink(path)


def pipes(gate):
    module = whole(b'')
    one_by_one = [module[at:at + 1] for at in range(len(module))]
    calls = [b'f', b'\n', b'f\nf\n', b'f', b'\n']
    gate.equal('a module in parts', by_pipe(gate, one_by_one, 'check', 'PIPE'), ACCEPTED)
    gate.equal('a module in parts, cut off', by_pipe(gate, one_by_one[:-1], 'check', 'PIPE'), MALFORMED)
    gate.equal('a pipe without a byte', by_pipe(gate, [], 'check', 'PIPE'), MALFORMED)
    gate.equal('a module in parts, run', by_pipe(gate, one_by_one, 'run', 'PIPE', gate.calls), report(1))
    gate.equal('calls in parts', by_pipe(gate, calls, 'run', gate.module, 'PIPE'), report(4))
    gate.equal('no calls from a pipe', by_pipe(gate, [], 'run', gate.module, 'PIPE'), NO_CALLS)
    large = [bytes(MODULE_LIMIT), b'\0']
    gate.equal('a pipe without an end as module', by_pipe(gate, large, 'check', 'PIPE', ends=False), TOO_LARGE)
    large = [bytes(CALLS_LIMIT), b'\0']
    gate.equal('a pipe without an end as calls', by_pipe(gate, large, 'run', gate.module, 'PIPE', ends=False), CALLS_TOO_LARGE)


def growing(gate):
    """Sections are added to a file, and cut off again, while it is read: the verdict is one of what was read. That is malformed only
    where a page is read while it is cut off."""
    path, over = gate.write('growing', HEADER), threading.Event()

    def grow():
        with open(path, 'r+b', buffering=0) as file:
            while not over.is_set():
                file.seek(len(HEADER))
                for _ in range(320):
                    file.write(CUSTOM * 16_384)
                file.truncate(len(HEADER))

    writer = threading.Thread(target=grow)
    writer.start()
    try:
        for _ in range(20):
            gate.equal('a file that grows', gate.run('check', path), ACCEPTED, TOO_LARGE, MALFORMED)
    finally:
        over.set()
        writer.join()


def unreadable(gate):
    folder = gate.path('folder')
    os.mkdir(folder)
    gate.write('loop', b'')
    os.unlink(gate.path('loop'))
    os.symlink(gate.path('loop'), gate.path('loop'))
    os.symlink(gate.path('nothing'), gate.path('dangling'))
    os.symlink(folder, gate.path('to a folder'))
    with socket.socket(socket.AF_UNIX) as server:
        server.bind(gate.path('socket'))
    others = {b'a folder': [folder, gate.path('to a folder')],
              b'a part of the path is no folder': [gate.path('module.wasm/x'), gate.module + '/'],
              b'too many links': [gate.path('loop')], b'no such file': [gate.path('dangling')],
              # A socket, a file whose reading fails, and a terminal that is not there.
              b'a read failed': [gate.path('socket'), '/proc/self/mem', '/dev/tty']}
    for reason, path in ((reason, path) for reason, paths in others.items() for path in paths):
        for words in ['check', path], ['run', path, gate.calls], ['run', gate.module, path], ['run', gate.short, path], ['run', path, path]:
            gate.equal(f'cannot read: {words}', gate.run(*words, start_new_session=True), cannot_read(path, reason))
