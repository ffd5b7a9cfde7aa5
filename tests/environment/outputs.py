"""Standard output and standard error that take nothing, or not all.

What stands in place of a stream is called in the new process, before the program begins.
"""
import os
import resource
import signal
import subprocess

from tools.encoding import HEADER
from .gate import ACCEPTED, LINE_LIMIT, WRITE_FAILED, report


def closed(*streams):
    return lambda: [os.close(stream) for stream in streams]


def opened(stream, path, flags):
    return lambda: os.dup2(os.open(path, flags), stream)


def unread(stream, action=None):
    """A pipe that nobody reads, and what SIGPIPE does then."""
    def place():
        reader, writer = os.pipe()
        os.dup2(writer, stream)
        os.close(reader)
        if action is not None:
            signal.signal(signal.SIGPIPE, action)
    return place


def hung_up(stream):
    """A terminal whose other end is closed."""
    def place():
        other, terminal = os.openpty()
        os.dup2(terminal, stream)
        os.close(other)
    return place


def cannot_grow(stream, path, action=signal.SIG_IGN):
    """A file of no bytes that may have none, and what the system's signal does then."""
    def place():
        os.dup2(os.open(path, os.O_WRONLY | os.O_CREAT | os.O_TRUNC, 0o600), stream)
        signal.signal(signal.SIGXFSZ, action)
        resource.setrlimit(resource.RLIMIT_FSIZE, (0, 0))
    return place


def bad_outputs(stream, path):
    return {'closed': closed(stream), 'full': opened(stream, '/dev/full', os.O_WRONLY),
            'not open for writing': opened(stream, os.devnull, os.O_RDONLY), 'a pipe that nobody reads': unread(stream),
            'the same, SIGPIPE ignored': unread(stream, signal.SIG_IGN), 'the same, SIGPIPE not ignored': unread(stream, signal.SIG_DFL),
            'a terminal that hung up': hung_up(stream), 'a file that may not grow': cannot_grow(stream, path)}


def outputs(gate):
    answers = [['check', gate.module], ['check', gate.short], ['run', gate.module, gate.calls], ['run', gate.short, gate.calls],
               ['run', gate.module, gate.bad_calls], ['run', gate.module, os.devnull], ['--help'], ['help', 'run'], ['--version']]
    for name, place in bad_outputs(1, gate.path('output')).items():
        for words in answers:
            gate.equal(f'standard output {name}, {words}', gate.run(*words, preexec_fn=place), WRITE_FAILED)
    for name, place in bad_outputs(2, gate.path('output')).items():
        for words, status in (['check'], 64), (['check', gate.path('missing')], 74), (['--workers', '65'], 64):
            gate.equal(f'standard error {name}, {words}', gate.run(*words, preexec_fn=place), (b'', status, b''))
        gate.equal(f'standard error {name}, accepted', gate.run('check', gate.module, preexec_fn=place), ACCEPTED)
    # `ulimit -f` ends every program so, but one that ignores the signal.
    place = cannot_grow(1, gate.path('output'), signal.SIG_DFL)
    gate.equal('a file that may not grow', gate.run('check', gate.module, preexec_fn=place), (b'', -signal.SIGXFSZ, b''))
    full_pipe(gate)
    reader_goes(gate)
    own_output(gate)
    all_closed(gate)


def full_pipe(gate):
    """A pipe that does not wait and has no room."""
    reader, writer = os.pipe()
    os.set_blocking(writer, False)
    try:
        while True:
            os.write(writer, bytes(4096))
    except BlockingIOError:
        pass
    gate.equal('standard output a full pipe', gate.run('check', gate.module, stdout=writer), WRITE_FAILED)
    os.close(reader)
    os.close(writer)


def reader_goes(gate):
    """The reader of a long report goes away after some bytes."""
    calls = gate.write('many calls', b'f\n' * LINE_LIMIT)
    whole_report = report(LINE_LIMIT)
    gate.equal('a long report', gate.run('run', gate.module, calls), whole_report)
    for action in (signal.SIG_DFL, signal.SIG_IGN):
        words = [gate.program, 'run', gate.module, calls]
        with subprocess.Popen(words, stdout=subprocess.PIPE, stderr=subprocess.PIPE,
                              preexec_fn=lambda action=action: signal.signal(signal.SIGPIPE, action)) as child:
            front = child.stdout.read(10)
            child.stdout.close()
            error = child.stderr.read()
        gate.equal('a reader that goes away', (front, child.returncode, error), (whole_report[0][:10], 74, b'gate: write failed\n'))


def own_output(gate):
    """What is printed is added to the module's own file."""
    path = gate.write('own output', HEADER)
    with open(path, 'ab') as file:
        gate.equal('the module is the output', gate.run('check', path, stdout=file), (b'', 0, b''))
    with open(path, 'rb') as file:
        gate.equal('what stands in it then', file.read(), HEADER + b'accepted\n')


def all_closed(gate):
    path = gate.write('kept', HEADER)
    for streams in (0,), (0, 1), (0, 1, 2), (1, 2), (0, 2):
        status = 74 if 1 in streams else 0
        wanted = (b'' if 1 in streams else b'accepted\n', status, b'' if 2 in streams or not status else b'gate: write failed\n')
        gate.equal(f'{streams} closed', gate.run('check', path, preexec_fn=closed(*streams)), wanted)
        with open(path, 'rb') as file:
            gate.equal(f'the module after {streams} closed', file.read(), HEADER)
