"""The program with a folder of files, and what it is to say."""
import os
import shutil
import subprocess

from tools.counting import Count
from tools.encoding import HEADER, whole
from tools.files import shown, write
from tools.sanitizer import has_sanitizer

MODULE_LIMIT, CALLS_LIMIT, LINE_LIMIT = 16_777_216, 4_194_304, 100_000
WRITE_FAILED = (b'', 74, b'gate: write failed\n')
NO_MEMORY = (b'', 70, b'gate: no memory\n')
ACCEPTED, MALFORMED, TOO_LARGE = (b'accepted\n', 0, b''), (b'refused malformed\n', 2, b''), (b'refused too-large\n', 2, b'')
CALLS_TOO_LARGE = (b'accepted\ncalls too-large\n', 3, b'')
NO_CALLS = (b'total 0 values 0 traps 0 exhausted 0 refused 0 no-memory 0 fuel 0\n', 0, b'')
# Where the program is run as another user, so that limits and rights hold for it too.
NOBODY = 65534


def report(count):
    """What `count` calls of a function that does nothing are reported as."""
    lines = b''.join(b'%d values fuel 1\n' % number for number in range(count))
    return lines + b'total %d values %d traps 0 exhausted 0 refused 0 no-memory 0 fuel %d\n' % (count, count, count), 0, b''


def cannot_read(path, reason=b'no such file'):
    return b'', 74, b'gate: cannot read %s: %s\n' % (shown(os.fsencode(path)), reason)


class Gate(Count):
    """The program with a folder of files, and how often it did right."""

    def __init__(self, program, folder):
        super().__init__('hostile_environment')
        self.folder = folder
        os.chmod(folder, 0o755)
        # A copy, which another user may run too.
        self.program = shutil.copy(program, self.path('gate'))
        os.chmod(self.program, 0o755)
        self.left = []
        # The seconds that a run may take: of a program without a proof a read of a whole module is slow.
        self.longest = 600 if has_sanitizer(self.program) else 60
        self.module = self.write('module.wasm', whole(b''))
        self.short = self.write('short.wasm', HEADER[:7])
        self.calls = self.write('calls', b'f\n')
        self.bad_calls = self.write('bad', b'f')

    def path(self, name):
        return os.path.join(self.folder, name)

    def write(self, name, contents):
        write(self.path(name), contents)
        return self.path(name)

    def run(self, *words, **settings):
        """What it prints, its status, and what stands on standard error."""
        settings = {'stdout': subprocess.PIPE, 'stderr': subprocess.PIPE, 'timeout': self.longest, **settings}
        try:
            ran = subprocess.run([self.program, *words], **settings)
        except subprocess.TimeoutExpired:
            return b'', 'no end', b''
        return ran.stdout or b'', ran.returncode, ran.stderr or b''

    def leave_out(self, name, why):
        self.left.append(f'{name} ({why})')


def as_nobody(gate, name, wanted, *words, **settings):
    """Where this is run by root, another user runs the program, since root may do all."""
    other = {'user': NOBODY, 'group': NOBODY, 'extra_groups': []} if os.geteuid() == 0 else {}
    try:
        gate.equal(name, gate.run(*words, **other, **settings), *wanted)
    except PermissionError:
        gate.leave_out(name, 'root may not become another user here')
