"""Limits of the system: memory, threads, open files, the stack."""
import errno
import resource
import signal
import subprocess

from tools.encoding import whole
from tools.reports import may_report
from tools.sanitizer import has_sanitizer
from .gate import ACCEPTED, MALFORMED, NO_MEMORY, as_nobody, report

KILOBYTES, MEGABYTES = 1 << 10, 1 << 20


def held(*limits):
    """Before the program begins, each of these limits is set."""
    return lambda: [resource.setrlimit(which, (value, value)) for which, value in limits]


def begun(gate, words, **settings):
    """What the program says, or nothing where the system could not begin it: its memory found no room, or its libraries none."""
    try:
        ended = gate.run(*words, **settings)
    except (OSError, subprocess.SubprocessError) as fault:
        # A fault of the new process before it becomes the program has no number.
        if getattr(fault, 'errno', errno.ENOMEM) == errno.ENOMEM:
            return None
        raise
    is_loader = ended[1] == 127 or ended[1] in (-signal.SIGKILL, -signal.SIGSEGV, -signal.SIGABRT)
    return None if is_loader else ended


def steps():
    """Bytes of memory, from nothing to plenty; the program begins with some three megabytes of addresses."""
    return [*range(0, 4 * MEGABYTES, 256 * KILOBYTES), *range(4 * MEGABYTES, 12 * MEGABYTES, 128 * KILOBYTES),
            *range(12 * MEGABYTES, 64 * MEGABYTES, 4 * MEGABYTES), *(1 << bits for bits in (26, 27, 28, 29, 30, 36))]


def memory_limits(gate):
    bodies = gate.write('many.wasm', whole(b'', others=[(0, b'\x00\x01\x0B')] * 20_000))
    calls = gate.write('many', b'f\n' * 20_000)
    cases = [(['check', bodies, '--workers', '1'], ACCEPTED), (['check', bodies, '--workers', '64', '--piece', '1'], ACCEPTED),
             (['run', bodies, calls, '--workers', '8', '--piece', '1'], report(20_000)), (['check', gate.short], MALFORMED)]
    for limit in (resource.RLIMIT_AS, resource.RLIMIT_DATA):
        for words, wanted in cases:
            is_begun, ended = False, None
            for value in steps():
                ended = begun(gate, words, preexec_fn=held((limit, value)))
                is_begun = is_begun or ended is not None
                if is_begun:
                    gate.equal(f'{value} bytes of limit {limit}, {words[0]} {words[2:]}', short_of(wanted, ended), wanted, NO_MEMORY)
            gate.equal(f'plenty of limit {limit}, {words}', ended, wanted)


def short_of(wanted, ended):
    """What was wanted, where some calls of that report ran out of memory; else what was said."""
    is_report = ended and ended[0] and wanted[0].startswith(b'0 ') and ended[1:] == (0, b'')
    return wanted if is_report and may_report(wanted[0].decode(), ended[0].decode()) else ended


def thread_limits(gate):
    """As few threads as the system gives: workers without one run on the thread that calls."""
    bodies = gate.write('bodies.wasm', whole(b'', others=[(0, b'\x00\x01\x0B')] * 5_000))
    loops, calls = gate.write('loops.wasm', whole(b'\x03\x40\x0C\x00\x0B')), gate.write('loops', b'f\n' * 100)
    exhausted = b''.join(b'%d out-of-fuel fuel 200000\n' % number for number in range(100))
    exhausted += b'total 100 values 0 traps 0 exhausted 100 refused 0 no-memory 0 fuel 20000000\n'
    many = ['--workers', '64', '--piece', '1']
    for threads in (0, 1, 2, 3, 5, 10, 70):
        few = held((resource.RLIMIT_NPROC, threads))
        as_nobody(gate, f'{threads} threads, check', [ACCEPTED], 'check', bodies, *many, preexec_fn=few)
        words = ['run', loops, calls, '--fuel', '200000', *many]
        as_nobody(gate, f'{threads} threads, run', [(exhausted, 0, b'')], *words, preexec_fn=few)


def small_stacks(gate, many):
    deep = gate.write('deep.wasm', whole(b'\x02\x40' * 100_000 + b'\x0B' * 100_000))
    for words, wanted in (['check', deep], ACCEPTED), (['run', deep, gate.calls], report(1)), (many, ACCEPTED):
        small = held((resource.RLIMIT_STACK, 64 * KILOBYTES))
        gate.equal(f'a stack of 64 KiB, {words[0]}', gate.run(*words, preexec_fn=small), wanted)


def limits(gate):
    thread_limits(gate)
    many = ['check', gate.path('bodies.wasm'), '--workers', '64', '--piece', '1']
    if has_sanitizer(gate.program):
        gate.leave_out('address space, data and stack', 'the sanitizer of a program without a proof takes more')
    else:
        memory_limits(gate)
        small_stacks(gate, many)
    # With three the system finds no library.
    for files in (4, 5, 64):
        gate.equal(f'{files} open files', gate.run(*many, preexec_fn=held((resource.RLIMIT_NOFILE, files))), ACCEPTED)
    gate.equal('no core', gate.run(*many, preexec_fn=held((resource.RLIMIT_CORE, 0), (resource.RLIMIT_MEMLOCK, 0))), ACCEPTED)
