"""gate.h by the compilers, and what the shared library exports and says of itself."""
import ctypes
import os
import re

from tools import library
from tests.hosting.compiling import DEBUG, HEADER, INCLUDE, MORE_WARNINGS, WARNINGS
from tests.hosting.processes import Left, needs, started

STANDARDS = {'cc': ['c89', 'c99', 'c11', 'c2x'], 'c++': ['c++98', 'c++17', 'c++20']}
# What stands in gate.h alone, and the second names of its numbers.
PROGRAM = b'''#include "gate.h"
int main(void) {
    gate_module module = { 0 };
    gate_report report = { 0 };
    gate_instance instance = { 0 };
    gate_module_drop(module);
    gate_report_drop(report);
    gate_instance_drop(instance);
    if (gate_i32(-1).width != 32 || gate_i32(-1).bits != 0xFFFFFFFF || gate_i64(-1).width != 64 || ~gate_i64(-1).bits) return 1;
    if (GATE_STATUS_BAD_ARGUMENT != 64 || GATE_STATUS_NO_MEMORY != 70 || GATE_END_BAD_ARGUMENTS != 6 || GATE_END_NO_MEMORY != 8) return 1;
    return gate_version() != GATE_INTERFACE || GATE_TRAP_TYPE_MISMATCH != 4;
}
'''
# A function of a host, what it may do, and the warning that each wrong use gives, with the attribute that it comes from.
FUNCTION = '#include "gate.h"\nuint32_t f(const uint8_t *at, gate_verdict *verdict) { size_t length; uint8_t few[4], out[64];\n'
FUNCTION += '(void)at; (void)verdict; (void)length; (void)few; (void)out; '
RIGHT_USES = ['return gate_check(at, 8, verdict);', 'return gate_verdict_line(verdict, out, 64, &length);']
WARNED = [('return gate_check(at, 8, NULL);', 'nonnull', 'nonnull]'),
          ('gate_check(at, 8, verdict); return 0;', 'warn_unused_result', 'unused-result]'),
          ('return gate_verdict_line(verdict, few, 64, &length);', 'access', 'stringop-overflow')]
WANTED_OF_LIBC = {'malloc', 'realloc', 'free', 'memcpy', 'memmove', 'memset'}


def symbols(path, *options):
    return {line.split()[-1].split('@')[0] for line in started(['nm', *options, path])[0].decode().splitlines() if ' ' in line}


def header(tally, folder, work):
    for compiler, standards in STANDARDS.items():
        language = 'c' if compiler == 'cc' else 'c++'
        for standard in standards:
            target = os.path.join(work, f'header-{standard}')
            words = [needs(compiler), f'-std={standard}', *WARNINGS, *MORE_WARNINGS, f'-I{INCLUDE}', '-x', language, '-', '-x', 'none']
            got = started([*words, '-o', target, os.path.join(folder, library.ARCHIVE)], PROGRAM)
            tally.expect(got[1] == 0 and not got[2], f'gate.h by {compiler} -std={standard}', got)
            tally.expect(got[1] == 0 and started([target])[1] == 0, f'what stands in gate.h by {compiler} -std={standard}')


def warned(tally):
    """The compiler warns of wrong uses that it sees, where it has the attribute, and of nothing else."""
    words = [needs('cc'), '-std=c11', '-O2', *WARNINGS, f'-I{INCLUDE}', '-c', '-x', 'c', '-', '-o', os.devnull]
    for use in RIGHT_USES:
        got = started(words, (FUNCTION + use + ' }\n').encode())
        tally.expect(got[1] == 0, f'`{use}`', got)
    for use, attribute, warning in WARNED:
        if started([*words, '-E', '-o', '-'], f'#if !__has_attribute({attribute})\n#error\n#endif\n'.encode())[1] == 0:
            got = started(words, (FUNCTION + use + ' }\n').encode())
            tally.expect(got[1] != 0 and warning.encode() in got[2], f'the warning of `{use}`', got)


def exports(tally, folder):
    needs('nm')
    with open(HEADER) as file:
        declared = set(re.findall(r'^(?:uint32_t|uint64_t|void) (gate_\w+)\(', file.read(), re.MULTILINE))
    with open(os.path.join(DEBUG, 'gate_debug.h')) as file:
        looked_at = set(re.findall(r'^#define (gate_\w+)\(', file.read(), re.MULTILINE))
    tally.expect(declared - looked_at == {'gate_version', 'gate_revision'}, 'what gate_debug.h looks at', declared - looked_at)
    shared, archive = os.path.join(folder, library.SHARED), os.path.join(folder, library.ARCHIVE)
    exported = symbols(shared, '-D', '--defined-only') - {'GATE_1', 'GATE_1.1', 'GATE_1.2'}
    tally.expect(exported == declared, 'what libgate.so.1 exports', exported ^ declared)
    named = symbols(archive, '--extern-only', '--defined-only')
    tally.expect(named == declared, 'what libgate.a names', named ^ declared)
    wanted = symbols(archive, '--undefined-only')
    tally.expect(wanted == WANTED_OF_LIBC, 'what libgate.a wants', wanted)


def build(tally, folder):
    """Which build the shared library says that it is."""
    with open(HEADER) as file:
        version = re.search(r'^#define GATE_VERSION "(.*)"$', file.read(), re.MULTILINE)[1]
    kit = started([needs('rt'), 'version'])[0].decode().split()[0]
    out, length = ctypes.create_string_buffer(64), ctypes.c_size_t()
    status = ctypes.CDLL(os.path.join(folder, library.SHARED)).gate_build(out, ctypes.c_size_t(64), ctypes.byref(length))
    text = out.raw[:length.value].decode()
    wanted = rf'gate {re.escape(version)} \(commit (-{{12}}|[0-9a-f]{{11}}[0-9a-f+]), {re.escape(kit)}\)'
    tally.expect(status == 0 and re.fullmatch(wanted, text), 'gate_build', text)


def level(tally, folder):
    """The shared library names the level of its processor, and has a hash of its bytes, where the linker is that of GNU."""
    needs('readelf')
    if b'GNU ld' not in started([needs('cc'), '-Wl,--version'])[0]:
        raise Left('the linker is another one')
    notes = started(['readelf', '-n', os.path.join(folder, library.SHARED)])[0]
    tally.expect(b'x86-64-v2' in notes and b'Build ID' in notes, 'the notes of libgate.so.1', notes)
