"""What a host answers, beside the verdicts and reports that are wanted."""
import os

from tests.hosting.processes import started
from tools.counting import difference


def compare_checks(tally, host, modules, before=()):
    names = ''.join(it.path + '\n' for it in modules).encode()
    out, _, error = started([*before, *host.check], names, host.environment)
    lines = out.decode().split('\n')
    tally.expect(len(lines) == len(modules) + 1 and not lines[-1] and not error, f'{host.name}: {len(lines) - 1} verdicts', error)
    for module, line in zip(modules, lines):
        tally.expect(line == module.line, f'{host.name}: {os.path.basename(module.path)}', f'{line!r}, wanted {module.line!r}')


def compare_run(tally, host, it, before=()):
    got = started([*before, *host.run, it.module, it.calls, *it.limits], None, host.environment)
    wanted = it.text, it.status, b''
    tally.expect(got == wanted, f'{host.name}: {it.name}', difference(got, wanted))


def compare_folder(tally, host, folder, modules):
    """The host in C reads a folder by itself, on three threads."""
    got = started([host.check[0], folder, '3'])
    wanted = ''.join(f'{os.path.basename(it.path)}: {it.line}\n' for it in modules).encode(), 0, b''
    tally.expect(got == wanted, f'{host.name}: a folder', difference(got, wanted))


def compare_calls(tally, host, it, before=()):
    """Each call of a report by itself and by values."""
    with open(it.calls) as file:
        calls = file.read().splitlines()
    for call, line in zip(calls, it.text.decode().splitlines()):
        got = started([*before, *host.call, it.module, *call.split('\t')], None, host.environment)
        wanted = line.split(' ', 1)[1].encode() + b'\n', 0, b''
        tally.expect(got == wanted, f'{host.name}: {it.name}: {call}', difference(got, wanted))
