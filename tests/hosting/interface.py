"""Each function of gate.h: by tests/interface/, also looked at by gate_debug.h, and with each request for memory refused."""
import os

from tests import rows
from tests.hosting.compiling import compile_c, debugged
from tests.hosting.processes import Left, needs, started
from tests.hosting.tables import limits_of
from tools.reports import may_report

SANITIZER = ['-fsanitize=address', '-g']
# Each refusal runs all calls again, and a long text of them asks for memory often.
MOST_FUEL_REFUSED, MOST_CALLS_REFUSED = 20_000, 256
MANY_ROUNDS, FEW_ROUNDS = 20_000, 50


def interface(tally, program, before, rounds):
    got = started([*before, program, str(rounds)])
    tally.expect(got[1] == 0 and not got[2], ' '.join(['interface', *before]), got)
    return int(got[0]) if got[1] == 0 else 0


def debug(tally, folder, work, more):
    """No fault in tests/interface/, and each of wrong_uses.c."""
    target = os.path.join(work, '-'.join(['debug', *more]))
    if started([needs('cc'), *more, '-x', 'c', '-', '-o', target], b'int main(void) { return 0; }')[1]:
        raise Left(f'no {more[0]}')
    compile_c('interface', target + '-interface', folder, [*more, *debugged()])
    interface(tally, target + '-interface', [], FEW_ROUNDS)
    compile_c('wrong_uses.c', target + '-wrong', folder, [*more, *debugged()])
    got = started([target + '-wrong'])
    tally.expect(got[1] == 0 and int(got[0] or b'0') > 0, 'wrong uses are told', got)


def refusals(tally, program, work, modules, runs):
    """Refuses each request in turn; answers how many were."""
    none = os.path.join(work, 'none')
    rows.write(none, b'')
    tasks = [' '.join([it.path, none, *limits_of('')]) for it in modules]
    for it in runs:
        fuel, *others = it.limits
        tasks.append(' '.join([it.module, it.calls, str(min(int(fuel), MOST_FUEL_REFUSED)), *others]))
    out, status, error = started([program], '\n'.join(tasks).encode())
    *reports, counts = out.decode().split('\0')
    tally.expect(status == 0 and not error, 'requests refused in turn', error.decode())
    for wanted, got in zip(reports[::2], reports[1::2]):
        tally.expect(may_report(wanted, got), 'a report with requests refused', f'{got!r}, wanted {wanted!r}')
    tried, unanswered = map(int, counts.split())
    tally.expect(0 < unanswered < tried and reports, 'requests refused in turn', f'{counts}, {len(reports)} reports')
    return tried
