"""Runs the hosts of examples/ over the library for C, and holds what they say beside what the proved program says.

hosts       Each host whose compiler is on the machine prints the verdicts of all modules of the tables (see rows.py), and of mutants of
            them as the program judges these, and the reports of the tables with their status.
            A host is asked in three ways: `check -`, with names of files on standard input, one verdict line each on standard output;
            `run MODULE CALLS FUEL FRAMES PAGES`, a report on standard output; and `call MODULE NAME [i32:N | i64:N ..]`, the line
            of that call in a report, without its number.
plug-ins    The hosts of plug-ins (examples/*/plugin_host.*) hand texts to plug-ins that answer, that lie, that trap and that have no room,
            and go on after each of them.
workers     The worker of examples/c: texts, broken frames and limits, by hand. The hosts that set it a deadline, in C and the one in
            Python of HOSTS, print one table: plug-ins that never end, workers that end, hang or answer in part. No process is left.
header      gate.h by the compilers of C and C++, with all warnings; the compiler warns of wrong uses that it sees. The shared library
            exports the functions of gate.h and nothing else, wants six functions of the C library, and says which processor it wants.
            Its gate_build has the version of gate.h and the kit of `rt version`.
C++         gate.hpp by wrapper.cpp, in which memory is refused too, and examples/cpp as it is shown, with all warnings.
interface   interface/ calls each function, with short buffers, null pointers and numbers that are none, and on four threads.
debug       interface/ and the hosts in C over debug/gate_debug.c, which has to find no fault; wrong_uses.c, of which it finds each.
exchanges   hosts that a plug-in asks for what it wants, with one fuel for all calls: examples/*/exchange.*, and the one in Python of HOSTS.
Dask        on_dask.py of examples/many on two workers here, one of which is killed on the way: the report is that of one run.
packages    the tests of the packages for Rust, Go and Python, and of the addon for Node; what mypy says of the one for Python.
refused     refuse_through_c.c refuses each request for memory in turn.
valgrind    where it is on the machine: no error and no leak in the hosts in C and in interface/, and no race in the latter.
What is left out, for want of a tool, is counted and named at the end; with --all nothing may be.
"""
import os
import shutil
import sys
import tempfile
from concurrent.futures import ThreadPoolExecutor

from tools import library
from tests.hosting.answers import compare_calls, compare_checks, compare_folder, compare_run
from tests.hosting.clusters import cluster
from tests.hosting.compiling import compile_c
from tests.hosting.header import build, exports, header, level, warned
from tests.hosting.interface import FEW_ROUNDS, MANY_ROUNDS, MOST_CALLS_REFUSED, SANITIZER, debug, interface, refusals
from tests.hosting.languages import hosts
from tests.hosting.exchanges import compare_exchange, exchange_of_python
from tests.hosting.packages import node, tests_of_go, tests_of_python, tests_of_rust, types_of_python
from tests.hosting.plug_ins import compare_plug_ins, write_plug_ins
from tests.hosting.processes import MEMCHECK, VALGRIND, Jobs, Tally
from tests.hosting.tables import SHORT, modules_of_tables, mutants, runs_by_call, runs_of_tables
from tests.hosting.workers import compare_deadlines, compare_worker, write_modules
from tests.hosting.wrapper import wrapper
from tools.arguments import parser

AT_ONCE = 4
VALGRIND_RUNS, VALGRIND_CALLS = 5, 3


def begin_hosts(jobs, found, folder, work, modules, runs):
    for host in found:
        jobs.begin(host.name, compare_checks, host, modules)
        if host.plug_in:
            jobs.begin(host.name, compare_plug_ins, host, work)
        if host.worker:
            jobs.begin(host.name, compare_worker, host, work)
        if host.exchange:
            jobs.begin(host.name, compare_exchange, host.name, [host.exchange], work)
        if host.name == 'C':
            jobs.begin(host.name, compare_folder, host, folder, modules)
            jobs.begin(host.name, compare_deadlines, host, work)
        for it in runs:
            jobs.begin(host.name, compare_run, host, it)
        for it in runs_by_call(runs):
            jobs.begin(host.name, compare_calls, host, it)


def begin_valgrind(jobs, found, work, checker, modules, runs):
    for host in found:
        if host.name == 'C':
            jobs.begin('valgrind', compare_checks, host, [it for it in modules if it.length <= SHORT], MEMCHECK)
            for it in runs[:: len(runs) // VALGRIND_RUNS]:
                jobs.begin('valgrind', compare_run, host, it, MEMCHECK)
            for it in runs_by_call(runs)[:VALGRIND_CALLS]:
                jobs.begin('valgrind', compare_calls, host, it, MEMCHECK)
            jobs.begin('valgrind', compare_plug_ins, host, work, MEMCHECK)
            jobs.begin('valgrind', compare_worker, host, work, MEMCHECK)
    jobs.begin('valgrind', interface, checker, MEMCHECK, FEW_ROUNDS)
    jobs.begin('valgrind', interface, checker, VALGRIND + ['--tool=helgrind'], FEW_ROUNDS)


def begin_others(jobs, folder, work):
    """What is asked of the library without the tables."""
    jobs.begin('gate.h', header, folder, work)
    jobs.begin('warnings', warned)
    jobs.begin('exports', exports, folder)
    jobs.begin('the notes of the shared library', level, folder)
    jobs.begin('which build it is', build, folder)
    jobs.begin('Dask', cluster, folder, work)
    jobs.begin('C++', wrapper, folder, work, work)
    jobs.begin('Node', node, folder, work, work)
    jobs.begin('Python', tests_of_python, folder)
    jobs.begin('an exchange', exchange_of_python, folder, work)
    jobs.begin('mypy', types_of_python, work)
    jobs.begin('debug', debug, folder, work, [])
    jobs.begin('debug with AddressSanitizer', debug, folder, work, SANITIZER)
    jobs.begin('cargo test', tests_of_rust, folder, work)
    jobs.begin('go test', tests_of_go, folder, work)


def all_parts(tally, pool, program, folder, work):
    """Does all of it, side by side; answers what was checked, in words."""
    checker, refuser, place = os.path.join(work, 'interface'), os.path.join(work, 'refuse'), os.path.join(work, 'modules')
    os.mkdir(place)
    found = hosts(tally, pool, folder, work)
    compile_c('interface', checker, folder)
    # Its first check, when no request is refused yet, has an answer whatever the status says.
    wrapped = [f'-Wl,--wrap={name}' for name in ('malloc', 'realloc', 'free')]
    compile_c('refuse_through_c.c', refuser, folder, ['-Wno-unused-result', *wrapped])
    rows_, bytes_ = zip(*modules_of_tables(place))
    modules = [*rows_, *mutants(pool, program, place, [it for it in bytes_ if len(it) <= SHORT])]
    runs = list(runs_of_tables(work))
    jobs = Jobs(tally, pool)
    short_runs = [it for it in runs if it.length <= SHORT and os.path.getsize(it.calls) <= MOST_CALLS_REFUSED]
    jobs.begin('refused', refusals, refuser, work, [it for it in rows_ if it.length <= SHORT], short_runs)
    jobs.begin('interface', interface, checker, [], MANY_ROUNDS)
    write_plug_ins(work)
    write_modules(work)
    begin_others(jobs, folder, work)
    if shutil.which('valgrind'):
        begin_valgrind(jobs, found, work, checker, modules, runs)
    else:
        tally.leave_out('valgrind', 'it is not there')
    begin_hosts(jobs, found, place, work, modules, runs)
    refused, held, *_ = jobs.all()
    names = ', '.join(it.name for it in found)
    return f'{names}: {len(modules)} verdicts and {len(runs)} reports each; {refused} requests refused; {held} statements on gate.h'


def main(program, folder, wants_all):
    tally = Tally('hosts')
    with tempfile.TemporaryDirectory() as work, ThreadPoolExecutor(AT_ONCE) as pool:
        if not folder:
            folder = os.path.join(work, 'library')
            library.make(library.CRATE_OUT, folder)
        said = all_parts(tally, pool, program, os.path.abspath(folder), work)
    left = f'{len(tally.left)} left out' + (f': {", ".join(tally.left)}' if tally.left else '')
    print(f'hosts: {said}; {tally.passed} passed, {tally.failed} failed, {left}')
    return 1 if tally.failed or not tally.passed or wants_all and tally.left else 0


if __name__ == '__main__':
    taken = parser(__doc__)
    taken.add_argument('program', metavar='PROGRAM', help='the proved program')
    taken.add_argument('--library', metavar='FOLDER', help='where tools/library.py put the library (default: it is made)')
    taken.add_argument('--all', action='store_true', help='nothing may be left out')
    chosen = taken.parse_args()
    sys.exit(main(os.path.abspath(chosen.program), chosen.library, chosen.all))
