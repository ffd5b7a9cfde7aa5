"""Runs the program in hostile surroundings, and holds what it does to docs/FORMATS.md.

outputs    standard output is closed, full, not open for writing, a pipe that is full or that nobody reads (with SIGPIPE ignored and
           not), a terminal that hung up, or a file that may not grow (its signal ignored): a write that fails, and no signal. Standard
           error the same way changes nothing. Where all three are closed, no file is harmed.
inputs     standard input is closed, is the module, a socket, a file that was read in part or that only its opener may read, and is read
           without /proc; modules and calls from pipes in parts; pipes and devices without an end, of which one byte past the limit
           is read; files that grow and shrink while they are read; folders, sockets and files whose reading fails
names      names that are no UTF-8, are empty, long, or hold a newline; links, and those in folders to what is no file; a file without
           the right to read; an empty and a strange environment; a working directory that was deleted; no words at all, and very many
sizes      a module and a text of calls of the greatest length, and of one byte more
limits     address space and data from nothing to plenty, threads, open files, stack: the answer is the right one, or out of memory,
           with nothing on standard output or in the lines of calls that were run. Where the system cannot begin the program within
           a limit, that is no answer of its own.
Of what cannot be tried on this machine it is said that it was left out.
"""
import sys
import tempfile

from tests.environment.gate import Gate
from tests.environment.inputs import inputs
from tests.environment.limits import limits
from tests.environment.names import names
from tests.environment.outputs import outputs
from tests.environment.sizes import sizes
from tools.arguments import program


def main(path):
    with tempfile.TemporaryDirectory() as folder:
        gate = Gate(path, folder)
        for part in (outputs, inputs, names, sizes, limits):
            part(gate)
    for it in gate.left:
        print(f'left out: {it}')
    return gate.status()


if __name__ == '__main__':
    sys.exit(main(program(__doc__)))
