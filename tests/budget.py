"""Holds the proofs to a budget, in figures that a machine's load does not change.

A crate has at most 110 functions. What its proof keeps is at most 300 MB, and the text that is generated for a function at most 8 MB. Of
all that the proof of the program keeps, the longest chain of crates that wait for one another has at most 33 %: no number of processors
makes up for a longer one.

Exceptions stand in tests/budget.tsv, each with a bound of its own and a reason. One that nothing needs by now has to go. Megabytes are
those of crates that ./prove has proved here as they stand. Of others only functions are counted, and the chain is measured where none is
left out.
"""
import sys

from tools import crates, kept, lanes
from tools.arguments import parser
from tools.counting import Count
from tools.files import read

PROGRAM = 'gate'
MOST = {'functions': 110, 'megabytes': 300, 'text': 8, 'chain': 33}
EXCEPTIONS = 'tests/budget.tsv'


def exceptions():
    """Of a figure and what it is one of: the most that is allowed."""
    rows = (line.split('\t') for line in read(EXCEPTIONS).splitlines() if not line.startswith('#'))
    return {(figure, name): float(most) for figure, name, most, _ in rows}


class Budget:
    """What was held to it so far."""

    def __init__(self):
        self.count, self.allowed, self.held = Count('budget'), exceptions(), set()

    def hold(self, figure, name, found):
        """Expects a figure within the budget, or beyond it within an exception."""
        key, most = (figure, name), MOST[figure]
        self.held.add(key)
        bound = self.allowed.get(key, most)
        self.count.expect(found <= bound, f'{figure} of {name}', f'{found:.1f}; the budget is {bound:.0f}')
        self.count.expect(key not in self.allowed or found > most, f'{figure} of {name}: nothing needs its exception', f'{found:.1f}')

    def hold_kept(self, sizes):
        """Holds crates, of each of which the megabytes are given, and their functions."""
        for name, size in sizes.items():
            self.hold('megabytes', name, size)
        for function, size in (it for name in sizes for it in kept.largest(name)):
            self.hold('text', function, size)

    def hold_exceptions(self, measured):
        """Expects that each exception is of something that is there, as far as it was measured."""
        for figure, name in self.allowed.keys() - self.held:
            is_gone = figure == 'functions' or name.partition('::')[0] in measured
            self.count.expect(not is_gone, f'{figure} of {name}: there is no such thing')


def main():
    parser(__doc__).parse_args()
    budget, graph = Budget(), crates.uses()
    for name in graph:
        budget.hold('functions', name, kept.functions(name))
    wanted = [it for it in graph if it in {PROGRAM, *crates.below(PROGRAM, graph)}]
    lacking = [it for it in wanted if not kept.paths(it) or lanes.is_changed(it, graph)]
    sizes = {it: kept.megabytes(it) for it in wanted if it not in lacking}
    budget.hold_kept(sizes)
    if lacking:
        print(f'only functions are counted of these, since nothing is kept here of their proofs, which ./prove {PROGRAM} makes:', *lacking)
    else:
        budget.hold('chain', PROGRAM, 100 * kept.chain_of(sizes, graph)[1])
    budget.hold_exceptions(sizes)
    return budget.count.status()


if __name__ == '__main__':
    sys.exit(main())
