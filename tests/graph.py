"""Draws the crates of crates.txt by layers in docs/ARCHITECTURE.md, and says which crates stand on one.

A crate's layer is one above the highest of the crates that it stands on. Of each are named the crates that no other of them brings
along. With --check nothing is written: the status is 1 where the drawing is not that of crates.txt, where the table of the page has other
crates, or has them in another order, or where the page names an item of a crate that is not there.
"""
import glob
import os
import re
import sys

from tools.arguments import parser
from tools.crates import above, below, uses
from tools.files import ROOT, read, write

PAGE = 'docs/ARCHITECTURE.md'
BEGIN, END = '<!-- begin crates -->\n', '<!-- end crates -->\n'


def nearest(name, graph):
    """The crates that a crate stands on, but for those that another of them stands on."""
    return [it for it in graph[name] if not any(it in below(other, graph) for other in graph[name])]


def layers(graph):
    """The layer of each crate, from 1."""
    found = {}
    for name in graph:
        found[name] = 1 + max((found[it] for it in graph[name]), default=0)
    return found


def drawing(graph):
    """The crates as lines of text, the highest layer first, each with an arrow to what it stands on."""
    layer = layers(graph)
    width = max(map(len, graph))
    lines = []
    for number in range(max(layer.values()), 0, -1):
        lines.append('')
        for place, name in enumerate(it for it in graph if layer[it] == number):
            head = f'{number:2}' if place == 0 else '  '
            used = ' '.join(nearest(name, graph))
            lines.append(f'    {head}  {name:{width}}' + (f'  ──► {used}' if used else ''))
    return '\n'.join(line.rstrip() for line in lines) + '\n\n'


def in_page(text, graph):
    """The page with the drawing of these crates."""
    before, rest = text.split(BEGIN)
    _, after = rest.split(END)
    return before + BEGIN + drawing(graph) + END + after


def in_table(text):
    """The crates that the table of the page has, in its order."""
    return re.findall(r'^\| `(\w+)` \| [^|]+ \|$', text.split(END)[1].split('\n## ')[0], re.M)


def lost_items(text, graph):
    """The items of crates that the page names as CRATE::ITEM or CRATE::MODULE::ITEM, and that their sources have not."""
    for crate, *path in (found.split('::') for found in set(re.findall(r'\b\w+(?:::\w+)+', text))):
        if crate in graph:
            paths = glob.glob(os.path.join(ROOT, 'crates', crate, 'src', '**', '*.rt'), recursive=True)
            sources = '\n'.join(map(read, paths))
            if not all(re.search(rf'\b(?:fn|struct|enum|mod|const) {name}\b', sources) for name in path):
                yield '::'.join([crate, *path])


def main():
    taken = parser(__doc__)
    taken.add_argument('--check', action='store_true', help='only say whether the page is that of crates.txt')
    taken.add_argument('--above', metavar='CRATE', help='only list the crates that stand on CRATE, in the order in which they are checked')
    words = taken.parse_args()
    graph, text = uses(), read(PAGE)
    if words.above:
        if words.above not in graph:
            taken.error(f'crates.txt has no crate {words.above}')
        print(*above(words.above, graph), sep='\n')
        return 0
    new = in_page(text, graph)
    if not words.check:
        write(PAGE, new)
        return 0
    faults = ['the drawing is not that of crates.txt: run `python3 -m tests.graph`'] if new != text else []
    if in_table(text) != list(graph):
        faults.append('the table has other crates than crates.txt, or in another order')
    faults += [f'{name} is not there' for name in lost_items(text, graph)]
    for fault in faults:
        print(f'docs/ARCHITECTURE.md: {fault}', file=sys.stderr)
    return 1 if faults else 0


if __name__ == '__main__':
    sys.exit(main())
