"""What the proofs of crates keep, in figures that a machine's load does not change: `./prove --report` prints them, and tests/budget.py
holds them to bounds.

A check keeps a file of each module that it has checked, under out/incremental of the crate. `Lts` is the text that is generated for a
function, which grows as its lines do and takes most of its proof.
"""
import glob
import os
import re

from . import crates
from .files import ROOT, read

MEGABYTE = 1_000_000
FUNCTION = re.compile(r'^[ \t]*(?:pub(?:\([a-z]+\))? )?(?:const |unsafe |extern "C" )*fn \w', re.M)


def paths(crate):
    """The files that checks of a crate kept, one a module."""
    return glob.glob(os.path.join(ROOT, 'crates', crate, 'out', 'incremental', '*', '*.oantt'))


def module_of(path):
    return os.path.basename(path)[: -len('.oantt')]


def functions(crate):
    """How many functions the sources of a crate have."""
    files = glob.glob(os.path.join(ROOT, 'crates', crate, 'src', '**', '*.rt'), recursive=True)
    return sum(len(FUNCTION.findall(read(it))) for it in files)


def megabytes(crate):
    return sum(map(os.path.getsize, paths(crate))) / MEGABYTE


def largest(crate):
    """Of each function of a crate the megabytes of its generated text, the largest first."""
    front, end = f'Rattle-{crate}-proofs.', '.Lts'
    found = {module_of(it): os.path.getsize(it) / MEGABYTE for it in paths(crate)}
    own = {f'{crate}.{name[len(front): -len(end)]}'.replace('.', '::'): size for name, size in found.items()
           if name.startswith(front) and name.endswith(end)}
    return sorted(own.items(), key=lambda it: -it[1])


def chain_of(sizes, graph):
    """Of the crates that have kept something those of the longest chain, by megabytes, from its lowest on, and their share of all."""
    chains = crates.behind(sizes, graph)
    found, above = [], list(sizes)
    while above:
        found.append(max(above, key=chains.get))
        above = [it for it in sizes if found[-1] in graph[it]]
    return found, sum(sizes[it] for it in found) / sum(sizes.values())


def report(names, graph):
    """Prints these figures of crates; of each crate its three largest functions."""
    print(f'{"crate":16}{"functions":>9}{"MB":>7}  MB of the text of its largest functions')
    sizes = {name: size for name in names if (size := megabytes(name))}
    for name in names:
        texts = ', '.join(f'{it.removeprefix(name + "::")} {size:.1f}' for it, size in largest(name)[:3])
        print(f'{name:16}{functions(name):9}{sizes[name] if name in sizes else 0:7.0f}  {texts}' if name in sizes else
              f'{name:16}{functions(name):9}      -  nothing is kept: ./prove {name}')
    if sizes:
        chain, share = chain_of(sizes, graph)
        print(f'the longest chain has {share:.0%} of {sum(sizes.values()):.0f} MB:', *chain)
