"""The crates of crates.txt, and which of them stands on which. A graph has of each crate those of this repository that it names."""
import re

from .files import read


def lines():
    """The lines of crates.txt, one a crate."""
    return re.findall(r'^\w.*\n', read('crates.txt'), re.M)


def name_of(line):
    return re.match(r'\w+', line).group()


def is_static_library(name):
    """Whether crates.txt has a crate as a static library, and not as a program."""
    return any(line.split(':')[0].split()[:2] == [name, 'staticlib'] for line in lines())


def uses():
    """The graph, in the order of crates.txt."""
    used = {name_of(line): line.split(':')[1].split() for line in lines()}
    return {name: [it for it in named if it in used] for name, named in used.items()}


def below(name, graph):
    """The crates that a crate stands on."""
    found, left = set(), list(graph[name])
    while left:
        crate = left.pop()
        if crate not in found:
            found.add(crate)
            left += graph[crate]
    return found


def above(name, graph):
    """The crates that stand on a crate, in the order of crates.txt."""
    return [it for it in graph if name in below(it, graph)]


def behind(weights, graph):
    """Of each of these crates the weight of the heaviest chain of crates that wait for it, itself among them."""
    chains = {}
    for name in sorted(weights, key=lambda it: -len(below(it, graph))):
        others = [chains[it] for it in weights if name in graph[it]]
        chains[name] = weights[name] + max(others, default=0)
    return chains
