"""How many processor seconds the proof of each crate takes from nothing, and how much memory: for estimates, and for the order of proofs.

`./prove` writes what a proof from nothing took into `out/proof_times.tsv`, which comes before `proof_times.tsv`. That one has what was
measured for all, and is written anew by copying the former over it after `./prove gate` from nothing.
"""
import os

from .files import ROOT, read, write
from .kit import MEGABYTES_OF_A_CHECK

RECORDED = 'tools/proof_times.tsv'
MEASURED = os.path.join('out', 'proof_times.tsv')
HEAD = '# crate\tprocessor seconds of a proof from nothing\tmegabytes of its largest process\n'
# Seconds for a crate that nobody has measured.
UNKNOWN = 60
# What each further job adds to the memory of a check, as `rt` reckons.
PART_OF_A_JOB = 0.6


def rows(path):
    """Of each crate its seconds and its megabytes, which are 0 where nobody has measured them."""
    try:
        lines = read(path).splitlines()
    except OSError:
        return {}
    fields = (line.split('\t') for line in lines if line and not line.startswith('#'))
    return {name: (int(seconds), int(megabytes or 0)) for name, seconds, megabytes in fields}


def known():
    return {**rows(RECORDED), **rows(MEASURED)}


def seconds_of(names):
    """Of each of these crates about how many processor seconds its proof takes from nothing."""
    times = known()
    return {name: times[name][0] if name in times else UNKNOWN for name in names}


def megabytes_of(name, jobs=1):
    """How much memory the proof of a crate needs with this number of jobs, as far as that is known."""
    one = known().get(name, (0, 0))[1] or MEGABYTES_OF_A_CHECK
    return round(one * (1 + PART_OF_A_JOB * (jobs - 1)))


def keep(name, seconds, megabytes, jobs):
    """Writes down what the proof of a crate from nothing took: the seconds, and the megabytes of its largest process. Where several jobs
    shared the work, that one held less than one alone does, so that the megabytes shrink only by a proof of one job."""
    held = megabytes if jobs == 1 else max(megabytes, known().get(name, (0, 0))[1])
    times = {**rows(MEASURED), name: (seconds, held)}
    lines = [f'{crate}\t{took}\t{held or ""}\n' for crate, (took, held) in sorted(times.items())]
    write(MEASURED + '.new', HEAD + ''.join(lines))
    os.replace(os.path.join(ROOT, MEASURED + '.new'), os.path.join(ROOT, MEASURED))
