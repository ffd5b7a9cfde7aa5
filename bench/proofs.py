"""Lists what the last check of a crate from nothing, as the first ./gate makes it, waited for.

A check keeps a file of each module that it has checked, under out/incremental of the crate. The time between one file and the
next is what the later one took, where one process checks; where several do, it is the time in which none of them had
anything done. `Lts` is the function's own steps, `Proof` and `Answers` their proof, `Key` and the like its statement; `Kinds`
are the types that it is the first to name.
"""
import os

from tools import kept
from tools.arguments import parser


def files_of(crate):
    """The files that the check kept, in the order in which they were written: when, and the module."""
    return sorted((os.stat(it).st_mtime, kept.module_of(it)) for it in kept.paths(crate))


def main():
    taken = parser(__doc__)
    taken.add_argument('--most', metavar='N', type=int, default=10, help='show at most N modules of a crate (default: 10)')
    taken.add_argument('crates', metavar='CRATE', nargs='+')
    words = taken.parse_args()
    for crate in words.crates:
        files = files_of(crate)
        if not files:
            print(f'{crate}: no check has kept anything')
            continue
        print(f'{crate}: {files[-1][0] - files[0][0]:.0f} s from the first of {len(files)} modules to the last')
        waits = [(later - before, name) for (before, _), (later, name) in zip(files, files[1:])]
        for wait, name in sorted(waits, reverse=True)[: words.most]:
            print(f'  {wait:6.1f} s  {name}')


if __name__ == '__main__':
    main()
