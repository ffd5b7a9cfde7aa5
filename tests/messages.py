"""Holds what a comparison prints where it does not hold (tools/counting.py): the difference, and not both values whole."""
import sys

from tools.counting import Count, difference

REPORT = ''.join(f'{n} values i32:{n} fuel 1\n' for n in range(1000))
# What was got, what is wanted, and what is printed.
COMPARED = [
    (3, 4, '3; wanted 4'),
    ('accepted\n', 'accepted', r"'accepted\n'; wanted 'accepted'"),
    ((REPORT, 0, ''), (REPORT.replace('i32:700 ', 'i32:7 '), 0, ''),
     r"line 701: '700 values i32:700 fuel 1\n'; wanted '700 values i32:7 fuel 1\n'"),
    ((REPORT, 0, ''), (REPORT + 'total\n', 2, ''), r"line 1001: nothing; wanted 'total\n', 0; wanted 2"),
    ({'fuel': 1, 'pages': 2}, {'fuel': 1, 'pages': 3}, "lacks [('pages', 3)], and has beside it [('pages', 2)]"),
    ({'fuel', 'frames'}, {'fuel'}, "lacks [], and has beside it ['frames']"),
    (None, (0, 64), 'None; wanted (0, 64)'),
]


def main():
    count = Count('messages')
    for got, wanted, printed in COMPARED:
        told = difference(got, wanted)
        count.expect(told == printed, printed, told)
    return count.status()


if __name__ == '__main__':
    sys.exit(main())
