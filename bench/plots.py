"""Plots as SVG: a row for each thing measured, a mark for each engine, on an axis that may be logarithmic.

They are readable on light and on dark pages: colours follow the reader's scheme, and each engine has a shape of its own. No font is
named but the reader's own.
"""
import collections
import math

WIDTH, LEFT, RIGHT, HIGH = 880, 280, 70, 25
SCHEME = """text { fill: #1f2328; font-family: sans-serif; font-size: 13px } .title { font-size: 16px; font-weight: bold }
.small { font-size: 12px } .page { fill: #ffffff } .grid { stroke: #d0d7de } .row { stroke: #eaeef2 } .one { stroke: #1f2328 }
.a { fill: #0550ae } .b { fill: #bc4c00 } .c { fill: #6e7781 } .d { fill: #1a7f37 } .e { fill: #8250df } .f { fill: #bf3989 }
@media (prefers-color-scheme: dark) { text { fill: #e6edf3 } .page { fill: #0d1117 } .grid { stroke: #3d444d } .row { stroke: #21262d }
.one { stroke: #e6edf3 } .a { fill: #58a6ff } .b { fill: #f0883e } .c { fill: #9198a1 } .d { fill: #3fb950 } .e { fill: #bc8cff }
.f { fill: #f778ba } }"""

# The marks of engines, alike in all plots: shape and colour by their number.
GATE, V8, C, WABT, JAVASCRIPTCORE, OTHER = range(6)
# The corners of each about its middle: a square, a diamond, a triangle with its point up and one with it down, a bar. That of gate is
# a circle.
POINTS = {V8: [(-4.5, -4.5), (4.5, -4.5), (4.5, 4.5), (-4.5, 4.5)], C: [(0, -6), (6, 0), (0, 6), (-6, 0)],
          WABT: [(0, -6), (5.5, 4.5), (-5.5, 4.5)], JAVASCRIPTCORE: [(0, 6), (5.5, -4.5), (-5.5, -4.5)],
          OTHER: [(-6, -2), (6, -2), (6, 2), (-6, 2)]}

# What a plot shows: its title, the axis in words, its series (the number of a mark, and a name), its rows (a label and a value for
# each series, or None), whether the axis is logarithmic, the value that others are measured by, where there is one, and the short
# name of the first series, whose values stand beside the rows.
Plot = collections.namedtuple('Plot', 'title axis series rows is_logarithmic unit first')


def escaped(text):
    return text.replace('&', '&amp;').replace('<', '&lt;').replace('>', '&gt;')


def mark(shape, x, y):
    """The mark of a series."""
    kind = 'abcdef'[shape]
    if shape not in POINTS:
        return f'<circle class="{kind}" cx="{x:.1f}" cy="{y:.1f}" r="5.5"/>'
    return f'<polygon class="{kind}" points="' + ' '.join(f'{x + dx:.1f},{y + dy:.1f}' for dx, dy in POINTS[shape]) + '"/>'


def text(x, y, words, place='start', kind='small'):
    return f'<text class="{kind}" x="{x:.1f}" y="{y:.1f}" text-anchor="{place}">{escaped(words)}</text>'


def line(kind, x, y, x2, y2):
    return f'<line class="{kind}" x1="{x:.1f}" y1="{y:.1f}" x2="{x2:.1f}" y2="{y2:.1f}"/>'


def number_text(value):
    """A number with three digits that count."""
    return f'{value:,.0f}' if value >= 100 else f'{value:.1f}' if value >= 10 else f'{value:.2f}'


def ticks_of(plot):
    """The ticks of the axis: it begins at or below each value, and ends at or past each."""
    values = [value for _, row in plot.rows for value in row if value is not None]
    if plot.is_logarithmic:
        ticks = [first * 10.0 ** power for power in range(-4, 6) for first in (1, 2, 5)]
        first = max(index for index, tick in enumerate(ticks) if tick <= min(values))
    else:
        step = 1 if max(values) <= 8 else 5 * math.ceil(max(values) / 40)
        ticks, first = [step * index for index in range(42)], 0
    last = min(index for index, tick in enumerate(ticks) if tick >= max(values))
    return ticks[first:last + 1]


def scale(plot, ticks):
    """Where a value stands on the axis."""
    turned = math.log if plot.is_logarithmic else float
    least, most = turned(ticks[0]), turned(ticks[-1])
    return lambda value: LEFT + (turned(value) - least) / (most - least) * (WIDTH - LEFT - RIGHT)


def legend(plot, y):
    """The names of the series, with their marks, side by side."""
    parts, x = [], 20
    for shape, name in plot.series:
        parts += [mark(shape, x, y - 4), text(x + 11, y, name)]
        x += 34 + 7.2 * len(name)
    return parts


def axis(plot, ticks, at, top, bottom):
    """The lines of the axis and its numbers, and what it is in words."""
    parts = [text((LEFT + WIDTH - RIGHT) / 2, bottom + 40, plot.axis, 'middle')]
    for tick in ticks:
        parts += [line('grid', at(tick), top - 6, at(tick), bottom), text(at(tick), bottom + 17, f'{tick:g}', 'middle')]
    return parts + ([line('one', at(plot.unit), top - 6, at(plot.unit), bottom)] if plot.unit else [])


def row(series, label, values, at, y):
    """A row: its label, a mark for each value, the first on top, and the first as a number."""
    shown = [(shape, value) for (shape, _), value in zip(series, values) if value is not None]
    return ([line('row', LEFT, y, WIDTH - RIGHT, y), text(LEFT - 12, y + 4, label, 'end', '')]
            + [mark(shape, at(value), y) for shape, value in reversed(shown)]
            + [text(WIDTH - 12, y + 4, '-' if values[0] is None else number_text(values[0]), 'end')])


def drawn(plot):
    """The plot as the text of an SVG file. Beside each row stands the value of the first series."""
    ticks, top = ticks_of(plot), 72
    at, bottom = scale(plot, ticks), top + HIGH * len(plot.rows)
    parts = [f'<svg xmlns="http://www.w3.org/2000/svg" viewBox="0 0 {WIDTH} {bottom + 52}" role="img">',
             f'<title>{escaped(plot.title)}</title>', f'<style>{SCHEME}</style>',
             f'<rect class="page" width="{WIDTH}" height="{bottom + 52}"/>',
             text(12, 24, plot.title, kind='title'), text(WIDTH - 12, 50, plot.first, 'end')]
    parts += legend(plot, 50) + axis(plot, ticks, at, top, bottom)
    for index, (label, values) in enumerate(plot.rows):
        parts += row(plot.series, label, values, at, top + HIGH * (index + 0.5))
    return '\n'.join(parts + ['</svg>', ''])
