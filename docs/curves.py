"""Curves over logarithmic axes: of each program a line through the figures of a table, with its name at the end."""
import collections
import math

from drawing import LEFT, WIDTH, text

# A panel of curves: its title, how the header of its table begins, the column of the horizontal axis, and the other one that is the same in its rows.
Curves = collections.namedtuple("Curves", "title begins across fixed")
# The class of each line.
KINDS = ("own", "other", "third")
# Room for the numbers of the vertical axis, for the names, for a number of the horizontal axis, and before the first figure and after the last one; the
# height of the curves; and of a name.
NUMBERS, NAMES, NUMBER, INSET, HEIGHT, NAME = 44, 62, 54, 8, 130, 14
LIGHT = """.line { fill: none; stroke-width: 2 }
.own-line { stroke: #1f6feb }
.other-line { stroke: #c2631b }
.third { fill: #6e7781 }
.third-line { stroke: #6e7781 }
.grid { stroke: #d0d7de }
"""
DARK = """.own-line { stroke: #58a6ff }
.other-line { stroke: #f0883e }
.third { fill: #9198a1 }
.third-line { stroke: #9198a1 }
.grid { stroke: #3d444d }
"""


def number(cell):
    return float(cell.replace(",", ""))


def plain(power):
    """A power of ten in digits."""
    return f"{10 ** power:,}" if power >= 0 else f"{10.0 ** power:.{-power}f}"


def chosen(rows, fixed):
    """The rows of a panel: over files those with the fewest words, and over words those with the most files."""
    same = (min if fixed == "words" else max)(number(row[fixed]) for row in rows)
    return [row for row in rows if number(row[fixed]) == same]


def apart(heights):
    """These heights of names, moved so that no name covers another."""
    placed = {}
    for name, height in sorted(heights.items(), key=lambda item: item[1]):
        placed[name] = max([height, *(other + NAME for other in placed.values())])
    return placed


class Axes:
    """Where figures are drawn, below a title: `places` are the numbers of the horizontal axis."""

    def __init__(self, top, places, values):
        self.places, self.low, self.high = places, math.floor(math.log10(min(values))), math.ceil(math.log10(max(values)))
        self.left, self.right, self.upper = LEFT + NUMBERS, WIDTH - LEFT - NAMES, top + 30
        self.lower = self.upper + HEIGHT

    def x(self, place):
        part = math.log2(place / self.places[0]) / max(math.log2(self.places[-1] / self.places[0]), 1)
        return round(self.left + INSET + part * (self.right - self.left - 2 * INSET), 1)

    def y(self, value):
        return round(self.upper + HEIGHT * (self.high - math.log10(value)) / max(self.high - self.low, 1), 1)

    def shapes(self, name):
        """A line for each power of ten, and the numbers; those of the horizontal axis as far as they have room."""
        found = []
        for power in range(self.low, self.high + 1):
            y = self.y(10.0 ** power)
            found.append(f'<line class="grid" x1="{self.left}" y1="{y}" x2="{self.right}" y2="{y}"/>')
            found.append(text(self.left - 6, y + 4, plain(power), ' text-anchor="end"'))
        step = math.ceil(len(self.places) * NUMBER / (self.right - self.left))
        found += [text(self.x(place), self.lower + 18, f"{place:,.0f}", ' text-anchor="middle"') for place in self.places[::-1][::step]]
        return [*found, text(self.right + 22, self.lower + 18, name)]


def panel(table, top, one):
    """The shapes of a panel, and where it ends. `table` is the name of its first column, which counts files, and its rows."""
    first, rows = table
    rows = chosen([{**row, "files": row[first]} for row in rows], one.fixed)
    names = [column for column in rows[0] if column not in (first, "files", "words")]
    figures = {name: [number(row[name]) for row in rows] for name in names}
    axes = Axes(top, [number(row[one.across]) for row in rows], [value for line in figures.values() for value in line])
    shapes = [text(LEFT, top + 14, one.title, ' class="title"'), *axes.shapes(one.across)]
    ends = apart({name: axes.y(line[-1]) for name, line in figures.items()})
    for kind, name in zip(KINDS, names):
        line = [(axes.x(place), axes.y(value)) for place, value in zip(axes.places, figures[name])]
        shapes.append(f'<polyline class="line {kind}-line" points="{" ".join(f"{x},{y}" for x, y in line)}"/>')
        shapes += [f'<circle class="{kind}" cx="{x}" cy="{y}" r="3"/>' for x, y in line]
        shapes.append(text(axes.right + 6, ends[name] + 4, name))
    return shapes, axes.lower + 30
