"""Contour lines and the areas above them, by marching squares over a grid of figures.

A square has four nodes at its corners. Only squares marked whole, all of whose nodes passed, are looked at: so no line and no area crosses a
square with a failed corner. Places are in columns and rows from the south-west node, with parts. A figure equal to the bound counts as above it.
"""
import math


def cut(bound, a, b):
    """Where between two figures the bound lies, as a share of the way; by quarters where their difference is past all numbers."""
    if math.isinf(b - a):
        bound, a, b = bound / 4, a / 4, b / 4
    return min(1.0, max(0.0, (bound - a) / (b - a)))


class Field:
    """Figures on a grid, row after row from the south-west, and which of its squares are whole."""

    def __init__(self, figures, columns, rows, whole):
        self.figures, self.columns, self.rows, self.whole = figures, columns, rows, whole

    def corners(self, c, r):
        """The figures at a square's corners: south-west, south-east, north-east, north-west."""
        at = r * self.columns + c
        up = at + self.columns
        f = self.figures
        return f[at], f[at + 1], f[up + 1], f[up]

    def edges(self, c, r):
        """Names of a square's edges, south, east, north, west: the same name from either square that an edge belongs to."""
        at = r * self.columns + c
        return 2 * at, 2 * (at + 1) + 1, 2 * (at + self.columns), 2 * at + 1

    def place(self, edge, bound):
        """Where the bound cuts an edge."""
        at = edge // 2
        r, c = divmod(at, self.columns)
        if edge % 2:
            return c, r + cut(bound, self.figures[at], self.figures[at + self.columns])
        return c + cut(bound, self.figures[at], self.figures[at + 1]), r

    def whole_squares(self):
        """Columns and rows of the whole squares, row after row."""
        at = 0
        for r in range(self.rows - 1):
            for c in range(self.columns - 1):
                if self.whole[at]:
                    yield c, r
                at += 1


def crossings(corners, bound):
    """Pairs of a square's edges (0 south, 1 east, 2 north, 3 west) that the line joins."""
    above = [v >= bound for v in corners]
    cut_edges = [k for k in range(4) if above[k] != above[(k + 1) % 4]]
    if len(cut_edges) < 4:
        return [tuple(cut_edges)] if cut_edges else []
    # A saddle: whether the middle is above says which two corners belong together.
    middle_above = sum(v / 4 for v in corners) >= bound
    return [(0, 1), (2, 3)] if middle_above == above[0] else [(3, 0), (1, 2)]


def lines(field, bound):
    """The contour lines of a bound, each a list of places; a closed line ends where it starts."""
    joined = {}
    for c, r in field.whole_squares():
        pairs = crossings(field.corners(c, r), bound)
        if pairs:
            names = field.edges(c, r)
            for a, b in pairs:
                joined.setdefault(names[a], []).append(names[b])
                joined.setdefault(names[b], []).append(names[a])
    found = []
    ends = [edge for edge, others in joined.items() if len(others) == 1]
    for start in ends + list(joined):  # open lines from an end first; what is left is closed
        if joined.get(start):
            found.append([field.place(edge, bound) for edge in walk(joined, start)])
    return [line for line in map(without_repeats, found) if len(line) > 1]


def walk(joined, start):
    """Edges along a line from `start`, taken out of `joined` on the way."""
    path = [start]
    here = start
    while joined.get(here):
        following = joined[here].pop()
        joined[following].remove(here)
        path.append(following)
        here = following
    return path


def without_repeats(line):
    """A line without places that come twice in a row, as they do where it runs through a node."""
    return line[:1] + [b for a, b in zip(line, line[1:]) if a != b]


def areas(field, bound):
    """Rings around everything at or above a bound (None: around all whole squares).

    Every square gives its own ring, all in one direction. A side that two of them share runs once each way and is left out, so that
    only the outline stays: a screen would show every shared side as a faint seam.
    """
    sides = {}
    for c, r in field.whole_squares():
        corners = field.corners(c, r)
        if bound is None or min(corners) >= bound:
            add_ring(sides, [(c, r), (c + 1, r), (c + 1, r + 1), (c, r + 1)])
        elif max(corners) >= bound:
            for ring in square_rings(field, c, r, corners, bound):
                add_ring(sides, ring)
    return linked(sides)


def add_ring(sides, ring):
    """Puts a ring's sides among the others, and takes out those that the others have the other way round."""
    for a, b in zip(ring, ring[1:] + ring[:1]):
        if (b, a) in sides:
            del sides[b, a]
        elif a != b:
            sides[a, b] = True


def linked(sides):
    """Rings made of the sides."""
    after = {}
    for a, b in sides:
        after.setdefault(a, []).append(b)
    rings = []
    for start in after:
        while after[start]:
            ring = [start]
            while after.get(ring[-1]):
                ring.append(after[ring[-1]].pop())
            rings.append(without_middles(ring))
    return rings


def without_middles(ring):
    """A closed ring without its end, which is its start, and without places between two others on one row or column."""
    ring = ring[:-1]
    around = zip(ring[-1:] + ring[:-1], ring, ring[1:] + ring[:1])
    return [b for a, b, c in around if not (a[0] == b[0] == c[0] or a[1] == b[1] == c[1])]


def square_rings(field, c, r, corners, bound):
    """Rings around what is above the bound in a square that the line cuts."""
    names = field.edges(c, r)
    places = ((c, r), (c + 1, r), (c + 1, r + 1), (c, r + 1))
    above = [v >= bound for v in corners]
    saddle = above[0] == above[2] and above[1] == above[3]
    if saddle and not sum(v / 4 for v in corners) >= bound:
        lone = [k for k in range(4) if above[k]]
        return [[field.place(names[k - 1], bound), places[k], field.place(names[k], bound)] for k in lone]
    ring = []
    for k in range(4):
        if above[k]:
            ring.append(places[k])
        if above[k] != above[(k + 1) % 4]:
            ring.append(field.place(names[k], bound))
    return [ring]
