"""What part of the country is drawn, and where a place of it comes to lie on the ground.

The ground is the coloured picture that every size of the map shares: its longer side has 1000 units, north is up, and both axes have one scale.
"""
from dataclasses import dataclass

SIDE = 1000.0
BROADEST, TALLEST = 2.6, 1.5  # of the shape: a line of nodes still gets a map around it
MARGIN = 0.045                # around all wells and nodes, so that none lies on the frame


@dataclass
class Ground:
    """The part of the country from (x0, y0) to (x1, y1). Halves are taken before differences, so that the largest numbers do not overflow."""
    x0: float
    y0: float
    x1: float
    y1: float

    def __post_init__(self):
        self.half_width, self.half_height = self.x1 / 2 - self.x0 / 2, self.y1 / 2 - self.y0 / 2
        self.unit = SIDE / max(self.half_width, self.half_height)
        self.width, self.height = self.half_width * self.unit, self.half_height * self.unit

    def x(self, x):
        """Units to the right of the western side."""
        return (x / 2 - self.x0 / 2) * self.unit

    def y(self, y):
        """Units below the northern side."""
        return (self.y1 / 2 - y / 2) * self.unit


def ends(numbers):
    """The least and the greatest."""
    return min(numbers), max(numbers)


def field_grid(m):
    """The grid, if it has squares that can be coloured; None for a list, and for a single row or column, whose nodes are drawn as dots too."""
    return m.grid if m.grid and min(m.grid.columns, m.grid.rows) > 1 else None


def covered(m):
    """The least rectangle that holds every well and every node."""
    if len(m.nodes):
        xs, ys = ends(m.nodes.x), ends(m.nodes.y)
    else:
        xs, ys = ends([w.x for w in m.wells]), ends([w.y for w in m.wells])
    xs = ends([*xs, *(w.x for w in m.wells)])
    ys = ends([*ys, *(w.y for w in m.wells)])
    return xs, ys


def widened(low, high, half):
    """An interval with the same middle and the given half of a length."""
    middle = low / 2 + high / 2
    return max(middle - half, -1.7e308), min(middle + half, 1.7e308)


def ground(m):
    """The ground of a map: all of it with a margin, neither too broad nor too tall; one spot gets some room around it."""
    (x0, x1), (y0, y1) = covered(m)
    half_width, half_height = x1 / 2 - x0 / 2, y1 / 2 - y0 / 2
    least = 1e-12 * max(abs(x0), abs(x1), abs(y0), abs(y1)) or 1e-300
    longer = max(half_width, half_height)
    if longer < least:
        longer = max(least * 1e3, 50.0)
    half_width, half_height = (max(h + longer * MARGIN, longer * 0.05) for h in (half_width, half_height))
    half_width, half_height = max(half_width, half_height / TALLEST), max(half_height, half_width / BROADEST)
    x0, x1 = widened(x0, x1, half_width)
    y0, y1 = widened(y0, y1, half_height)
    return Ground(x0, y0, x1, y1)
