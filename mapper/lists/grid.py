"""A grid of nodes over the wells."""
import math
from array import array

from mapper.errors import Stop
from mapper.lists.nodes import unanswered
from mapper.records import Grid

LONGER = 40      # columns of a grid in the wells' longer direction, about
MOST = 10_000_000
SPOT = 1e-9      # metres: wells that reach less far stand at one spot
ROUND = (1, 1.25, 1.5, 2, 2.5, 3, 4, 5, 6, 8, 10)


def round_up(step):
    """A round number at or above a step, so that the nodes have short coordinates."""
    power = 10.0 ** math.floor(math.log10(step))
    return next(r * power for r in ROUND if r * power >= step * (1 - 1e-12))


def bounds(wells):
    xs, ys = [well.x for well in wells], [well.y for well in wells]
    return min(xs), max(xs), min(ys), max(ys)


def longer_side(wells):
    """How far the wells reach in their longer direction; a grid needs more than a spot."""
    west, east, south, north = bounds(wells)
    side = max(east - west, north - south)
    if side < SPOT:
        raise Stop('The wells stand at one spot, so there is nothing to lay a grid over. Name the nodes by --nodes nodes.csv.')
    return side


def default_grid(wells):
    """Square cells of a round size at round coordinates, with at least one cell around the wells."""
    west, east, south, north = bounds(wells)
    cell = round_up(longer_side(wells) / (LONGER - 4))
    c0, r0 = math.floor(west / cell) - 1, math.floor(south / cell) - 1
    columns, rows = math.ceil(east / cell) + 2 - c0, math.ceil(north / cell) + 2 - r0
    return Grid(c0 * cell, r0 * cell, cell, cell, columns, rows)


def grid_of(wells, columns, rows):
    """A grid of so many columns and rows with one cell around the wells; fewer than four have no room for that, and reach from edge to edge."""
    longer_side(wells)
    west, east, south, north = bounds(wells)
    dx, dy = step(east - west, columns), step(north - south, rows)
    dx, dy = dx or dy, dy or dx
    return Grid(first(west, east, dx, columns), first(south, north, dy, rows), dx, dy, columns, rows)


def step(reach, count):
    return reach / (count - 3) if count > 3 else reach / max(count - 1, 1)


def first(low, high, step, count):
    """Where a row of so many nodes begins that stands midway over the wells."""
    return (low + high) / 2 - step * (count - 1) / 2


def grid_nodes(grid):
    """The grid's nodes, row after row from the south-west."""
    row = array('d', (grid.x0 + c * grid.dx for c in range(grid.columns)))
    x, y = array('d'), array('d')
    for r in range(grid.rows):
        x.extend(row)
        y.extend(array('d', [grid.y0 + r * grid.dy]) * grid.columns)
    return unanswered(x, y)
