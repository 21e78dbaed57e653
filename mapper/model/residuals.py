"""What a trend leaves over at the wells: the levels less their ordinary least-squares trend, in Python's floats.

Only the semivariogram is worked out on these; the map's own trend is the proved program's.
"""
import math

from mapper.lists.grid import bounds

NOTHING = 1e-10  # of a column's length: what is left of one that says the same as those before it


def columns_at(wells, trend, external):
    """The trend's columns at the wells, over coordinates shifted and scaled to be near one, which changes no residual."""
    west, east, south, north = bounds(wells)
    scale = max(east - west, north - south) or 1.0
    places = [((well.x - west) / scale, (well.y - south) / scale) for well in wells]
    columns = [[1.0] * len(wells)]
    if trend != 'constant':
        columns += [[x for x, _ in places], [y for _, y in places]]
    if trend == 'quadratic':
        columns += [[x * x for x, _ in places], [x * y for x, y in places], [y * y for _, y in places]]
    if external is not None:
        columns.append([well.more[external] for well in wells])
    return columns


def dot(a, b):
    return math.fsum(x * y for x, y in zip(a, b))


def less(a, direction):
    """What is left of a beside a direction of length one."""
    factor = dot(a, direction)
    return [x - factor * y for x, y in zip(a, direction)]


def directions(columns):
    """The columns made square to each other, of length one; one that the others already say is left out."""
    found = []
    for column in columns:
        whole, rest = math.sqrt(dot(column, column)), column
        for _ in range(2):  # once more for what rounding left
            for direction in found:
                rest = less(rest, direction)
        length = math.sqrt(dot(rest, rest))
        if length > NOTHING * whole:
            found.append([x / length for x in rest])
    return found


def residuals(wells, trend, external):
    """The levels less their trend."""
    rest = [well.level for well in wells]
    for _ in range(2):
        for direction in directions(columns_at(wells, trend, external)):
            rest = less(rest, direction)
    return rest
