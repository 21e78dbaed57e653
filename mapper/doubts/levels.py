"""What is doubtful about the levels: a slope that no water table has, and nodes far above or below every well."""
import math

from mapper.doubts.places import NARROW, sides
from mapper.doubts.well_words import length, level, percent, place
from mapper.naming import called
from mapper.numbers import significant
from mapper.records import Doubt

STEEP = 0.05   # metres a metre
DIFFERENT = 0.5   # metres between two wells near each other: less may be how they were measured
CENTIMETRE = 0.01


def slope_doubts(wells):
    """The doubts about slopes between the wells."""
    return plane_doubts(wells) + pair_doubts(wells)


def plane_slope(wells):
    """The slope of the plane that goes best through the wells, by least squares; None where they stand on one line and settle none."""
    long, narrow = sides(wells)
    if len(wells) < 3 or narrow <= NARROW * long:
        return None
    count = len(wells)
    x, y, z = (math.fsum(getattr(well, name) for well in wells) / count for name in ('x', 'y', 'level'))
    rows = [((well.x - x) / long, (well.y - y) / long, well.level - z) for well in wells]
    aa, ab, bb = (math.fsum(row[i] * row[j] for row in rows) for i, j in ((0, 0), (0, 1), (1, 1)))
    ac, bc = (math.fsum(row[i] * row[2] for row in rows) for i in (0, 1))
    whole = aa * bb - ab * ab
    return math.hypot(ac * bb - bc * ab, bc * aa - ac * ab) / whole / long


def plane_doubts(wells):
    slope = plane_slope(wells)
    if slope is None or slope <= STEEP:
        return []
    return [Doubt(f'A plane through the wells falls {percent(slope)}, which is {significant(1000 * slope, 2):,.12g} m a kilometre; a water table hardly '
                  f'falls more than {percent(STEEP)}. Look for levels or places in another unit, and for a wrong figure.')]


def steepest(wells):
    """The steepest way from a well to its nearest neighbour at another spot: the slope, the two, their distance; None where no two differ."""
    found = []
    for well in wells:
        others = [(math.hypot(other.x - well.x, other.y - well.y), i) for i, other in enumerate(wells) if (other.x, other.y) != (well.x, well.y)]
        if others:
            distance, i = min(others)
            differs = abs(wells[i].level - well.level)
            found += [(differs / distance, well, wells[i], distance)] if differs > DIFFERENT else []
    return max(found, key=lambda each: each[0], default=None)


def pair_doubts(wells):
    pair = steepest(wells)
    if pair is None or pair[0] <= STEEP:
        return []
    slope, a, b, distance = pair
    return [Doubt(f'Between {called(a)} and {called(b)} the level differs by {level(abs(a.level - b.level))} m over {length(distance)}, '
                  f'a slope of {percent(slope)}; a water table hardly falls more than {percent(STEEP)}. Look at the levels and places of both.')]


def node_doubts(m):
    """The doubt about nodes that passed and lie beyond the wells' levels by more than these differ."""
    low, high = min(well.level for well in m.wells), max(well.level for well in m.wells)
    most, worst = max(high - low, CENTIMETRE), None
    for i, (value, verdict) in enumerate(zip(m.nodes.level, m.nodes.verdict)):
        beyond = max(value - high, low - value)
        if verdict == 0 and beyond > most:
            most, worst = beyond, i
    if worst is None:
        return []
    value = m.nodes.level[worst]
    which, edge = ('above the highest', high) if value > high else ('below the lowest', low)
    return [Doubt(f'At {place(m.nodes.x[worst], m.nodes.y[worst])} the map has {level(value)} m, {length(most)} {which} well ({level(edge)} m): no well '
                  'bears that out. Take a simpler --trend, or nodes nearer to the wells.')]
