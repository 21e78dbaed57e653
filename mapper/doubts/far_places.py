"""What is doubtful about places that are asked for: so far from all wells that a figure in them is likely wrong."""
import math

from mapper.doubts.places import reach
from mapper.doubts.well_words import length, place
from mapper.lists.grid import bounds
from mapper.numbers import counted
from mapper.records import Doubt

FAR = 3  # times as far from the wells as these reach


def far_node_doubts(m):
    """The doubt about nodes of a list far outside the wells; a grid is laid over them, and has none."""
    limit = FAR * reach(m.wells)
    if m.grid is not None or not limit:
        return []
    frame = bounds(m.wells)
    away = [beside(x, y, *frame) for x, y in zip(m.nodes.x, m.nodes.y)]
    count = sum(distance > limit for distance in away)
    if not count:
        return []
    worst = max(range(len(away)), key=away.__getitem__)
    others = '' if count == 1 else f', and {counted(count - 1, "other node")} more than {length(limit)}'
    return [Doubt(f'{called(m.nodes, worst)} stands {length(away[worst])} from the wells{others}, which reach {length(reach(m.wells))}. '
                  'Look for a wrong figure in its x or y, or for x and y exchanged.')]


def far_near_doubts(wells, asked):
    """The doubt about a place that the nearest wells were asked for, far outside all of them."""
    away = beside(*asked, *bounds(wells))
    if not away > FAR * reach(wells) > 0:
        return []
    return [Doubt(f'The place {place(*asked)} of --near stands {length(away)} from the wells, which reach {length(reach(wells))}. '
                  'Look for a wrong figure in its x or y, or for x and y exchanged.')]


def beside(x, y, west, east, south, north):
    """How far a place is from the frame around the wells; nothing within it."""
    return math.hypot(max(west - x, x - east, 0.0), max(south - y, y - north, 0.0))


def called(nodes, at):
    """A node by its name, if it has one, and its place."""
    where = place(nodes.x[at], nodes.y[at])
    return f'The node {nodes.names[at]} at {where}' if nodes.names else f'The place {where}'
