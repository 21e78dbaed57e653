"""What is doubtful about a same-spot distance: one so long that it takes wells as one that are several.

Two readings of one well lie millimetres apart, and wells tens of metres and more; so a distance that suits is short beside the way from a spot to the
next. Where it is not, a figure may be wrong, or millimetres were meant: different wells are moved together, and places as far from a well as
that get its level, with no deviation to speak of.
"""
import math
from statistics import median

from mapper.doubts.well_words import length
from mapper.naming import called
from mapper.numbers import counted, shown
from mapper.records import Doubt

LONG, FAR_TOO_LONG = 0.1, 0.5  # of the way from a spot to the next; spots that are left over are apart by the distance at least
ADVICE = 'Give --same-spot in metres, and as short as what was read twice lies apart: 0.01 is a centimetre.'


def same_spot_doubts(wells, joins, below):
    """The doubt about a distance, by the wells as it left them and what it joined."""
    spots = sorted({(well.x, well.y) for well in wells})
    if len(spots) == 1:
        moved = any(join.distance for join in joins)
        return [Doubt(f'The same-spot distance of {shown(below)} m takes all {len(wells)} wells as one spot. {ADVICE}', True)] if moved else []
    usual = median(min(math.dist(spot, other) for other in spots if other != spot) for spot in spots)
    if below <= LONG * usual:
        return []
    return [Doubt(f'The same-spot distance of {shown(below)} m is long for these wells, which mostly stand {length(usual)} apart{farthest(joins)}. Wells may '
                  f'be taken as one that are several, and a place so near to a well gets its level. {ADVICE}', below > FAR_TOO_LONG * usual)]


def farthest(joins):
    """What was joined over the longest way."""
    if not joins:
        return ''
    most = max(joins, key=lambda join: join.distance)
    return f', and joins {counted(len(joins), "well")}: the farthest is {called(most.well)}, {length(most.distance)} from {called(most.to)}'
