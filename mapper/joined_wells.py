"""--same-spot: wells nearer to each other than a distance are one spot, such as one well that loggers placed twice, a few millimetres apart.

Taking the distance to the proved call alone would wreck the equations. There the variogram is 0 below the distance, so that nothing lies between two
such wells, while each still has its own distances to all others: the two contradict each other, and only r stands between them and 0. Five wells,
the first two 5 mm apart, with a distance of 1 cm: r = 0 gives weights of ±29,000, and with r = 1e-6 a node passes its audit with 9.15 m where it is
10.15 m (mapper/tests/test_joined_wells.py). So wells that are one spot are moved to one place first.
"""
import math
from dataclasses import dataclass, replace

from mapper.doubts.well_words import length
from mapper.naming import called, several
from mapper.numbers import counted, shown
from mapper.records import Well
from mapper.runs.origin import AS_ENTERED


@dataclass
class Join:
    """A well as the list has it, the earlier one that it is joined to, and how far apart they stand there."""
    well: Well
    to: Well
    distance: float


def distance(a, b, origin=AS_ENTERED):
    """How far apart two wells are, worked out as the proved call does: every difference, square and root rounded, in coordinates from an origin."""
    dx, dy = (a.x - origin[0]) - (b.x - origin[0]), (a.y - origin[1]) - (b.y - origin[1])
    return math.sqrt(dx * dx + dy * dy)


def joined_wells(wells, below, moved=AS_ENTERED, external=None):
    """The wells, those that are nearer than a distance to an earlier one at that one's place; and these joins.

    Only to wells that stay where they are, the first of them in the list's order. So any two wells are at one very place afterwards, or at least the
    distance apart; were a well joined to one that is moved itself, a row of wells would be drawn together, however long it is. A second run may have its
    origin moved (runs/lost_digits.py), where a distance can be another in its last digit: nearer in one of the two is near. The external column, which goes
    with the place, is that of the well that stays: else two readings would say how the level goes with a centimetre of ground.
    """
    origins = {AS_ENTERED, moved}
    staying, found, joins = [], [], []
    for well in wells:
        to = next((other for other in staying if any(distance(well, other, origin) < below for origin in origins)), None)
        if to is None:
            staying.append(well)
            found.append(well)
        else:
            found.append(at_the_spot(well, to, external))
            joins.append(Join(well, to, distance(well, to)))
    return found, joins


def at_the_spot(well, to, external):
    """A well at the place of another, with that one's number in the external column."""
    more = {**well.more, external: to.more[external]} if external else well.more
    return replace(well, x=to.x, y=to.y, entered=(well.x, well.y), more=more)


def join_note(joins, below):
    """What --same-spot did, for the page."""
    if not joins:
        return f'No two wells are nearer to each other than {shown(below)} m, so that --same-spot {shown(below)} joins none.'
    return (f'{counted(len(joins), "well is", "wells are")} taken to be at the spot of another, nearer than {shown(below)} m, as asked by --same-spot: '
            f'{several(map(join_words, joins))}.')


def join_words(join):
    away = f'{length(join.distance)} away' if join.distance else 'at the same place'
    return f'{called(join.well)} at that of {called(join.to)}, {away}'
