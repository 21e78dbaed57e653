"""What is doubtful about where the wells stand: degrees, a well far from the others, all on one line, one name at two places."""
import math
from dataclasses import replace
from statistics import median

from mapper.doubts.degrees import degree_doubts
from mapper.doubts.well_words import length
from mapper.naming import called, several
from mapper.numbers import shown
from mapper.records import Doubt

# Times as far from the middle as half of the wells are; and times as far from the nearest other as all the others reach. A well for comparison that is
# upstream of a site has its place; one that is off in x alone or in y alone may have a wrong figure, which is enough to ask from a few wells on.
FAR, APART = 10, 3
ONE_WAY_FAR, ONE_WAY_APART, SOME = 5, 1.2, 10
FAR_OF_FEW, FEW = 100, 4
ONE_IN = 10
NARROW = 0.01     # of the long side: the narrow side of wells on one line
YARD = 1.0        # metres: nobody drills two wells nearer to each other, but a well is placed so far off


def place_doubts(wells):
    """The doubts about the wells' places."""
    far = far_wells(wells)
    others = [well for well in wells if well not in far]
    return degree_doubts(wells) + [far_doubt(well, others) for well in far] + line_doubts(others) + name_doubts(wells)


def far_wells(wells):
    """The wells that stand far outside the others, one in ten at most: by medians, which a few wrong places hardly move."""
    x, y = median(well.x for well in wells), median(well.y for well in wells)
    away = [math.hypot(well.x - x, well.y - y) for well in wells]
    usual, farthest = median(away), sorted(range(len(wells)), key=lambda i: -away[i])[:max(1, len(wells) // ONE_IN)]
    near = [well for i, well in enumerate(wells) if i not in farthest]
    return [wells[i] for i in sorted(farthest) if usual and is_far(wells[i], away[i] / usual, near, wells)]


def is_far(well, times, near, wells):
    """Whether a well that is so many times as far from the middle as usual stands outside those near it, and has no neighbour at another spot there."""
    if is_exchanged(well, near) and times > ONE_WAY_FAR and nearest(well, near) > APART * reach(near):
        return True
    apart = nearest(well, wells) / reach(near) if reach(near) else 0.0
    one_way = (outside(well.x, [other.x for other in near]) != outside(well.y, [other.y for other in near])) and len(wells) >= SOME
    return times > (FAR if len(wells) > FEW else FAR_OF_FEW) and apart > APART or one_way and times > ONE_WAY_FAR and apart > ONE_WAY_APART


def outside(value, others):
    return not min(others) <= value <= max(others)


def nearest(well, others):
    """How far it is to the nearest other spot."""
    return min((math.hypot(well.x - other.x, well.y - other.y) for other in others if (other.x, other.y) != (well.x, well.y)), default=0.0)


def reach(wells):
    """How far the wells reach, from corner to corner of a frame around them."""
    xs, ys = [well.x for well in wells], [well.y for well in wells]
    return math.hypot(max(xs) - min(xs), max(ys) - min(ys))


def far_doubt(well, others):
    """What to say of a well that stands far outside the others."""
    said = f'{called(well)} stands {length(nearest(well, others))} from the nearest other well, and the others within {length(reach(others))}. '
    return Doubt(said + ('Its x and y look exchanged: the other way round it stands among the others. Exchange them in the list.'
                         if is_exchanged(well, others) else 'Look for a wrong figure in its x or y; correct it, or take the well out.'))


def is_exchanged(well, others):
    """Whether a well would stand among the others with x and y exchanged: no farther from the nearest of them than they reach."""
    return nearest(replace(well, x=well.y, y=well.x), others) <= reach(others)


def sides(wells):
    """The spread of the wells along their longest direction and square to it: roots of the eigenvalues of their covariance."""
    count = len(wells)
    x, y = math.fsum(well.x for well in wells) / count, math.fsum(well.y for well in wells) / count
    east = math.fsum((well.x - x) ** 2 for well in wells) / count
    north = math.fsum((well.y - y) ** 2 for well in wells) / count
    both = math.fsum((well.x - x) * (well.y - y) for well in wells) / count
    long = (east + north + math.hypot(east - north, 2 * both)) / 2
    return math.sqrt(long), math.sqrt(max(0.0, (east * north - both * both) / long)) if long else 0.0


def line_doubts(wells):
    """The doubt about wells that all stand on one line, or at one spot."""
    long, narrow = sides(wells)
    if not long:
        which = 'All wells stand at one spot' if len(wells) > 1 else f'{called(wells[0])} is the only well'
        return [Doubt(f'{which}: levels away from it are not known. Measure wells elsewhere.')]
    if narrow >= NARROW * long:
        return []
    return [Doubt('All wells stand on one line, or nearly: levels beside that line are not known. Measure a well to each side of it, '
                  'and use the map along the line alone till then.')]


def name_doubts(wells):
    """A doubt for each name that stands at two places or more."""
    named = {}
    for well in wells:
        named.setdefault(well.name, []).append(well)
    twice = [same for same in named.values() if len({(well.x, well.y) for well in same}) > 1]
    return [Doubt(f'{same[0].name} is the name of {len(same)} wells at different places, in lines {several(str(well.line) for well in same)}. '
                  f'Correct the place that is wrong, or give each well a name of its own{one_spot(same)}.') for same in twice]


def one_spot(same):
    """What else may help where wells of one name stand within a yard: the round distance above the longest way from the first of them."""
    away = max(math.hypot(well.x - same[0].x, well.y - same[0].y) for well in same)
    if away >= YARD:
        return ''
    return f'; if it is one well that was read more than once, --same-spot {shown(float(f"1e{math.floor(math.log10(away)) + 1}"))} takes it as one spot'
