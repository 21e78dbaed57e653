"""The wells nearest to a place, where a list has more than are taken."""
import math

from mapper.doubts.well_words import length
from mapper.naming import several
from mapper.numbers import counted, shown
from mapper.runs.survey_file import WELLS


def nearest_wells(wells, place, most=WELLS):
    """The wells nearest to a place, as many as are taken, and the others; each in the list's order."""
    ordered = sorted(range(len(wells)), key=lambda i: math.dist((wells[i].x, wells[i].y), place))
    taken = set(ordered[:most])
    return [wells[i] for i in sorted(taken)], [wells[i] for i in sorted(ordered[most:])]


def named(place):
    """A place as an option has it."""
    return f'{shown(place[0])},{shown(place[1])}'


def near_note(taken, left, place):
    """What --near did, for the page."""
    if not left:
        return f'--near {named(place)} changes nothing: all {counted(len(taken), "well")} of the list are taken.'
    farthest = max(math.dist((well.x, well.y), place) for well in taken)
    return (f'Of the {len(taken) + len(left):,} wells in the list the {len(taken)} nearest to {named(place)} are taken, as asked by --near: the farthest of '
            f'them is {length(farthest)} away. {counted(len(left), "well is", "wells are")} left out: {several(well.name for well in left)}.')


def middle(wells):
    """A round place in the middle of the wells."""
    xs, ys = sorted(well.x for well in wells), sorted(well.y for well in wells)
    places = max(0, 1 - math.floor(math.log10(max(xs[-1] - xs[0], ys[-1] - ys[0]) or 1.0)))
    return tuple(round(each[len(each) // 2], places) for each in (xs, ys))


def near_advice(wells, asked=None, most=WELLS):
    """What to do about too many wells: the nearest to the place that was asked for, else to the middle of the list, as an example."""
    place = asked or middle(wells)
    _, left = nearest_wells(wells, place, most)
    where = 'the place asked for' if asked else 'the middle of the list'
    return (f'--near X,Y takes the {most} nearest to a place: --near {named(place)}, for example, which is {where}, '
            f'leaves out {several(well.name for well in left)}.')
