"""Wells at one spot: only the regularization tells them apart, and with too little of it the digits are lost at nearly all nodes.

One line of samples/plain.csv twice, measured: of 1,089 nodes none pass with the plain regularization of 1e-10, 82 with 1e-8, 663 with 1e-7 and all with
1e-6, where the sill is 2.7; with levels ten times as large, whose sill is a hundred times as large, all with 1e-4. So what helps goes with the sill: a
millionth of it, rounded up to a power of ten. A linear and a quadratic trend leave a smaller sill and want more of it: of the latter 1,084 pass
with 1e-6 and all with 1e-5. None of these is more than a thousandth of the sill, so that little is smoothed away.
"""
import math

from mapper.doubts.levels import DIFFERENT
from mapper.doubts.well_words import level
from mapper.naming import called, several
from mapper.numbers import shown
from mapper.records import Doubt

ENOUGH = {'constant': 1e-6, 'linear': 1e-5, 'quadratic': 1e-4}  # of the model's top


def enough(survey):
    """The power of ten that a regularization needs to tell wells at one spot apart; `survey` is one, or a map."""
    return math.ceil(math.log10(ENOUGH[survey.trend] * survey.variogram.top) - 1e-9)


def spots_of(wells):
    """The wells that share a spot, a list for each such spot, in the list's order."""
    spots = {}
    for well in wells:
        spots.setdefault((well.x, well.y), []).append(well)
    return [same for same in spots.values() if len(same) > 1]


def are_joined(same):
    """Whether the wells of a spot stand there since --same-spot takes them as one."""
    return any(well.entered for well in same)


def tells_apart(survey):
    """The regularization that is enough."""
    return float(f'1e{enough(survey)}')


def is_enough(survey):
    """Whether the regularization of a survey, or of a map, tells its wells at one spot apart."""
    return survey.regularization >= 0.99 * tells_apart(survey)


def spot_doubts(survey):
    """A doubt for each spot at which several wells stand; those that --same-spot has joined are meant to, unless their levels say otherwise."""
    spots = spots_of(survey.wells)
    if survey.same_spot is not None:
        return [Doubt(spot_words(same, '')) for same in spots if is_repeated(same) or differ(same)] + too_little(survey, spots)
    helps = '' if is_enough(survey) else f', or give {option(survey)}, which tells them apart'
    return [Doubt(spot_words(same, helps)) for same in spots]


def too_little(survey, spots):
    """The doubt about a regularization that was given, and does not tell joined wells apart."""
    if not spots or is_enough(survey):
        return []
    return [Doubt(f'The regularization, {shown(survey.regularization)}, is too small to tell wells at one spot apart, and digits are lost. Leave '
                  f'--regularization out beside --same-spot, or give {tells_apart(survey):g} or more.')]


def differ(same):
    """Whether levels at one spot are farther apart than readings of one well should be."""
    return max(well.level for well in same) - min(well.level for well in same) > DIFFERENT


def is_repeated(same):
    """Whether the lines of a spot repeat the first, with its place, its name and its level."""
    first = same[0]
    return bool(first.line) and all((well.name, well.level, well.listed_place) == (first.name, first.level, first.listed_place) for well in same[1:])


def option(survey):
    """That regularization as an option."""
    return f'--regularization 1e{enough(survey)}'


def spot_words(same, helps):
    """What is wrong with wells at one spot, and what to do: of a line that was repeated one goes, of other levels one is kept."""
    first, others = same[0], same[1:]
    if is_repeated(same):
        one = len(others) == 1
        lines = f'{"line" if one else "lines"} {several(str(well.line) for well in others)} {"repeats" if one else "repeat"}'
        return f'{lines[0].upper()}{lines[1:]} line {first.line} ({first.name}): take {"one" if one else "all but one"} out{helps}.'
    levels = several(level(well.level) for well in same)
    stand = 'are taken as one spot' if are_joined(same) else 'stand at one spot'
    return f'{several(called(well) for well in same)} {stand}, with levels of {levels} m: keep the one that counts, and take the others out{helps}.'
