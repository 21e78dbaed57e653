"""Wells that --same-spot has joined stand at one place, and only the regularization tells them apart: how much of it is taken where none is given.

What doubts/spots.py advises is enough with a constant trend. The columns of the others are as large as the coordinates and their squares, and lose digits
where the node's own are small: the more of them, the larger r has to be. docs/DECISIONS.md, "The map", has the figures.
"""
import math

from mapper.doubts.settings import SHARE
from mapper.doubts.spots import enough, spots_of
from mapper.runs.origin import AS_ENTERED
from mapper.runs.trials import REFUSED, spread_over, tried

SAID = 'Wells at one spot are told apart by --regularization 1e%d, which is taken since none was given.'


def tell_apart(made):
    """Takes the least power of ten for r with which all of a sheet of nodes pass, of those that smooth little; or the one with which most do."""
    survey = made.survey
    if made.options.regularization is not None or survey.same_spot is None or not spots_of(survey.wells):
        return
    spread, best, most = spread_over(made.nodes), None, REFUSED - 1
    for power in powers(survey):
        survey.regularization = float(f'1e{power}')
        passed = max(tried(made, origin, spread) for origin in origins(made))
        if passed > most:
            best, most = power, passed
        if most == len(spread):
            break
    survey.regularization = float(f'1e{best}')
    made.say(SAID % best)


def powers(survey):
    """From what is enough with a constant trend up to what the map would doubt as too much."""
    least = enough(survey)
    return range(least, max(least, math.floor(math.log10(SHARE * survey.variogram.top))) + 1)


def origins(made):
    """Where coordinates may be counted from, as asked by --origin."""
    return {'as-entered': {AS_ENTERED}, 'moved': {made.corner}, 'auto': {AS_ENTERED, made.corner}}[made.options.origin]
