"""Levels and the ground: worked out from depths below it, looking like such depths, or above it."""
from dataclasses import replace

from mapper.naming import called, several
from mapper.records import Doubt

DEEP = 50.0    # metres below the ground at every well, and
SHALLOW = 0.25  # levels that are less than this part of it: they look like depths
ABOVE = 0.5    # metres of water above the ground: less may be how either was measured


def worked_out(wells, depth, ground):
    """The wells with level = ground - depth, and doubts about signs. `depth` and `ground` are headers; until then a well's level is its depth."""
    turned = all(well.level <= 0 for well in wells) and any(well.level < 0 for well in wells)
    found = [replace(well, level=round(well.more[ground] - (abs(well.level) if turned else well.level), 9)) for well in wells]
    return found, signs(wells, depth, turned)


def signs(wells, depth, turned):
    """What is doubtful about depths below zero."""
    if turned:
        return [Doubt(f'All numbers of {depth} are below zero. They are taken as metres below the ground with a minus sign; '
                      'if the water stands above the ground everywhere, enter levels.')]
    above = [well for well in wells if well.level < 0]
    if not above:
        return []
    return [Doubt(f'{depth} is below zero at {several(map(called, above))}, and not elsewhere: the water would stand above the ground there. '
                  'Correct the sign, unless these wells flow.')]


def depth_like_levels(wells, level, ground):
    """A doubt where every level is a small number far below the ground's height, as depths are."""
    known = [(well.level, well.more[ground] - well.level) for well in wells if ground in well.more]
    if not known or not all(below > DEEP and abs(number) < SHALLOW * below for number, below in known):
        return []
    least, most = min(below for _, below in known), max(below for _, below in known)
    span = f'{least:.0f}' if f'{least:.0f}' == f'{most:.0f}' else f'{least:.0f} to {most:.0f}'
    return [Doubt(f'The numbers of {level} lie {span} m below those of {ground} at every well, and look like depths below the ground. '
                  f'If they are, name the column by --depth: level = ground - depth is worked out then.')]


def levels_above(wells, level, ground):
    """A doubt where the water stands above the ground."""
    above = [well for well in wells if ground in well.more and well.level - well.more[ground] > ABOVE]
    if not above:
        return []
    most = max(well.level - well.more[ground] for well in above)
    where = 'every well' if len(above) == len(wells) > 1 else several(map(called, above))
    return [Doubt(f'{level} is above {ground} at {where}, by {most:.2f} m at most: the water would stand above the ground there. '
                  'Look at both columns, and whether they are counted from one height; unless these wells flow.')]
