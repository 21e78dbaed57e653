"""The one well that stands out most from what the others say of it.

A wrong level swells the fitted sill, and with it every standard deviation, and it spoils what is said of its neighbours. So wells under suspicion are
taken out, one after the other, each the one with the largest error among those that are left; and the rest are held to each other without them, in
the same model. How far these are off, in standard deviations, is what is usual there, and what they say of the suspects is measured by that.
docs/DECISIONS.md, "The map", has how often that is right.
"""
import math

from mapper.doubts.spots import are_joined, spots_of
from mapper.doubts.well_words import level, listed
from mapper.naming import called
from mapper.records import Doubt

SUSPECTS = 3          # wells that are taken out at most: two wrong ones may hide each other
SHARE = 5             # and no more than one in so many
LEAST = 3             # wells left that have to say something of each other
MEASURED = 0.02       # metres, added to each deviation: levels are not measured more closely
NOTICED = 0.1         # metres: an error below that is no matter
ALONE = 25.0          # times the usual: enough whatever the deviation is
BESIDE = 6.0          # times the usual: enough where the error is large in deviations, too
LARGE, MOST = 0.7, 3.0  # deviations: so many times the root of how many wells there are, as a wrong level among few swells them most; and no more than that


def off_by(well, told):
    """A well's error in standard deviations; 0 where nothing is told of it."""
    return 0.0 if told.level is None else abs(well.level - told.level) / (told.deviation + MEASURED)


def usual(wells, told):
    """The root mean square of the errors of wells that are held to each other, None where too few say anything."""
    found = [off_by(well, each) ** 2 for well, each in zip(wells, told) if each.level is not None]
    return max(math.sqrt(math.fsum(found) / len(found)), 1e-9) if len(found) >= LEAST else None


def set_apart(wells, left_out, others):
    """The suspects, the wells that are left, and what these say of each other. Of wells that share a spot none is one: they are doubted elsewhere; but
    where they were joined they are readings of one well, which go together."""
    shared = {(same[0].x, same[0].y) for same in spots_of(wells) if not are_joined(same)}
    suspects, rest, told = [], list(wells), left_out
    for _ in range(min(SUSPECTS, max(1, len(wells) // SHARE))):
        errors = [-1.0 if (well.x, well.y) in shared else off_by(well, each) for well, each in zip(rest, told)]
        if not errors or max(errors) <= 0:
            break
        worst = rest[errors.index(max(errors))]
        suspects.append(worst)
        rest = [well for well in rest if (well.x, well.y) != (worst.x, worst.y)]
        told = others.left_out(rest)
    return suspects, rest, told


def stands_out(well, told, count, usual_error):
    """Whether what is told of a suspect makes it one, with so many wells in the list."""
    large = off_by(well, told) > min(LARGE * math.sqrt(count), MOST)
    times = off_by(well, told) / usual_error
    return told.level is not None and abs(well.level - told.level) > NOTICED and (times > ALONE or times > BESIDE and large)


def standing_out_doubts(wells, left_out, others):
    """The doubt about the well that stands out most, if one does; `others` says what wells say of another (doubts/leave_one_out.py)."""
    suspects, rest, told = set_apart(wells, left_out, others)
    usual_error = usual(rest, told)
    if usual_error is None:
        return []
    found = [(well, others.say_of(well, rest)) for well in suspects]
    found = [(off_by(well, each), well, each) for well, each in found if stands_out(well, each, len(wells), usual_error)]
    if not found:
        return []
    _, well, told = max(found, key=lambda each: each[0])
    by_all = left_out[wells.index(well)].level
    said = told.level if by_all is None else by_all  # with the other suspects among them the others may have settled none
    return [Doubt(f'Look at {called(well)} first: its neighbours say {level(said)} m, the list says {listed(well.level)} m. '
                  'Read or measure it again; correct the list, or take the well out.')]
