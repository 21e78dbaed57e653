"""Each well held to the others: its level as they tell it, by the proved code, with the well itself left out of the list."""
import math
from array import array
from concurrent.futures import ThreadPoolExecutor
from dataclasses import replace

from mapper.errors import Refused
from mapper.lists.nodes import unanswered
from mapper.records import LeftOut
from mapper.runs.answers import Damaged
from mapper.runs.sheets import Sheets
from mapper.runs.survey_file import columns


class Others:
    """What wells say of another well: by a way (runs/ways.py), with a survey's trend and model, from an origin, so many at once."""

    def __init__(self, way, survey, origin, jobs):
        self.way, self.survey, self.origin, self.jobs = way, survey, origin, jobs

    def say_of(self, well, others):
        """What these others say of a well; nothing where they settle no level there, as two of them at one spot may not."""
        node = unanswered(array('d', [well.x]), array('d', [well.y]))
        outside = array('d', [] if self.survey.external is None else [well.more[self.survey.external]])
        try:
            found = self.way.answer(Sheets(replace(self.survey, wells=others), node, outside, self.origin), 0)
        except Refused:
            return LeftOut(None)
        except Damaged as damaged:
            raise self.way.damaged(f'the wells without {well.name}', damaged)
        level, variance = found.levels[0], found.variances[0]
        if found.verdicts[0] or not math.isfinite(level + variance):
            return LeftOut(None)
        return LeftOut(level, math.sqrt(max(variance, 0.0)))

    def left_out(self, wells):
        """What the others of these wells say of each; nothing where they are too few to settle the trend and have something left over."""
        others = [self.others_of(wells, i) for i in range(len(wells))]
        if min(map(len, others), default=0) <= len(columns(self.survey.trend, self.survey.external)):
            return []
        with ThreadPoolExecutor(self.jobs) as pool:
            return list(pool.map(self.say_of, wells, others))

    def others_of(self, wells, i):
        """The other wells. Those that --same-spot has at its very spot are readings of the well itself, and are left out with it."""
        if self.survey.same_spot is None:
            return wells[:i] + wells[i + 1:]
        return [well for well in wells if (well.x, well.y) != (wells[i].x, wells[i].y)]


def errors(m):
    """The list's level less what the others say, and their standard deviation, of each well that they say something of."""
    return [(well.level - each.level, each.deviation) for well, each in zip(m.wells, m.left_out) if each.level is not None]


def rmse(m):
    """The root of the mean squared error in metres; None where nothing was left out."""
    found = [error * error for error, _ in errors(m)]
    return math.sqrt(math.fsum(found) / len(found)) if found else None


def deviation_ratio(m):
    """The mean of the squared errors in standard deviations: near 1 where these are about right. None where nothing was left out."""
    found = [(error / deviation) ** 2 for error, deviation in errors(m) if deviation > 0]
    return math.fsum(found) / len(found) if found else None
