"""A fit to be stored: the survey, how much is lent of each area, whether its whole work area is told, and the number and the trend that it has to give."""
from typing import NamedTuple

from tools.reading.fit import Areas
from tools.reading.lent import fit_lengths
from tools.reading.survey import Survey


class Known(NamedTuple):
    """What a trend comes near to, column by column, None where nothing is asked, and how near."""

    trend: list
    within: float


class Case(NamedTuple):
    survey: Survey
    lent: Areas
    whole: bool = False
    number: int | None = None  # none: the reading's
    known: Known | None = None  # none: nothing is known of the trend


# the program's own arrays are as long as this
LONGEST = Areas(figures=108, variances=108, verdicts=108, weights=9608, multipliers=16, trend=16, work=23336)
NOTHING = Areas(*[0] * len(LONGEST))


def lengths_of(lengths):
    return Areas(*lengths)


def enough(survey):
    """As much of each area as a fit has to have."""
    return Areas(*fit_lengths(survey))


def longer(survey, draw):
    """As much, and up to three numbers past it: those past the trend by the counts, and the others drawn."""
    lengths = enough(survey)
    drawn = {name: length + draw.randrange(4) for name, length in lengths._asdict().items() if name != "trend"}
    return Areas(**drawn, trend=lengths.trend + (survey.n + survey.m) % 4)
