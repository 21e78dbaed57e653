"""A semivariogram to be stored: the samples, how much is lent of each area, and the number that it has to give."""
from typing import NamedTuple

from tools.reading.semivariogram import Areas, Samples


class Case(NamedTuple):
    samples: Samples
    lent: Areas
    number: int | None = None  # none: the reading's


# the program's own arrays are as long as this
LONGEST, MOST_NUMBERS = 72, 1536


def enough(samples):
    """As much of each area as a call has to have; of one beyond all limits, as long as there are any."""
    return Areas(*[min(samples.bins, LONGEST)] * 3)


def longer(samples, draw):
    """As much, and up to three numbers past it."""
    return Areas(*(length + draw.randrange(4) for length in enough(samples)))
