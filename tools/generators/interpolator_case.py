"""An interpolation to be stored: the query, how much is lent of each area, whether its whole work area is told, and the number that it has to give."""
from typing import NamedTuple

from tools.reading.interpolator import ORDINARY, UNIVERSAL, Areas, Query
from tools.reading.lent import query_lengths


class Case(NamedTuple):
    query: Query
    lent: Areas
    whole: bool = False
    number: int | None = None  # none: the reading's


# the types with their dimensions
SHAPES = [(ORDINARY, 1), (ORDINARY, 2), (ORDINARY, 3), (UNIVERSAL, 2), (UNIVERSAL, 3)]
# the program's own arrays are as long as this
LONGEST = Areas(figures=108, variances=108, work=20008)
MOST_NUMBERS = 2048


def enough(query):
    """As much of each area as a call has to have; of one beyond all limits, as long as there are any."""
    asked = query if 0 < query.d < 5 else query._replace(d=2)
    return Areas(*map(min, query_lengths(asked), LONGEST))


def longer(query, draw):
    """As much, and up to three numbers past it."""
    return Areas(*(length + draw.randrange(4) for length in enough(query)))
