"""Fits that are refused by 22, or would be if an earlier number did not count first: what the paper's order decides, case by case. The number that each
has to give stands here, apart from the reading's."""
import math

from tools.generators.fit_case import LONGEST, NOTHING, Case, enough, lengths_of
from tools.generators.fit_refusals import refused_by_spots
from tools.reading import edges
from tools.reading.variogram import EXPONENTIAL, GAUSSIAN

BASE = edges.survey()


def with_variogram(**fields):
    return BASE._replace(variogram=edges.MODEL._replace(**fields))


def ordered():
    """The survey, and its number."""
    for odd in edges.ODD:
        yield with_variogram(nugget=odd, same_spot=odd), 11
        yield with_variogram(sill=odd, same_spot=odd), 11
        yield with_variogram(range=odd, same_spot=odd), 11
    for spot in edges.WRONG_SPOTS:
        # 22 before 12
        yield with_variogram(model=EXPONENTIAL, range=0.0, same_spot=spot), 22
        # Gaussian takes any range, and the field is still wrong
        yield with_variogram(model=GAUSSIAN, range=0.0, same_spot=spot), 22
    for spot in edges.TAKEN_SPOTS:
        yield with_variogram(model=EXPONENTIAL, range=0.0, same_spot=spot), 12
    yield with_variogram(same_spot=0.0)._replace(t=-1.0), 10
    yield with_variogram(same_spot=math.nan)._replace(t=-edges.TINY), 10
    yield with_variogram(same_spot=0.0)._replace(r=-1.0), 5


def areas():
    """A wrong field, and areas that are too short for what follows: none at all, or each a number too short."""
    survey = with_variogram(same_spot=0.0)
    yield Case(survey, NOTHING, number=22)
    yield Case(survey, LONGEST, number=22)
    yield Case(survey, enough(survey)._replace(work=0), number=22)
    for place in range(len(NOTHING)):
        yield Case(survey, lengths_of(length - (i == place) for i, length in enumerate(enough(survey))), number=22)
    # a field that is taken, and the same areas
    yield Case(with_variogram(same_spot=0.5), NOTHING, number=17)


def spot_refusals():
    yield from refused_by_spots()
    yield from (Case(survey, enough(survey), number=number) for survey, number in ordered())
    yield from areas()
