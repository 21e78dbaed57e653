"""Fits of whose trend something is known before: plains that tilt, and levels that follow external columns. And fits by how much of the trend's area
is lent."""
from tools.generators.draw import COLUMNS, Draw
from tools.generators.fit_case import LONGEST, Case, Known, enough, longer
from tools.generators.fit_cases import plain
from tools.patterns import value
from tools.reading.case_fits import MINUS_ZERO, SOUNDING_A, SOUNDING_B, TRENDS
from tools.reading.fit import drift, weighted
from tools.reading.variogram import EXPONENTIAL, GAUSSIAN, LINEAR, SPHERICAL

MODELS = (SPHERICAL, EXPONENTIAL, GAUSSIAN, LINEAR)
SMALL, PLAIN = ((-10.0, -10.0), (10.0, 10.0)), ((0.0, 0.0), (3000.0, 3000.0))
FAR = ((4.70e6, 5.20e6), (4.703e6, 5.203e6))
# the level at the origin, and how much it rises a metre to the east and to the north
TILT = [48.0, -0.0012, 0.0009]
# bases, the trend that the levels follow, and two corners
FOLLOWED = [
    ([2], TILT, PLAIN),
    ([3], [20.0, 0.5, -0.25, 0.03, -0.02, 0.01], SMALL),
    ([1, 4], [55.0, 0.7], PLAIN),
    ([4, 4], [0.7, -0.2], PLAIN),
    ([4, 2, 4], [0.7, *TILT, -0.2], PLAIN),
]
# how near the trend comes: of levels that follow it to the last digit, and of slopes where they are rounded to centimetres and have some noise
TO_THE_LAST_DIGIT, MEASURED, NOISE = 1e-9, {"slope": 1e-4, "column": 0.01}, 0.05
# how much of the trend's area is lent, for one to twelve columns
LENT = [[1], [1, 4], [2], [3], [3, 4, 4, 4, 4, 4, 4]]


def columns(codes):
    return sum(COLUMNS[code] for code in codes)


def following(survey, trend):
    """The survey with the levels of a trend."""
    return survey._replace(values=[weighted(trend, row) for row in drift(survey)])


def with_noise(survey, draw):
    return survey._replace(values=[round(level + draw.gauss(0.0, NOISE), 2) for level in survey.values])


def placed(draw, model, n, m, codes, corners):
    survey = plain(draw, n, m, codes, *corners)
    return survey._replace(variogram=survey.variogram._replace(model=model))


def without_nodes(survey):
    return survey._replace(nodes=[], node_external=[])


def followed(draw):
    """Levels that follow their trend to the last digit: as many wells as columns, and more, with nodes and without."""
    for codes, trend, corners in FOLLOWED:
        for model in MODELS:
            for n in (len(trend), len(trend) + 5):
                survey = following(placed(draw, model, n, 2, codes, corners), trend)
                for taken in (survey, without_nodes(survey)):
                    yield Case(taken, longer(taken, draw), known=Known(trend, TO_THE_LAST_DIGIT))


def far_plains(draw):
    """The same plain in coordinates of seven figures: its slopes, for the level at an origin so far away has fewer digits."""
    for model in MODELS:
        survey = following(placed(draw, model, 12, 1, [2], FAR), TILT)
        yield Case(survey, longer(survey, draw), known=Known([None, *TILT[1:]], TO_THE_LAST_DIGIT))


def measured(draw):
    """Levels as they are measured, on a plain that tilts, and beside a column that they follow."""
    for model in MODELS:
        tilted = with_noise(following(placed(draw, model, 24, 2, [2], PLAIN), TILT), draw)
        yield Case(tilted, longer(tilted, draw), known=Known([None, *TILT[1:]], MEASURED["slope"]))
        beside = with_noise(following(placed(draw, model, 20, 2, [1, 4], PLAIN), [55.0, 0.7]), draw)
        yield Case(beside, longer(beside, draw), known=Known([None, 0.7], MEASURED["column"]))


def minus_zeros(draw):
    """Levels of minus zero: every product of the trend is minus zero, and the sum from 0 is not."""
    for survey in (MINUS_ZERO, SOUNDING_A._replace(values=[-0.0]), SOUNDING_B._replace(values=[-0.0, -0.0])):
        for taken in (survey, without_nodes(survey)):
            yield Case(taken, longer(taken, draw), whole=True)


def soundings(draw):
    """The paper's own two trends, with its nodes and without."""
    for survey, pattern in TRENDS.values():
        for taken in (survey, without_nodes(survey)):
            yield Case(taken, longer(taken, draw), whole=True, known=Known([value(pattern)], 0.0))


def lengths(p):
    """What may be lent of multipliers and trend, and the number that comes of it."""
    yield from (({"trend": short}, 18) for short in sorted({0, p - 1}))
    yield from (({"multipliers": other, "trend": p - 1}, 18) for other in (p - 1, LONGEST.multipliers))
    yield from ((longer_than_asked, 0) for longer_than_asked in ({}, {"trend": LONGEST.trend}, {"multipliers": LONGEST.multipliers}))


def lent(draw):
    """The trend's area one number too short, just as long as it has to be, and far longer: with nodes, and without, where little else is written."""
    for codes in LENT:
        p = columns(codes)
        survey = plain(draw, p + 2, 1, codes, *SMALL)
        for taken in (survey, without_nodes(survey)):
            for changed, number in lengths(p):
                yield Case(taken, enough(taken)._replace(**changed), number=number)


def stopped(draw):
    """A well that is there twice: the steps stop, and leave the trend's area; where it is too short they do not begin."""
    for codes in LENT[:3]:
        p = columns(codes)
        wells = plain(draw, p + 2, 1, codes, *SMALL)
        twice = wells._replace(coords=wells.coords[:-2] + wells.coords[:2], external=wells.external[:-1] + wells.external[:1], r=0.0)
        for length, number in ((p - 1, 18), (p, 19), (LONGEST.trend, 19)):
            yield Case(twice, enough(twice)._replace(trend=length), whole=True, number=number)


def trend_cases():
    draw = Draw("nakwemol trend")
    yield from followed(draw)
    yield from far_plains(draw)
    yield from measured(draw)
    yield from minus_zeros(draw)
    yield from soundings(draw)
    yield from lent(draw)
    yield from stopped(draw)
