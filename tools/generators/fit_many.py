"""Fits of 49 to 96 wells: every model, one to twelve columns, no node to a hundred; whole work areas of the largest, stops among them; and 97 wells, and
areas that are too short for so many, refused. The number that a refused one has to give stands here, apart from the reading's."""
import math

from tools.generators.draw import Draw
from tools.generators.fit_audits import at_the_bounds
from tools.generators.fit_case import LONGEST, NOTHING, Case, Known, enough, longer
from tools.generators.fit_cases import moved, plain
from tools.generators.fit_spots import in_yards
from tools.generators.fit_trends import TILT, TO_THE_LAST_DIGIT, following, placed, without_nodes
from tools.reading import edges
from tools.reading.variogram import EXPONENTIAL, GAUSSIAN, LINEAR, SPHERICAL, Variogram

COUNTS = (49, 60, 95, 96)
MODELS = (SPHERICAL, EXPONENTIAL, GAUSSIAN, LINEAR)
# one, two, three, five, six and twelve columns, in two ways
MIXES = [[1], [1, 4], [2], [4, 2, 4], [3], [3, 4, 4, 4, 4, 4, 4], [4] * 12]
TWELVE = MIXES[-2]
LOW, HIGH = (0.0, 0.0), (900.0, 400.0)
FAR = ((4.70e6, 5.20e6), (4.71e6, 5.21e6))
# areas that would do for 48 wells and no more: the weights of a hundred nodes, and the work area
OF_48 = {"weights": 48 * 100, "work": 2 * 60 * 60}


def of_model(survey, model):
    return survey._replace(variogram=survey.variogram._replace(model=model))


def mixed(draw):
    """Each number of wells with Spherical and Linear and every mix; Exponential and Gaussian with fewer."""
    for n in COUNTS:
        for model in MODELS:
            for codes in MIXES if model in (SPHERICAL, LINEAR) else ([1], [4, 2, 4]):
                survey = of_model(plain(draw, n, draw.choice([1, 2, 3]), codes, LOW, HIGH, draw.choice([0.0, 1e-12, 1e-9, 1e-6])), model)
                yield Case(survey, longer(survey, draw))


def hundreds(draw):
    """As many nodes as there may be, and nearly; no node."""
    sizes = [(96, 100, TWELVE, SPHERICAL), (96, 100, [1], GAUSSIAN), (95, 100, [2], LINEAR), (60, 99, [4] * 12, SPHERICAL), (49, 100, TWELVE, EXPONENTIAL)]
    for n, m, codes, model in [*sizes, *((n, 0, [2, 4], model) for n, model in zip(COUNTS, MODELS))]:
        survey = of_model(plain(draw, n, m, codes, LOW, HIGH), model)
        yield Case(survey, longer(survey, draw))


def whole_areas(draw):
    """The largest work area, the one just past 48 wells' and one between."""
    for n, m, codes in ((96, 3, [4] * 12), (49, 2, [1]), (60, 1, [3])):
        survey = plain(draw, n, m, codes, LOW, HIGH)
        yield Case(survey, longer(survey, draw), whole=True)


def stopped(draw):
    """The first well of the largest survey there twice; a column of zeros, which the last step finds; nothing at the first step."""
    wells = plain(draw, 96, 1, TWELVE, LOW, HIGH)
    external = [x if (at + 1) % 96 else wells.external[at - 95] for at, x in enumerate(wells.external)]
    yield wells._replace(coords=wells.coords[:-2] + wells.coords[:2], external=external, r=0.0), True
    yield from ((plain(draw, n, 1, codes, LOW, HIGH)._replace(external=[0.0] * n), n == 60) for n, codes in ((60, [1, 4]), (96, [2, 4])))
    none = Variogram(SPHERICAL, 0.0, 0.0, 1.0)
    yield plain(draw, 49, 1, [4], LOW, HIGH)._replace(external=[0.0] * 49, variogram=none, r=0.0), True


def far_origins(draw):
    """Coordinates of seven figures with a Quadratic trend, which rounding loses, and the same wells from an origin among them."""
    for n in (49, 96):
        for model in (SPHERICAL, LINEAR):
            survey = of_model(plain(draw, n, 3, [3], *FAR), model)
            for taken in (survey, moved(survey, 4.705e6, 5.205e6)):
                yield Case(taken, longer(taken, draw))


def followed(draw):
    """Levels that follow a plain, or a column besides: the trend is known before."""
    for n, model in zip(COUNTS, MODELS):
        for codes, trend in (([2], TILT), ([2, 4], [*TILT, 0.7])):
            survey = following(placed(draw, model, n, 1, codes, ((0.0, 0.0), (3000.0, 3000.0))), trend)
            for taken in (survey, without_nodes(survey)):
                yield Case(taken, longer(taken, draw), known=Known(trend, TO_THE_LAST_DIGIT))


def audited(draw):
    """The least tolerance with which a row of 96 wells is met, and the number just below it."""
    for codes in ([1], [2, 4]):
        for bounded in at_the_bounds(plain(draw, 96, 1, codes, LOW, HIGH), 0):
            yield Case(bounded, longer(bounded, draw))


def in_one_yard(draw):
    """Wells two by two in yards, which another same-spot distance joins."""
    for model, (n, m, codes) in zip(MODELS, [(96, 2, [1]), (95, 1, [2, 4]), (60, 2, [2]), (49, 3, TWELVE)]):
        survey = in_yards(draw, model, codes, 0.5, n, m, 1e-3, 1e-9)
        yield Case(survey, longer(survey, draw))


def inside():
    """Just inside 9, with areas just as long as they have to be."""
    for survey in (edges.survey(n=96, m=1), edges.survey(n=96, m=100, codes=[1]), edges.survey(n=49, m=1)):
        yield Case(survey, enough(survey))


def accepted_cases(draw):
    yield from inside()
    yield from mixed(draw)
    yield from hundreds(draw)
    yield from whole_areas(draw)
    yield from (Case(survey, longer(survey, draw), whole=whole, number=19) for survey, whole in stopped(draw))
    yield from far_origins(draw)
    yield from followed(draw)
    yield from audited(draw)
    yield from in_one_yard(draw)


def one_more():
    """97 wells: 9, whatever else is wrong of what counts later; and what counts earlier."""
    largest = edges.survey(n=97, m=100, codes=[1] * 12)
    lists = edges.survey(n=97)
    yield from (Case(survey, enough(lists), number=9) for survey in (lists, lists._replace(values=lists.values[:96] + [math.nan])))
    yield Case(largest, LONGEST, number=9)
    yield Case(largest._replace(t=math.nan), LONGEST, number=9)
    wrong = edges.MODEL._replace(model=EXPONENTIAL, sill=math.nan, range=0.0, same_spot=0.0)
    yield Case(largest._replace(t=-1.0, values=[math.nan] * 97, variogram=wrong), NOTHING, number=9)
    for earlier in (1, 2, 3, 4, 5, 6, 7, 8):
        survey = edges.FIT_EDITS[earlier][0](edges.survey(n=97))
        yield Case(survey, NOTHING, number=earlier)
        yield Case(survey._replace(t=math.nan, variogram=wrong), NOTHING, number=earlier)
    yield Case(edges.survey(n=97)._replace(r=-1.0), NOTHING, number=5)
    yield from (Case(edges.survey(n=n, codes=[1]), NOTHING, number=9) for n in (98, 108, 144, 192, 300))


def shortened(survey, **lengths):
    return Case(survey, enough(survey)._replace(**lengths), number=17 if "work" in lengths else 18)


def too_short():
    """Of 96 wells each area a number too short, and as long as 48 wells need it; 17 before 18."""
    survey = edges.survey(n=96, m=100, codes=[1] * 12)
    yield shortened(survey, work=2 * 108 * 108 - 1)
    yield shortened(survey, work=OF_48["work"])
    yield shortened(survey, weights=96 * 100 - 1)
    yield shortened(survey, weights=OF_48["weights"])
    yield from (shortened(survey, **{name: length - 1}) for name, length in enough(survey)._asdict().items() if name not in OF_48)
    yield shortened(survey, **OF_48)
    just = edges.survey(n=49, m=100, codes=[1] * 12)
    yield from (shortened(just, **{name: length}) for name, length in OF_48.items())


def refused_cases():
    yield from one_more()
    yield from too_short()


def many_cases():
    yield from accepted_cases(Draw("nakwemol fit, ninety-six wells"))
    yield from refused_cases()
