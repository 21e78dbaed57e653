"""Fits with a same-spot distance of their own: wells and nodes nearer to each other than it, beside it and at it, with every model."""
import math

from tools.generators.draw import COLUMNS, Draw, flat
from tools.generators.fit_audits import at_the_bounds
from tools.generators.fit_case import Case, Known, enough, longer
from tools.generators.fit_trends import TILT, TO_THE_LAST_DIGIT, following, without_nodes
from tools.generators.spots import MODELS, SPOTS, beside, lattice, levels, nodes_at, occurring, yards
from tools.reading import edges
from tools.reading.survey import CONSTANT, Survey
from tools.reading.variogram import LINEAR, SPHERICAL, Variogram

MIXES = [[1], [2], [4], [1, 4], [4, 2], [4, 4], [3], [2, 4, 4]]
TOLERANCES = [0.0, 2.0**-53, 1e-12, 1e-9, 1e-6]
# r, of which some make nothing of two wells in one yard
GROWN = [0.0, -0.0, 2.0**-53, 2.0**-52, 1e-10, 1e-3]


def columns(codes):
    return sum(COLUMNS[code] for code in codes)


def survey_of(draw, wells, nodes, codes, variogram, r, t=None):
    k, n, m = codes.count(4), len(wells), len(nodes)
    lists = levels(draw, n), flat(wells), codes, levels(draw, k * n), flat(nodes), levels(draw, k * m)
    return Survey(*lists, variogram, r, draw.choice(TOLERANCES) if t is None else t)


def in_yards(draw, model, codes, spot, n, m, r, t=None):
    """Wells two by two in yards, and nodes in yards, on wells and elsewhere."""
    span = 20.0 if spot == 0.5 else 900.0
    wells = yards(draw, n, 2, span, spot)
    variogram = Variogram(model, draw.choice([0.0, 0.1]), 2.5, span / 2, spot)
    return survey_of(draw, wells, nodes_at(draw, wells, m, span, spot), codes, variogram, r, t)


def two_wells(apart, r):
    """Two wells on a line and the paper's simplest slope: Linear 0, 1, 1."""
    return Survey([2.0, 6.0], [0.0, 0.0, apart, 0.0], [CONSTANT], [], [1.0, 0.0, 0.25, 0.0], [], Variogram(LINEAR, 0.0, 1.0, 1.0, 0.5), r, 1e-9)


def at_half():
    """A distance equal to the field is not the same spot; one step nearer the two wells are one, and the least pivot is still 2^-52."""
    for apart, r, number in [
        (0.5, 0.0, 0),
        (math.nextafter(0.5, 0.0), 0.0, 19),
        (math.nextafter(0.5, 1.0), 0.0, 0),
        (0.25, 0.0, 19),
        (0.25, 2.0**-52, 0),
        (0.25, 2.0**-53, 19),
        (math.nextafter(0.5, 0.0), 1e-10, 0),
    ]:
        survey = two_wells(apart, r)
        yield Case(survey, enough(survey), whole=True, number=number)


def mixed(draw):
    """Every mix, model and field: as many wells as columns, and more, with r = 0 and above."""
    for codes in MIXES:
        p = columns(codes)
        for model in MODELS:
            for spot in SPOTS:
                survey = in_yards(draw, model, codes, spot, p + draw.randrange(0, 4), draw.choice([1, 2, 3]), draw.choice(GROWN))
                yield Case(survey, longer(survey, draw), whole=survey.s < 9)


def beside_distances(draw):
    """The field at a distance that occurs between two wells, or of a node from one, and one step to each side of it."""
    for model in MODELS:
        for codes in ([1], [2], [1, 4], [4, 4]):
            wells = lattice(draw, columns(codes) + 2, 2)
            nodes = lattice(draw, 2, 2)
            variogram = Variogram(model, draw.choice([0.0, 0.2]), 0.9, draw.choice([4.0, 9.0]))
            survey = survey_of(draw, wells, nodes, codes, variogram, draw.choice([0.0, 1e-10, 1e-3]), 1e-9)
            for h in (draw.choice(occurring(wells, wells)), draw.choice(occurring(wells, nodes))):
                for spot in beside(h):
                    taken = survey._replace(variogram=variogram._replace(same_spot=spot))
                    yield Case(taken, longer(taken, draw), whole=taken.s < 7)


def on_a_circle(draw):
    """Three wells and three nodes whose distances are 5 in several ways, the field beside it, and a range that is the same, below it and above."""
    for model in MODELS:
        for spot in beside(5.0):
            for span in (5.0, 4.0, 40.0):
                variogram = Variogram(model, 0.2, 0.9, span, spot)
                survey = Survey([2.0, 7.0, 4.0], [0.0, 0.0, 3.0, 4.0, -3.0, 4.0], [1], [], [0.0, 5.0, 6.0, 0.0, 3.0, 0.0], [], variogram, 1e-3, 1e-9)
                yield Case(survey, longer(survey, draw), whole=span == 40.0)


def taken(draw):
    """Just inside 22, with areas just as long as they have to be; the least field, where two wells are that far apart, and a step further."""
    for spot in edges.TAKEN_SPOTS:
        for model in MODELS:
            survey = edges.survey()._replace(variogram=edges.MODEL._replace(model=model, same_spot=spot))
            yield Case(survey, enough(survey), whole=True)
    for spot in (edges.LEAST_SPOT, edges.ABOVE_LEAST):
        for apart in beside(edges.LEAST_SPOT):
            survey = two_wells(apart, 1e-10)
            survey = survey._replace(variogram=Variogram(SPHERICAL, 0.5, 1.5, 1.0, spot))
            yield Case(survey, longer(survey, draw), whole=True)


def far_and_wide(draw):
    """Fields that hold every well, and distances that overflow, which are not below the greatest; one well alone; minus zero and subnormal distances."""
    for model in MODELS:
        for spot in (1e300, edges.GREATEST):
            near, far = [0.0, 0.0, 3.0, 4.0, -3.0, 4.0], [1e200, 0.0, 3.0, 4.0, -3.0, -1e200]
            for wells, r in ((near, 1e-10), (near, 0.0), (far, 1e-10), (far, 0.0)):
                survey = Survey([2.0, 7.0, 4.0], wells, [1], [], [0.0, 5.0, 1.7e308, -1.7e308], [], Variogram(model, 0.5, 2.0, 10.0, spot), r, 1e-9)
                yield Case(survey, longer(survey, draw), whole=wells is near)
        for spot in beside(2.0):
            alone = Survey([5.0], [0.0, 0.0], [1], [], [2.0, 0.0, -0.0, 5e-324, 1.0, 1.0], [], Variogram(model, 0.25, 1.0, 8.0, spot), 0.0, 0.0)
            yield Case(alone, longer(alone, draw), whole=True)


def many(draw):
    """As many wells, columns and nodes as there may be, in yards; wells of which each two are within the field of the next two; no node."""
    for model, (n, m, codes, r) in zip(MODELS, [(48, 100, [1], 1e-10), (48, 2, [3, 4, 4, 4, 4, 4, 4], 1e-3), (31, 3, [2], 1e-10), (24, 12, [2, 4], 0.0)]):
        survey = in_yards(draw, model, codes, 0.5, n, m, r, 1e-9)
        yield Case(survey, longer(survey, draw))
    for model in MODELS:
        row = [[0.3 * i, 0.0] for i in range(7)]
        variogram = Variogram(model, 0.1, 2.0, 3.0, 0.5)
        for r in (0.0, 1e-10, 1.0):
            survey = survey_of(draw, row, row[2:4] + [[1.0, 0.2]], [1], variogram, r)
            yield Case(survey, longer(survey, draw), whole=r == 0.0)
            none = without_nodes(survey)
            yield Case(none, longer(none, draw))


def followed(draw):
    """Levels that follow a plain, read twice in each yard: the trend is the plain's, whatever the field joins."""
    for model in MODELS:
        for spot in SPOTS:
            survey = following(in_yards(draw, model, [2], spot, 10, 1, 1e-3), TILT)
            for case in (survey, without_nodes(survey)):
                yield Case(case, longer(case, draw), known=Known(TILT, TO_THE_LAST_DIGIT))


def audited(draw):
    """The least tolerance with which a row is met, and the number just below it."""
    for model in MODELS:
        for codes in ([1], [2, 4]):
            survey = in_yards(draw, model, codes, 0.5, 8, 2, 1e-10, 0.0)
            for bounded in at_the_bounds(survey, 0):
                yield Case(bounded, longer(bounded, draw))


def spot_cases():
    draw = Draw("nakwemol fit, one yard")
    yield from at_half()
    yield from mixed(draw)
    yield from beside_distances(draw)
    yield from on_a_circle(draw)
    yield from taken(draw)
    yield from far_and_wide(draw)
    yield from many(draw)
    yield from followed(draw)
    yield from audited(draw)
