"""Fits with the models that are worked out by e^−u, Exponential and Gaussian: every basis mix, usual numbers, and u from 0 to infinity."""
import math

from tools.generators.calls import fit_call
from tools.generators.draw import COLUMNS, Draw, flat
from tools.generators.fit_audits import at_the_bounds, rising
from tools.generators.fit_case import Case, enough, longer
from tools.reading import edges
from tools.reading.survey import Survey
from tools.reading.variogram import EXPONENTIAL, GAUSSIAN, Variogram

BOTH = (EXPONENTIAL, GAUSSIAN)
TOLERANCES = [0.0, 2.0**-53, 1e-14, 1e-12, 1e-9, 1e-9, 1e-6]
MIXES = [[1], [2], [3], [4], [1, 4], [4, 2], [4, 4], [3, 4], [2, 4, 4], [4, 1, 4], [4, 4, 4], [4, 2, 4, 4], [3, 4, 4, 4, 4, 4, 4]]


def with_model(survey, model):
    return survey._replace(variogram=survey.variogram._replace(model=model))


def survey_of(draw, n, codes, m):
    call = fit_call(draw, n, codes, m)
    return Survey(*call[:6], Variogram(*call.variogram), call.r, draw.choice(TOLERANCES))


def inside():
    """Just inside 12: the least range above zero, and a Gaussian model of any range, with areas just as long as they have to be."""
    base = edges.survey()
    spans = {EXPONENTIAL: [edges.TINY, 2.0**-1022, 1.7e308], GAUSSIAN: [0.0, -0.0, edges.TINY, -edges.TINY, -8.0, 1e-170, 1e200, -1.7e308]}
    for model in BOTH:
        for span in [8.0, *spans[model]]:
            survey = base._replace(variogram=edges.MODEL._replace(model=model, range=span))
            yield Case(survey, enough(survey), whole=True)


def mixed(draw):
    """Every mix with both models: more wells than columns, and just as many."""
    for codes in MIXES:
        p = sum(COLUMNS[code] for code in codes)
        for model in BOTH:
            for n in (p, p + draw.randrange(1, 5)):
                survey = with_model(survey_of(draw, n, codes, draw.choice([1, 2, 3])), model)
                yield Case(survey, longer(survey, draw), whole=n + p < 11)


def drawn(draw):
    """Few wells with their whole areas, then more of them, and some with as many as there may be."""
    for turn in range(150):
        few = turn < 100
        n, m = (draw.randrange(1, 7), draw.randrange(0, 4)) if few else (draw.randrange(4, 17), draw.randrange(0, 5))
        survey = survey_of(draw, n, draw.bases(n), m)
        yield Case(survey, longer(survey, draw), whole=few and survey.s < 9)
    for model in BOTH:
        for n, codes, m in ((48, [3, 4, 4], 2), (31, [2], 3), (24, [1], 12)):
            survey = with_model(survey_of(draw, n, codes, m), model)
            yield Case(survey._replace(r=1e-10, t=1e-9), longer(survey, draw))


def reaches(draw):
    """The same wells and nodes under ranges from far below their distances to far above: u is 0, small, some 35, past it and infinite."""
    wells, nodes = [0.0, 0.0, 3.0, 4.0, -3.0, 4.0, 6.0, 1.0], [0.0, 5.0, 3.0, 4.0, 1.0, 1.0]
    for model in BOTH:
        for span in (1e-320, 1e-300, 1e-9, 5.0 / 36.0, 5.0 / 35.0, 5.0 / 34.0, 0.8451542547285166, 1.0, 5.0, 512.0, 1e9, 2.0**60, 1e160, 1.7e308):
            for nugget, sill in ((0.2, 0.9), (0.9, 0.2)):
                survey = Survey([2.0, 7.0, 4.0, 5.5], wells, [1], [], nodes, [], Variogram(model, nugget, sill, span), 0.0, 1e-12)
                yield Case(survey, longer(survey, draw), whole=span in (1.0, 5.0))


def overflowing(draw):
    """Squares of distance and range that both overflow: u of the Gaussian model is a NaN there, at a node, or between two wells."""
    near, far = [0.0, 0.0, 3.0, 4.0, -3.0, 4.0], [1e200, 0.0]
    for model in BOTH:
        for wells, nodes in ((near, far + [1.0, 1.0]), (near[:4] + far, [1.0, 1.0])):
            for span in (1e200, 1e150):
                survey = Survey([2.0, 7.0, 4.0], wells, [1], [], nodes, [], Variogram(model, 0.5, 2.0, span), 1e-10, 1e-9)
                yield Case(survey, longer(survey, draw), whole=True)


def along(draw):
    """Two wells, and a hundred nodes on a line away from them: u has every whole part up to 36, and many 512ths."""
    for model in BOTH:
        for codes in ([1], [4]):
            us = [0.37 * (q + draw.random()) for q in range(100)]
            nodes = flat([u if model == EXPONENTIAL else math.sqrt(u), 0.0] for u in us)
            external, node_external = ([], []) if codes == [1] else ([1.0, 2.0], us)
            survey = Survey([5.0, 8.0], [0.0, 0.0, 0.0, 0.5], codes, external, nodes, node_external, Variogram(model, 0.1, 1.1, 1.0), 1e-10, 1e-9)
            yield Case(survey, longer(survey, draw))


def audited(draw):
    """The least tolerance with which a row is met, and the number just below it."""
    for n, codes in ((4, [1]), (9, [2]), (9, [1, 4, 4]), (12, [3, 4])):
        for model in BOTH:
            survey = with_model(rising(draw, n, codes, True), model)
            for bounded in at_the_bounds(survey, draw.randrange(2)):
                yield Case(bounded, longer(bounded, draw))


def model_cases():
    draw = Draw("nakwemol fit by e^-u").with_models(BOTH)
    yield from inside()
    yield from mixed(draw)
    yield from drawn(draw)
    yield from reaches(draw)
    yield from overflowing(draw)
    yield from along(draw)
    yield from audited(draw)
