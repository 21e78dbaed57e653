"""Interpolations with the models that are worked out by e^−u, Exponential and Gaussian: every type and dimension, and u from 0 to infinity."""
from tools.generators.calls import interpolate_call
from tools.generators.draw import Draw
from tools.generators.interpolator_case import SHAPES, Case, enough, longer
from tools.generators.interpolator_refusals import BASE
from tools.reading import edges
from tools.reading.interpolator import ORDINARY, Query
from tools.reading.variogram import EXPONENTIAL, GAUSSIAN, Variogram

BOTH = (EXPONENTIAL, GAUSSIAN)


def inside():
    """Just inside 12: the least range above zero, and a Gaussian model of any range, with areas just as long as they have to be."""
    spans = {EXPONENTIAL: [edges.TINY, 2.0**-1022, 1.7e308], GAUSSIAN: [0.0, -0.0, edges.TINY, -edges.TINY, -8.0, 1e-170, 1e200, -1.7e308]}
    for model in BOTH:
        for span in [8.0, *spans[model]]:
            query = BASE._replace(variogram=edges.MODEL._replace(model=model, range=span))
            yield Case(query, enough(query), whole=True)


def plain(draw, kind, d, n, m, model):
    """Points and targets as a survey has them, the last target on a point."""
    def points(count):
        return [round(draw.uniform(0, 90), 2) for _ in range(count * d)]

    coords = points(n)
    targets = (points(m - 1) + coords[:d]) if m else []
    variogram = Variogram(model, draw.choice([0.0, 0.1]), 2.5, draw.choice([3.0, 15.0, 45.0]))
    return Query(kind, d, [round(draw.uniform(20, 90), 2) for _ in range(n)], coords, targets, variogram)


def shaped(draw):
    """Every type, dimension and model, with few points and with many."""
    for kind, d in SHAPES:
        for model in BOTH:
            for n in (1, 3, 4, 5, 8):
                query = plain(draw, kind, d, n, draw.choice([1, 2, 3]), model)
                yield Case(query, longer(query, draw), whole=query.s < 10)
            query = plain(draw, kind, d, draw.randrange(12, 30), 2, model)
            yield Case(query, longer(query, draw))
            # a point that is there twice
            query = plain(draw, kind, d, 6, 1, model)
            twice = query._replace(coords=query.coords[:5 * d] + query.coords[:d])
            yield Case(twice, longer(twice, draw), whole=True)
    query = plain(draw, *SHAPES[-1], 48, 100, GAUSSIAN)
    yield Case(query, longer(query, draw))


def drawn(draw):
    """Calls as tools/reading/compare.py draws them, the small ones."""
    for turn in range(110):
        call = interpolate_call(draw)
        query = Query(*call[:5], Variogram(*call.variogram))
        if query.n < 10:
            yield Case(query, longer(query, draw), whole=query.s < 7 and turn % 2 == 0)


def reaches(draw):
    """The same points under ranges from far below their distances to far above, over one, two and three axes; nugget above sill."""
    points = {1: [0.0, 5.0, -5.0], 2: [0.0, 0.0, 3.0, 4.0, -3.0, 4.0], 3: [0.0, 0.0, 0.0, 3.0, 4.0, 0.0, 0.0, 3.0, -4.0]}
    for d, coords in points.items():
        for model in BOTH:
            for span in (1e-300, 5.0 / 35.0, 0.8451542547285166, 5.0, 1e9, 1e200):
                for nugget, sill in ((0.2, 0.9), (0.9, 0.2)):
                    query = Query(ORDINARY, d, [2.0, 7.0, 4.0], coords, [5.0] * d + [0.0] * d, Variogram(model, nugget, sill, span))
                    yield Case(query, longer(query, draw), whole=span == 5.0)


def model_cases():
    draw = Draw("nakwemol interpolator by e^-u").with_models(BOTH)
    yield from inside()
    yield from shaped(draw)
    yield from drawn(draw)
    yield from reaches(draw)
