"""Interpolations with a same-spot distance of their own, and those that 22 has a part in: every type, dimension and model."""
import math

from tools.generators.draw import Draw, flat
from tools.generators.interpolator_case import LONGEST, SHAPES, Case, enough, longer
from tools.generators.interpolator_refusals import BASE, refused_by_spots
from tools.generators.spots import MODELS, SPOTS, beside, lattice, levels, nodes_at, occurring, yards
from tools.reading import edges
from tools.reading.interpolator import ORDINARY, UNIVERSAL, Areas, Query
from tools.reading.variogram import EXPONENTIAL, GAUSSIAN, LINEAR, SPHERICAL, Variogram


def query_of(draw, kind, points, targets, variogram):
    return Query(kind, len(points[0]), levels(draw, len(points)), flat(points), flat(targets), variogram)


def in_yards(draw, kind, d, model, spot, n, m):
    """Points two by two in yards, and targets in yards, anywhere and on points."""
    span = 20.0 if spot == 0.5 else 900.0
    points = yards(draw, n, d, span, spot)
    return query_of(draw, kind, points, nodes_at(draw, points, m, span, spot), Variogram(model, draw.choice([0.0, 0.1]), 2.5, 2 * span, spot))


def on_a_line(apart, spot, targets=(1.0, 0.25)):
    """Two points and the paper's simplest slope: Linear 0, 1, 1."""
    return Query(ORDINARY, 1, [2.0, 6.0], [0.0, apart], [*targets], Variogram(LINEAR, 0.0, 1.0, 1.0, spot))


def at_half():
    """A distance equal to the field is not the same spot; one step nearer the two points are one."""
    for apart, number in ((0.5, 0), (math.nextafter(0.5, 0.0), 19), (math.nextafter(0.5, 1.0), 0), (0.25, 19)):
        query = on_a_line(apart, 0.5)
        yield Case(query, enough(query), whole=True, number=number)


def shaped(draw):
    """Every type, dimension, model and field."""
    for kind, d in SHAPES:
        for model in MODELS:
            for spot in SPOTS:
                query = in_yards(draw, kind, d, model, spot, draw.choice([4, 5, 6, 7]), draw.choice([2, 3]))
                yield Case(query, longer(query, draw), whole=query.s < 10)


def beside_distances(draw):
    """The field at a distance that occurs between two points, or of a target from one, and one step to each side of it."""
    for kind, d in SHAPES:
        for model in MODELS:
            points, targets = lattice(draw, 5, d), lattice(draw, 2, d)
            query = query_of(draw, kind, points, targets, Variogram(model, draw.choice([0.0, 0.2]), 0.9, draw.choice([4.0, 9.0])))
            apart = occurring(points, points) if model in (SPHERICAL, GAUSSIAN) else occurring(points, targets)
            for spot in beside(draw.choice(apart)):
                taken = query._replace(variogram=query.variogram._replace(same_spot=spot))
                yield Case(taken, longer(taken, draw), whole=taken.s < 8)


def on_a_circle(draw):
    """Three points whose distances are 5 in several ways, over one, two and three axes, the field beside it, and a range below it and above."""
    points = {1: [0.0, 5.0, -5.0], 2: [0.0, 0.0, 3.0, 4.0, -3.0, 4.0], 3: [0.0, 0.0, 0.0, 3.0, 4.0, 0.0, 0.0, 3.0, -4.0]}
    for d, coords in points.items():
        for model in MODELS:
            for spot in beside(5.0):
                query = Query(ORDINARY, d, [2.0, 7.0, 4.0], coords, [5.0] * d + [0.0] * d + [1.0] * d, Variogram(model, 0.2, 0.9, 40.0 if d == 2 else 5.0, spot))
                yield Case(query, longer(query, draw), whole=d == 2)


def taken(draw):
    """Just inside 22, with areas just as long as they have to be; the least field, where two points are that far apart, and a step further."""
    for spot in edges.TAKEN_SPOTS:
        for model in MODELS:
            query = BASE._replace(variogram=edges.MODEL._replace(model=model, same_spot=spot))
            yield Case(query, enough(query), whole=True)
    for spot in (edges.LEAST_SPOT, edges.ABOVE_LEAST):
        for apart in beside(edges.LEAST_SPOT):
            query = on_a_line(apart, spot)._replace(variogram=Variogram(SPHERICAL, 0.5, 1.5, 1.0, spot))
            yield Case(query, longer(query, draw), whole=True)


def far_and_wide(draw):
    """Fields that hold every point, and distances that overflow, which are not below the greatest; one point alone; as many as there may be."""
    for model in MODELS:
        for spot in (1e300, edges.GREATEST):
            near, far = [0.0, 0.0, 3.0, 4.0, -3.0, 4.0], [1e200, 0.0, 3.0, 4.0, -3.0, -1e200]
            for points in (near, far):
                query = Query(ORDINARY, 2, [2.0, 7.0, 4.0], points, [0.0, 5.0, 1.7e308, -1.7e308], Variogram(model, 0.5, 2.0, 10.0, spot))
                yield Case(query, longer(query, draw), whole=True)
        for spot in beside(2.0):
            alone = Query(ORDINARY, 2, [5.0], [0.0, 0.0], [2.0, 0.0, -0.0, 5e-324, 1.0, 1.0], Variogram(model, 0.25, 1.0, 8.0, spot))
            yield Case(alone, longer(alone, draw), whole=True)
    for model, (kind, d, n, m) in zip(MODELS, [(UNIVERSAL, 3, 48, 100), (ORDINARY, 2, 48, 2), (ORDINARY, 1, 24, 3), (UNIVERSAL, 2, 30, 2)]):
        query = in_yards(draw, kind, d, model, 0.5, n, m)
        yield Case(query, longer(query, draw))


def ordered():
    """What the paper's order decides: the query, and its number."""
    def with_variogram(**fields):
        return BASE._replace(variogram=edges.MODEL._replace(**fields))

    for odd in edges.ODD:
        yield from ((with_variogram(**{name: odd}, same_spot=odd), 11) for name in ("nugget", "sill", "range"))
    for spot in edges.WRONG_SPOTS:
        yield with_variogram(model=EXPONENTIAL, range=0.0, same_spot=spot), 22
        yield with_variogram(model=GAUSSIAN, range=0.0, same_spot=spot), 22
    yield from ((with_variogram(model=EXPONENTIAL, range=0.0, same_spot=spot), 12) for spot in edges.TAKEN_SPOTS)
    yield with_variogram(same_spot=0.0)._replace(d=4), 13
    yield with_variogram(same_spot=math.nan)._replace(d=1, kind=UNIVERSAL), 13


def areas():
    """A wrong field, and areas that are too short for what follows, or far longer."""
    query = BASE._replace(variogram=edges.MODEL._replace(same_spot=0.0))
    yield from (Case(query, lent, number=22) for lent in (Areas(0, 0, 0), LONGEST, Areas(2, 2, 0), Areas(2, 2, 49), Areas(1, 2, 50), Areas(2, 1, 50)))
    yield Case(BASE._replace(variogram=edges.MODEL._replace(same_spot=0.5)), Areas(0, 0, 0), number=17)


def spot_cases():
    draw = Draw("nakwemol interpolator, one yard")
    yield from at_half()
    yield from shaped(draw)
    yield from beside_distances(draw)
    yield from on_a_circle(draw)
    yield from taken(draw)
    yield from far_and_wide(draw)
    yield from refused_by_spots()
    yield from (Case(query, enough(query), number=number) for query, number in ordered())
    yield from areas()
