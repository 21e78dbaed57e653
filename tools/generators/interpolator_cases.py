"""Interpolations that are answered, or stop at a pivot: every dimension, type and model, few points and many, usual numbers and edges."""
import math

from tools.generators.calls import interpolate_call
from tools.generators.draw import Draw, flat
from tools.generators.interpolator_case import SHAPES, Case, enough, longer
from tools.generators.interpolator_covered import skipped
from tools.generators.interpolator_refusals import BASE
from tools.reading import edges
from tools.reading.case_older import LINE, PLANE, SPACE
from tools.reading.interpolator import ORDINARY, UNIVERSAL, Query
from tools.reading.variogram import LINEAR, SPHERICAL, Variogram

# coordinates whose products are huge, overflow, or are zeros
POOLS = [[0.0, -0.0, 1.0, 2.0, 3.0, -3.0, 10.0], [1e200, -1e200, 0.0, 1.0, -2.0, 30.0, 7.0], [1.7e308, 3.0, 1.0, -5.0, 0.0]]


def query_of(call):
    return Query(*call[:5], Variogram(*call.variogram))


def told_apart():
    """The small queries of the other reading's own cases, which tell one wrong reading from another."""
    for query in (LINE, PLANE, SPACE):
        yield Case(query, enough(query), whole=True)


def inside():
    """Just inside the edges of the refusals, with areas just as long as they have to be."""
    model, spread = edges.MODEL, edges.spread
    queries = [BASE, BASE._replace(targets=[]), BASE._replace(values=[3.0], coords=[1.0, 2.0]), BASE._replace(variogram=model._replace(model=LINEAR))]
    # no point at all: the assembly stands in the work area
    queries += [BASE._replace(kind=kind, d=d, values=[], coords=[], targets=spread(d)) for kind, d in SHAPES]
    queries += [BASE._replace(values=[], coords=[], targets=[])]
    queries += [BASE._replace(variogram=model._replace(**{name: x})) for name in ("nugget", "sill", "range") for x in (0.0, -0.0, edges.TINY, -1.5, 1.7e308)]
    queries += [BASE._replace(kind=UNIVERSAL, variogram=model._replace(range=x)) for x in (0.0, -1.5)]
    for query in queries:
        yield Case(query, enough(query), whole=True)


def plain(draw, kind, d, n, m, low=0.0, high=90.0, model=None):
    """Points and targets between two corners, as a survey has them."""
    def points(count):
        return [round(draw.uniform(low, high), 2) for _ in range(count * d)]

    values = [round(draw.uniform(20, 90), 2) for _ in range(n)]
    variogram = Variogram(model or draw.choice([SPHERICAL, LINEAR]), draw.choice([0.0, 0.1]), 2.5, (high - low) / 2)
    return Query(kind, d, values, points(n), points(m), variogram)


def shaped(draw):
    """Every type, dimension and model with few points."""
    for kind, d in SHAPES:
        for model in (SPHERICAL, LINEAR):
            for n in (1, 2, 3, 4, 5, 7, 9):
                query = plain(draw, kind, d, n, draw.choice([1, 2, 3]), model=model)
                yield Case(query, longer(query, draw), whole=query.s < 11)


def drawn(draw):
    """Calls as tools/reading/compare.py draws them, most of them small."""
    for turn in range(230):
        query = query_of(interpolate_call(draw))
        if query.n < 14 or turn % 6 == 0:
            yield Case(query, longer(query, draw), whole=query.s < 9 and turn % 2 == 0)


def large(draw):
    """As many points and targets as there may be, and each number of points."""
    for kind, d, n, m, whole in [(UNIVERSAL, 3, 48, 100, False), (UNIVERSAL, 3, 48, 2, True), (ORDINARY, 1, 48, 100, False), (ORDINARY, 2, 1, 100, False)]:
        query = plain(draw, kind, d, n, m)
        yield Case(query, longer(query, draw), whole)
    for n in range(1, 49):
        kind, d = SHAPES[n % 5]
        query = plain(draw, kind, d, n, n % 3)
        yield Case(query, longer(query, draw))
    for kind, d in SHAPES:
        # a point that is there twice among many
        query = plain(draw, kind, d, 12, 2)
        twice = query._replace(coords=query.coords[:11 * d] + query.coords[:d])
        yield Case(twice, longer(twice, draw), whole=True)


def far_origins(draw):
    """Coordinates of seven figures, where the term xy is lost to rounding, crowded ones, and targets on points."""
    for kind, d in SHAPES:
        for low, high in ((4.70e6, 4.71e6), (0.0, 1e-3), (-1e9, 1e9)):
            query = plain(draw, kind, d, 6, 2, low, high)
            crowded = query._replace(coords=[low + (high - low) * draw.random() for _ in query.coords])
            for placed in (query, crowded):
                on_points = placed._replace(targets=placed.targets[:d] + placed.coords[-d:])
                yield Case(on_points, longer(on_points, draw), whole=high < 1.0)


def stopped(draw):
    """Steps that stop: the first, where the matrix is zero there; one on the way, where a point is there twice; and the last."""
    for kind, d in SHAPES:
        query = plain(draw, kind, d, 5, 1)
        queries = [query._replace(variogram=Variogram(model, nugget, 0.0, 1.0)) for model, nugget in ((SPHERICAL, 0.0), (LINEAR, 0.0), (LINEAR, 2.0**-53))]
        for twin in range(1, 5):
            coords = query.coords[:twin * d] + query.coords[:d] + query.coords[(twin + 1) * d:]
            queries.append(query._replace(coords=coords))
        queries += [query._replace(coords=query.coords[:d] * 5), query._replace(coords=[x * 2.0**-60 for x in query.coords])]
        # a sill at the least pivot, and just below it, with nothing between the points
        queries += [Query(ORDINARY, d, [1.0, 2.0], [0.0] * d + [9.0] * d, [1.0] * d, Variogram(SPHERICAL, 0.0, sill, 1.0)) for sill in (2.0**-52, 2.0**-53)]
        # points on one line, where x and y are one column
        queries.append(query._replace(coords=flat([float(i)] * d for i in range(5))))
        for stop in queries:
            yield Case(stop, longer(stop, draw), whole=True)


def zero_factors(draw):
    """Points farther apart than the range, so that factors are zeros, beside entries that are not finite or zeros of either sign: which are not skipped."""
    for kind, d in SHAPES:
        for x in (1e200, -1e200, 1.7e308, 3.0):
            for zero in (0.0, -0.0):
                first = [x, x, 1.0][:d] if kind == UNIVERSAL else [x] * d
                coords = first + flat([10.0 * i + 10.0, zero, 5.0 * i * i][:d] for i in range(4))
                targets = [zero] * d + coords[:d] + [x / 2] * d
                query = Query(kind, d, [zero, 1.0, -zero, 2.0, 5.0], coords, targets, Variogram(SPHERICAL, 0.5, 2.0, 1.0))
                yield Case(query, longer(query, draw), whole=True)
                negative = query._replace(variogram=Variogram(LINEAR, 0.0, zero, 2.0))
                yield Case(negative, longer(negative, draw), whole=True)


def telling(draw):
    """Queries drawn until there are eight of which skipping a zero factor would change the inverse by a NaN, by a zero's sign alone, or the steps."""
    left = {"nan": 8, "sign": 8, "steps": 8}
    while any(left.values()):
        kind, d = draw.choice(SHAPES[3:])
        n, pool = draw.randrange(2, 6), draw.choice(POOLS)
        coords, targets = ([draw.choice(pool) for _ in range(count * d)] for count in (n, 2))
        nugget, sill, span = draw.choice([0.0, 0.5, 3.0]), draw.choice([0.0, -0.0, 2.0, -2.0]), draw.choice([0.0, 2.0, 40.0])
        query = Query(kind, d, draw.measures(n), coords, targets, Variogram(draw.choice([SPHERICAL, LINEAR]), nugget, sill, span))
        change = skipped(query)
        if left.get(change):
            left[change] -= 1
            yield Case(query, longer(query, draw), whole=True)
    # of Ordinary such ones are few
    query = Query(ORDINARY, 2, [1.0, 2.0, 4.0], [1.0, -0.0, 1.0, 10.0, 2.0, 2.0], [0.0, 0.0, 1.0, 5.0], Variogram(LINEAR, 0.5, -2.0, 40.0))
    yield Case(query, longer(query, draw), whole=True)


def signed_zeros(draw):
    """Zeros of either sign in values, coordinates, sill and nugget, and targets on points."""
    for turn in range(60):
        kind, d = SHAPES[turn % 5]
        n = draw.randrange(1, 4) if kind == ORDINARY else draw.randrange(4, 6)
        coords = [draw.choice([0.0, -0.0, 1.0, 2.0, -3.0]) if draw.randrange(3) else float(draw.randrange(-9, 9)) for _ in range(n * d)]
        targets = coords[:d] + [draw.choice([0.0, -0.0]) for _ in range(d)]
        model = draw.choice([SPHERICAL, LINEAR])
        variogram = Variogram(model, draw.choice([0.0, -0.0, 0.5]), draw.choice([0.0, -0.0, 2.0]), draw.choice([1.0, 2.0, 40.0]))
        query = Query(kind, d, [draw.choice([0.0, -0.0]) for _ in range(n)], coords, targets, variogram)
        yield Case(query, enough(query), whole=True)


def edge_numbers(draw):
    """Huge and subnormal coordinates, values and variograms: distances that overflow, or are below 2^-52, figures that are not finite, or subnormal."""
    for turn in range(80):
        kind, d = SHAPES[turn % 5]
        query = plain(draw, kind, d, draw.choice([2, 3, 5]), 2)
        values, coords, targets = ([draw.edge() if draw.randrange(3) == 0 else x for x in xs] for xs in (query.values, query.coords, query.targets))
        sides = [query._replace(values=values), query._replace(coords=coords), query._replace(targets=targets)]
        sides += [query._replace(variogram=query.variogram._replace(**{draw.choice(["nugget", "sill", "range"]): draw.edge()}))]
        query = sides[turn % 4]
        yield Case(query, longer(query, draw), whole=turn % 3 == 0)
    for scale in (5e-324, 2.0**-1030, 1e-300, 1e300, 1.7e306):
        query = plain(draw, ORDINARY, 2, 4, 2)
        query = query._replace(values=[scale * (i + 1) for i in range(4)])
        yield Case(query, longer(query, draw))
    for place in range(5):
        # one value alone, and weights above 1 far from the points
        query = plain(draw, UNIVERSAL, 2, 5, 1)
        query = query._replace(values=[1.7e308 * (i == place) for i in range(5)], targets=[900.0, -900.0])
        yield Case(query, longer(query, draw))


def at_the_range(draw):
    """Distances that are the range itself and its neighbours, over one, two and three axes; nugget above sill."""
    points = {1: [0.0, 5.0, -5.0], 2: [0.0, 0.0, 3.0, 4.0, -3.0, 4.0], 3: [0.0, 0.0, 0.0, 3.0, 4.0, 0.0, 0.0, 3.0, -4.0]}
    for d, coords in points.items():
        for model in (SPHERICAL, LINEAR):
            for span in (5.0, math.nextafter(5.0, 6.0), math.nextafter(5.0, 4.0)):
                for nugget, sill in ((0.2, 0.9), (0.9, 0.2)):
                    query = Query(ORDINARY, d, [2.0, 7.0, 4.0], coords, [5.0] * d + [0.0] * d, Variogram(model, nugget, sill, span))
                    yield Case(query, longer(query, draw), whole=span == 5.0)


def accepted_cases():
    draw = Draw("nakwemol interpolator")
    yield from told_apart()
    yield from inside()
    yield from shaped(draw)
    yield from drawn(draw)
    yield from large(draw)
    yield from far_origins(draw)
    yield from stopped(draw)
    yield from zero_factors(draw)
    yield from telling(draw)
    yield from signed_zeros(draw)
    yield from edge_numbers(draw)
    yield from at_the_range(draw)
