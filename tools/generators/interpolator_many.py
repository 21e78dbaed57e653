"""Interpolations of 49 to 96 points: every type, dimension and model; whole work areas of the largest, stops among them; and 97 points, and areas that are
too short for so many, refused. The number that a refused one has to give stands here, apart from the reading's."""
import math

from tools.generators.draw import Draw, flat
from tools.generators.interpolator_case import LONGEST, SHAPES, Case, enough, longer
from tools.generators.interpolator_cases import plain
from tools.reading import edges
from tools.reading.interpolator import ORDINARY, UNIVERSAL, Areas, Query
from tools.reading.variogram import EXPONENTIAL, GAUSSIAN, LINEAR, SPHERICAL, Variogram

COUNTS = (49, 60, 95, 96)
MODELS = (SPHERICAL, EXPONENTIAL, GAUSSIAN, LINEAR)
# how far points are drawn apart, so that of so many none are at one spot
WIDE = {1: 9000.0, 2: 900.0, 3: 90.0}
# the work area of 48 points and Universal
OF_48 = 2 * 52 * 52


def shaped(draw):
    """Each number of points with every type and dimension, by turns with every model."""
    for turn, n in enumerate(COUNTS):
        for place, (kind, d) in enumerate(SHAPES):
            for model in (SPHERICAL, LINEAR, MODELS[1 + (turn + place) % 2]):
                query = plain(draw, kind, d, n, draw.choice([1, 2, 3]), high=WIDE[d], model=model)
                yield Case(query, longer(query, draw))


def hundreds(draw):
    """As many targets as there may be, and none."""
    sizes = [(UNIVERSAL, 3, 96, 100, SPHERICAL), (ORDINARY, 1, 96, 100, LINEAR), (ORDINARY, 2, 95, 100, GAUSSIAN), (UNIVERSAL, 2, 96, 0, LINEAR)]
    for kind, d, n, m, model in sizes:
        query = plain(draw, kind, d, n, m, high=WIDE[d], model=model)
        yield Case(query, longer(query, draw))


def whole_areas(draw):
    """The largest work area, and the one just past that of 48 points."""
    for kind, d, n in ((UNIVERSAL, 3, 96), (ORDINARY, 2, 49)):
        query = plain(draw, kind, d, n, 2, model=SPHERICAL)
        yield Case(query, longer(query, draw), whole=True)


def far_origins(draw):
    """Coordinates of seven figures, where the term xy is lost to rounding."""
    for n, kind, d in ((49, UNIVERSAL, 2), (96, UNIVERSAL, 3), (96, ORDINARY, 2)):
        query = plain(draw, kind, d, n, 2, 4.70e6, 4.71e6)
        yield Case(query, longer(query, draw))


def stopped(draw):
    """The first of 96 points there twice; no sill, where the second step finds nothing; points on the axes, where xy is a column of zeros, which the last
    step finds."""
    query = plain(draw, ORDINARY, 2, 96, 1, model=SPHERICAL)
    query = query._replace(variogram=query.variogram._replace(nugget=0.0))
    yield query._replace(coords=query.coords[:-2] + query.coords[:2])
    yield plain(draw, ORDINARY, 1, 60, 1)._replace(variogram=Variogram(SPHERICAL, 0.0, 0.0, 1.0))
    on_axes = flat([float(i), 0.0, 1.0] if i % 2 else [0.0, float(i), 1.0] for i in range(49))
    yield plain(draw, UNIVERSAL, 3, 49, 1)._replace(coords=on_axes)


def in_one_yard(draw):
    """Two of 96 points so near to each other that the field joins them."""
    for kind, model in ((ORDINARY, SPHERICAL), (UNIVERSAL, LINEAR)):
        query = plain(draw, kind, 2, 96, 1, model=model)
        coords = query.coords[:-2] + [query.coords[0] + 0.125, query.coords[1]]
        query = query._replace(coords=coords, variogram=query.variogram._replace(same_spot=0.25))
        yield Case(query, longer(query, draw))


def inside():
    """Just inside 9, with areas just as long as they have to be."""
    spread = edges.spread
    for kind, d in SHAPES:
        query = Query(kind, d, spread(96), [x + 1e-3 * at for at, x in enumerate(spread(96 * d))], spread(d), edges.MODEL)
        yield Case(query, enough(query))


def accepted_cases(draw):
    yield from inside()
    yield from shaped(draw)
    yield from hundreds(draw)
    yield from whole_areas(draw)
    yield from far_origins(draw)
    yield from (Case(query, longer(query, draw), whole=True, number=19) for query in stopped(draw))
    yield from in_one_yard(draw)


def many(n, **fields):
    return Query(ORDINARY, 2, edges.spread(n), edges.spread(2 * n), edges.spread(4), edges.MODEL)._replace(**fields)


def refused_cases():
    """97 points: 9, whatever else is wrong of what counts later; and what counts earlier. Of 96 each area a number too short, and as long as 48 need it."""
    none, wrong = Areas(0, 0, 0), edges.MODEL._replace(model=EXPONENTIAL, sill=math.nan, range=0.0, same_spot=0.0)
    yield from (Case(many(97, kind=kind), LONGEST, number=9) for kind in (ORDINARY, UNIVERSAL))
    yield Case(many(97, d=1, coords=edges.spread(97)), LONGEST, number=9)
    yield Case(many(97, d=3, coords=edges.spread(291), targets=[]), LONGEST, number=9)
    yield Case(many(97, values=[math.nan] * 97, variogram=wrong), none, number=9)
    yield Case(many(97, targets=edges.spread(202)), none, number=9)
    for field, number in (({"d": 4}, 13), ({"d": 1, "kind": UNIVERSAL}, 13), ({"coords": edges.spread(193)}, 1), ({"targets": [1.0]}, 2)):
        yield from (Case(many(97, **field, variogram=variogram), none, number=number) for variogram in (edges.MODEL, wrong))
    yield from (Case(many(n), none, number=9) for n in (98, 100, 144, 300))
    for kind, size in ((ORDINARY, 97), (UNIVERSAL, 100)):
        query = many(96, kind=kind)
        yield from (Case(query, enough(query)._replace(work=length), number=17) for length in (2 * size * size - 1, OF_48))
        yield from (Case(query, enough(query)._replace(**{name: 1}), number=18) for name in ("figures", "variances"))


def many_cases():
    yield from accepted_cases(Draw("nakwemol interpolator, ninety-six wells"))
    yield from refused_cases()
