"""Fits that are answered, or stop at a pivot: every model and basis mix, few wells and many, usual numbers and edges."""
import math

from tools.generators.calls import fit_call
from tools.generators.draw import COLUMNS, Draw, flat
from tools.generators.fit_audits import audited
from tools.generators.fit_case import Case, enough, longer
from tools.reading import edges
from tools.reading.case_fits import AUDITS, EXTERNALS, FAR_WELL, NO_NODES, SURFACE
from tools.reading.survey import Survey
from tools.reading.variogram import LINEAR, SPHERICAL, Variogram

TOLERANCES = [0.0, -0.0, 5e-324, 2.0**-53, 1e-14, 1e-12, 1e-9, 1e-9, 1e-6, 0.5, 1.7e308]
# each surface alone, with one to three external columns before, between and after, and externals alone
MIXES = [[1], [2], [3], [4], [1, 4], [4, 1], [2, 4], [4, 2], [4, 3], [4, 4], [2, 4, 4], [4, 1, 4], [3, 4, 4], [4, 4, 4], [4, 2, 4, 4], [1, 4, 4, 4]]
MIXES += [[4, 3, 4, 4, 4], [2, 4, 4, 4, 4, 4, 4, 4], [4, 4, 4, 4, 4, 3]]
# bases that repeat a column: no step but one of the last ones can stop these
REPEATED = [[1, 1], [1, 2], [2, 1], [2, 2], [3, 2], [4, 1, 4, 1]]


def survey_of(call, t, model=None):
    variogram = Variogram(*call.variogram)
    return Survey(*call[:6], variogram._replace(model=model or variogram.model), call.r, t)


def mixed(draw):
    """Every mix and model, with more wells than columns, just as many, and n other than m."""
    for codes in MIXES + REPEATED:
        p = sum(COLUMNS[code] for code in codes)
        for model in (SPHERICAL, LINEAR):
            for n in (p, p + 1, p + draw.randrange(2, 5)):
                m = draw.choice([m for m in (1, 2, 3) if m != n])
                survey = survey_of(fit_call(draw, n, codes, m), draw.choice(TOLERANCES), model)
                yield Case(survey, longer(survey, draw), whole=n + p < 12)


def drawn(draw):
    """Few wells with their whole areas, then more of them."""
    for turn in range(640):
        few = turn < 360
        n = draw.randrange(1, 7) if few else draw.randrange(4, 17)
        m = draw.randrange(0, 4) if few else draw.randrange(0, 7)
        survey = survey_of(fit_call(draw, n, draw.bases(n), m), draw.choice(TOLERANCES))
        yield Case(survey, longer(survey, draw), whole=few and survey.s < 11)


def plain(draw, n, m, codes, low, high, t=1e-9):
    """Wells and nodes between two corners, as a survey has them: x and y need not be of one size."""
    def point():
        return [round(draw.uniform(a, b), 2) for a, b in zip(low, high)]

    k = codes.count(4)
    values, external, node_external = ([round(draw.uniform(20, 90), 2) for _ in range(count)] for count in (n, k * n, k * m))
    span = max(high[0] - low[0], high[1] - low[1])
    model = Variogram(draw.choice([SPHERICAL, LINEAR]), 0.1, 2.5, span / 2)
    return Survey(values, flat(point() for _ in range(n)), codes, external, flat(point() for _ in range(m)), node_external, model, 1e-10, t)


def moved(survey, x, y):
    """The same survey from another origin."""
    def shift(points):
        return [a - (x, y)[i % 2] for i, a in enumerate(points)]

    return survey._replace(coords=shift(survey.coords), nodes=shift(survey.nodes))


def far_origins(draw):
    """Coordinates of seven figures, where a Quadratic trend is lost to rounding, and the same ones from an origin among the wells."""
    for codes in ([1], [2], [3], [3, 4], [2, 4, 4]):
        for n in (9, 14):
            survey = plain(draw, n, 4, codes, (4.70e6, 5.20e6), (4.71e6, 5.21e6))
            for placed in (survey, moved(survey, 4.705e6, 5.205e6)):
                yield Case(placed, enough(placed), whole=n == 9 and placed.s < 14)
    for codes in ([2], [3]):
        survey = plain(draw, 10, 3, codes, (0.0, 4.7e6), (3.0, 4.8e6))
        yield Case(survey, longer(survey, draw))
        survey = plain(draw, 10, 3, codes, (1e9, -1e-3), (3e9, 1e-3))
        yield Case(survey, longer(survey, draw))


def large(draw):
    """As many wells, columns and nodes as there may be."""
    low, high = (0.0, 0.0), (900.0, 400.0)
    for n, m, codes, whole in [(48, 100, [3, 4, 4, 4, 4, 4, 4], False), (48, 3, [3, 4, 4, 4, 4, 4, 4], True), (48, 1, [1], False), (47, 2, [4] * 12, False)]:
        survey = plain(draw, n, m, codes, low, high)
        yield Case(survey, longer(survey, draw), whole)
    for n, m, codes in [(1, 100, [1]), (2, 100, [4]), (12, 100, [2]), (48, 0, [2]), (31, 12, [2, 4]), (24, 99, [3])]:
        survey = plain(draw, n, m, codes, low, high)
        yield Case(survey, longer(survey, draw))
    for n in range(17, 49):
        survey = plain(draw, n, draw.randrange(1, 4), draw.choice(MIXES), low, high, draw.choice(TOLERANCES))
        yield Case(survey, longer(survey, draw))
    repeated = plain(draw, 23, 2, [2], low, high)
    twice = repeated._replace(coords=repeated.coords[:44] + repeated.coords[:2], r=0.0)
    yield Case(twice, longer(twice, draw), whole=True)


def stopped(draw):
    """Steps that stop: the first, where the matrix is zero there; one on the way, where a well is there twice; and the last."""
    for n in (2, 3, 5):
        wells = plain(draw, n, 1, [1], (0.0, 0.0), (9.0, 9.0))
        flat_model = Variogram(SPHERICAL, 0.0, 0.0, 1.0)
        cases = [wells._replace(codes=[4], external=[0.0] * n, node_external=[1.0], variogram=flat_model, r=r) for r in (0.0, 2.0**-53, 2.0**-52)]
        cases += [wells._replace(codes=[4], external=[2.0**-53] * n, node_external=[1.0], variogram=flat_model, r=0.0)]
        for twin in range(1, n):
            coords = wells.coords[:2 * twin] + wells.coords[:2] + wells.coords[2 * twin + 2:]
            cases += [wells._replace(coords=coords, r=r) for r in (0.0, -0.0, 2.0**-53, 2.0**-52, 1e-10)]
        cases += [wells._replace(codes=[1, 4], external=[1.0] * (n - 1) + [1.0 + 2.0**-50 * step], node_external=[1.0]) for step in (0, 1, 64)]
        for survey in cases:
            yield Case(survey, longer(survey, draw), whole=True)


def not_finite(draw):
    """Numbers that are finite themselves and lead to one that is not: in F, in f0, in a weight or in the figure."""
    def grid(count):
        return [float(draw.randrange(0, 6)) for _ in range(count)]

    near = FAR_WELL._replace(coords=[1.0, 1.0] + FAR_WELL.coords[2:], nodes=[0.0, 5.0, 4.0, 1.0])
    surveys = [near._replace(nodes=[x, 5.0, 4.0, 1.0]) for x in (2.0**511, 2.0**512, -(2.0**600), 1.7e308)]
    surveys += [near._replace(values=[5.0, 4.0, top, -top, 3.0, 7.0]) for top in (1e307, 1.7e308)]
    for _ in range(24):
        n = draw.choice([6, 6, 7])
        surveys.append(near._replace(values=grid(n), coords=[2.0**512, 1.0] + grid(2 * n - 2), nodes=grid(4), t=draw.choice(TOLERANCES)))
    for survey in surveys:
        yield Case(survey, longer(survey, draw))


def zeros(draw):
    """Zeros of either sign in the values, the node externals and the sill, and nodes on wells: sums of which each product is minus zero."""
    for _ in range(60):
        n, codes = draw.randrange(1, 4), draw.choice([[4], [4], [4, 4]])
        n, k = max(n, len(codes)), len(codes)
        coords = [float(draw.randrange(-2, 3)) for _ in range(2 * n)]
        nodes = coords[:2] + [draw.choice([0.0, -0.0]) for _ in range(2)]
        external = [float(draw.choice([-2, -1, 1, 2])) for _ in range(k * n)]
        values, node_external = ([draw.choice([0.0, -0.0]) for _ in range(count)] for count in (n, 2 * k))
        model = Variogram(draw.choice([SPHERICAL, LINEAR]), draw.choice([0.0, -0.0, 0.5]), draw.choice([0.0, -0.0, 2.0]), draw.choice([1.0, 2.0]))
        survey = Survey(values, coords, codes, external, nodes, node_external, model, draw.choice([0.0, -0.0, 1e-10, 1.0]), draw.choice(TOLERANCES))
        yield Case(survey, enough(survey), whole=True)


def at_the_range(draw):
    """Distances that are the range itself and its neighbours: there the sill stands alone, and nugget + (sill - nugget) is another number."""
    nugget, sill = 0.2, 0.9
    assert nugget + (sill - nugget) != sill
    for model in (SPHERICAL, LINEAR):
        for span in (5.0, math.nextafter(5.0, 6.0), math.nextafter(5.0, 4.0)):
            variogram = Variogram(model, nugget, sill, span)
            survey = Survey([2.0, 7.0, 4.0], [0.0, 0.0, 3.0, 4.0, -3.0, 4.0], [1], [], [0.0, 5.0, 6.0, 0.0, 3.0, 0.0], [], variogram, 0.0, 1e-9)
            yield Case(survey, longer(survey, draw), whole=True)


def inside():
    """Just inside the edges of the refusals, with areas just as long as they have to be."""
    base, tiny = edges.survey(), edges.TINY
    surveys = [base, *(base._replace(r=r) for r in (0.0, -0.0, tiny, 1.7e308)), *(base._replace(t=t) for t in (0.0, -0.0, tiny, 1.7e308))]
    surveys += [edges.survey(n=2), edges.survey(m=0), edges.survey(n=48, m=1), edges.survey(n=3, m=100), edges.survey(n=12, codes=[3, 2, 1, 4, 4])]
    surveys += [edges.survey(codes=[1])._replace(node_external=odd) for odd in ([], [1.0], edges.ODD, [0.5] * 7)]
    surveys += [base._replace(variogram=v) for v in (edges.MODEL._replace(model=LINEAR), edges.MODEL._replace(range=0.0), edges.MODEL._replace(range=-1.0))]
    for survey in surveys:
        yield Case(survey, enough(survey), whole=survey.s < 9)


def told_apart():
    """The small fits of the other reading's own cases, which tell one wrong reading from another."""
    for survey in [EXTERNALS, NO_NODES, SURFACE, FAR_WELL, *(survey for survey, _ in AUDITS.values())]:
        yield Case(survey, enough(survey), whole=True)


def accepted_cases():
    draw = Draw("nakwemol fit")
    yield from told_apart()
    yield from inside()
    yield from stopped(draw)
    yield from mixed(draw)
    yield from drawn(draw)
    yield from far_origins(draw)
    yield from large(draw)
    yield from not_finite(draw)
    yield from zeros(draw)
    yield from at_the_range(draw)
    yield from audited(draw)
