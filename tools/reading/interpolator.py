"""Paper 01, "Interpolator"."""
from typing import NamedTuple

from tools.reading import refusals
from tools.reading.elimination import beside_identity, eliminate, inverse
from tools.reading.fit import put, solved, weighted
from tools.reading.floats import clamped, running_sum
from tools.reading.variogram import Variogram, distance

ORDINARY, UNIVERSAL = 1, 2


class Query(NamedTuple):
    kind: int
    d: int
    values: list
    coords: list
    targets: list
    variogram: Variogram

    @property
    def n(self):
        return len(self.values)

    @property
    def m(self):
        return len(self.targets) // self.d

    @property
    def s(self):
        """"Ordinary adds a one (s = n + 1); Universal 1, x, y, xy (s = n + 4)"."""
        return self.n + (1 if self.kind == ORDINARY else 4)

    def point(self, i):
        return self.coords[i * self.d:(i + 1) * self.d]

    def target(self, q):
        return self.targets[q * self.d:(q + 1) * self.d]


class Areas(NamedTuple):
    figures: list
    variances: list
    work: list


def tests(query, areas):
    """"Interpolator: 13, 1, 2, 9, 11, 12, 17, 18, 19"; 22 "straight after 11"."""
    d, n = query.d, query.n
    yield 13, d not in (1, 2, 3) or (d == 1 and query.kind == UNIVERSAL)
    yield 1, len(query.coords) != n * d
    yield 2, len(query.targets) % d != 0
    yield 9, n > refusals.MOST_WELLS or query.m > refusals.MOST_NODES
    yield 11, refusals.some_not_finite([*query.variogram.numbers(), *query.values, *query.coords, *query.targets])
    yield 22, query.variogram.wrong_spot()
    yield 12, query.variogram.without_range()
    yield 17, len(areas.work) < 2 * query.s * query.s
    yield 18, refusals.too_short([(areas.figures, query.m), (areas.variances, query.m)])


def covariance(query, a, b):
    """"Entries are sill − variogram, the diagonal too"."""
    return query.variogram.sill - query.variogram.evaluate(distance(a, b))


def drift_row(query, point):
    """"Ordinary adds a one [..]; Universal 1, x, y, xy [..] from the first two axes"."""
    if query.kind == ORDINARY:
        return [1.0]
    x, y = point[:2]
    return [1.0, x, y, x * y]


def assembled(query):
    points = [query.point(i) for i in range(query.n)]
    columns = [drift_row(query, point) for point in points]
    added = query.s - query.n
    upper = [[covariance(query, a, b) for b in points] + row for a, row in zip(points, columns)]
    return upper + [[row[j] for row in columns] + [0.0] * added for j in range(added)]


def right_hand_side(query, q):
    target = query.target(q)
    return [covariance(query, query.point(i), target) for i in range(query.n)] + drift_row(query, target)


def variance_of(sill, z, b):
    """"Variance: sill minus each z·b in turn, then as above"."""
    return clamped(running_sum((-(x * y) for x, y in zip(z, b, strict=True)), start=sill))


def interpolate(query, areas):
    """A call's number: 0 and the answers in the areas, or a refusal. "Its elimination does not skip a zero factor"."""
    number = refusals.first(tests(query, areas))
    if number:
        return number
    rows = beside_identity(assembled(query))
    stopped = eliminate(rows, skip_zero=False)
    put(areas.work, 0, [x for row in rows for x in row])
    if stopped is not None:
        return 19
    matrix_inverse = inverse(rows)
    for q in range(query.m):
        b = right_hand_side(query, q)
        z = solved(matrix_inverse, b)
        areas.figures[q] = weighted(z[:query.n], query.values)
        areas.variances[q] = variance_of(query.variogram.sill, z, b)
    return 0
