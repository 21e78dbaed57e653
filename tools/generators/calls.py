"""Calls of `fit`, `interpolate` and `calculate`: as the oracle takes them, and drawn at random."""
from typing import NamedTuple

from tools.generators.draw import COLUMNS, flat
from tools.generators.records import listed, number, numbers

# the same-spot distance that the original has as its constant
OWN = number(2.0**-52)


def below(variogram):
    """The same-spot distance before a call, where it is another than the original's own. One that is drawn has none but that."""
    return [w for spot in variogram[4:] if number(spot) != OWN for w in ("below", number(spot))]


def variogram_words(variogram):
    model, nugget, sill, span = variogram[:4]
    return [model, *numbers([nugget, sill, span])]


class Fit(NamedTuple):
    values: list
    coords: list
    codes: list
    external: list
    nodes: list
    node_external: list
    variogram: tuple
    r: float

    def words(self):
        wells = [*listed(self.values), *listed(self.coords), len(self.codes), *self.codes, *listed(self.external)]
        nodes = [*listed(self.nodes), *listed(self.node_external)]
        return [*below(self.variogram), "fit", *wells, *nodes, *variogram_words(self.variogram), number(self.r)]


class Interpolate(NamedTuple):
    kind: int
    d: int
    values: list
    coords: list
    targets: list
    variogram: tuple

    def words(self):
        lists = [*listed(self.values), *listed(self.coords), *listed(self.targets)]
        return [*below(self.variogram), "interpolate", self.kind, self.d, *lists, *variogram_words(self.variogram)]


class Calculate(NamedTuple):
    d: int
    values: list
    coords: list
    bins: int

    def words(self):
        return ["calculate", self.d, *listed(self.values), *listed(self.coords), self.bins]


def broken_fit(draw, call, broken):
    """A fit with what the set `broken` names, by the refusals' numbers, put wrong."""
    k, coords, r, external, node_external = call.codes.count(4), call.coords, call.r, call.external, call.node_external
    if 1 in broken:
        coords = coords[:-2] if coords and draw.getrandbits(1) else coords + [0.0, 1.0]
    if 5 in broken:
        r = draw.choice([-1e-300, -1.0, float("inf"), float("nan")])
    if 6 in broken and k:
        external = external[:-1] if draw.getrandbits(1) else external + [1.0]
    if 8 in broken and k:
        node_external = node_external + [1.0] * k
    return call._replace(coords=coords, r=r, external=external, node_external=node_external)


def fit_call(draw, n, codes, m, broken=frozenset()):
    style = draw.style()
    wells = draw.places(n, 2, style)
    nodes = draw.targets(wells, m, 2, style)
    if 3 in broken:
        codes = []
    if 7 in broken:
        codes = codes + [1] * max(0, n + 1 - sum(COLUMNS[c] for c in codes))
    k = codes.count(4)
    values, external, node_external = draw.measures(n), draw.measures(k * n), draw.measures(k * m)
    r = draw.regularisation()
    call = broken_fit(draw, Fit(values, flat(wells), codes, external, flat(nodes), node_external, None, r), broken)
    return call._replace(variogram=draw.variogram(style))


def more_points(draw, coords, axes):
    """Seldom, a point more than there are values."""
    return coords + [0.0] * axes if draw.randrange(25) == 0 else coords


def interpolate_call(draw, most=48):
    n, axes, style = draw.count(most, 10), draw.choice([1, 2, 2, 3]), draw.style()
    points = draw.places(n, axes, style)
    targets = draw.targets(points, draw.count(100, 4) if n < 25 else 1, axes, style)
    values = draw.measures(n)
    coords = more_points(draw, flat(points), axes)
    kind = 1 if (axes == 1 or n < 4) and draw.randrange(8) else draw.choice([1, 2])
    return Interpolate(kind, axes, values, coords, flat(targets), draw.variogram(style))


def calculate_call(draw, most=48):
    n, axes, style = draw.count(most, 12), draw.choice([1, 2, 3]), draw.style()
    values = draw.measures(n)
    coords = more_points(draw, flat(draw.places(n, axes, style)), axes)
    return Calculate(axes, values, coords, draw.choice([1, 2, 3, 5, 10, 63, 64, draw.randrange(1, 65)]))
