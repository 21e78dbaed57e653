"""The model's numbers by weighted least squares.

The cost is the sum over the bins of pairs · (bin − model)². For a given range the model is a straight combination of nugget and sill, so that the best two
come in closed form; only the range is searched, over a coarse grid and then by golden section. So the search cannot wander, and gives the same numbers
each time. Weights by the pairs alone are taken, not Cressie's by the model too: these reward a model that is too high, and have no closed form.
"""
import math
from dataclasses import dataclass
from typing import Optional

from mapper.model.variogram_models import REACH, rise

COARSE = 80
GOLDEN = (math.sqrt(5) - 1) / 2
STEPS = 60
ROUNDING = 1 + 1e-9  # costs that differ by less are alike


@dataclass
class Given:
    """The numbers that are given; None where one is to be fitted."""
    nugget: Optional[float] = None
    sill: Optional[float] = None
    range: Optional[float] = None

    def whole(self):
        return len(self.names()) == 3

    def names(self):
        """Which are given."""
        return [name for name in ('nugget', 'sill', 'range') if getattr(self, name) is not None]


def shares(model, span, h):
    """What nugget and sill count at the distance h, in a model of that range."""
    risen = rise(model, h, span)
    return (1.0 if model == 'linear' else 1.0 - risen), risen


class Best:
    """The best nugget and sill for a range."""

    def __init__(self, bins, model, given, span):
        self.model, self.given = model, given
        self.rows = [(each.pairs, *shares(model, span, each.distance), each.semivariance) for each in bins]

    def cost(self, nugget, sill):
        return sum(w * (y - nugget * u - sill * v) ** 2 for w, u, v, y in self.rows)

    def sum(self, term):
        return sum(w * term(u, v, y) for w, u, v, y in self.rows)

    def sill_beside(self, nugget):
        """The best sill for a nugget: at least that nugget but in the linear model, and never below zero."""
        vv = self.sum(lambda u, v, y: v * v)
        sill = self.sum(lambda u, v, y: v * (y - nugget * u)) / vv if vv > 0 else 0.0
        return max(sill, 0.0 if self.model == 'linear' else nugget)

    def nugget_beside(self, sill):
        """The best nugget for a sill."""
        uu = self.sum(lambda u, v, y: u * u)
        nugget = self.sum(lambda u, v, y: u * (y - sill * v)) / uu if uu > 0 else 0.0
        return min(max(nugget, 0.0), math.inf if self.model == 'linear' else sill)

    def free(self):
        """Both at once, as they come without any bounds; None where the bins cannot tell them apart."""
        uu, uv, vv = (self.sum(lambda u, v, y: u * u), self.sum(lambda u, v, y: u * v), self.sum(lambda u, v, y: v * v))
        uy, vy = self.sum(lambda u, v, y: u * y), self.sum(lambda u, v, y: v * y)
        whole = uu * vv - uv * uv
        if not whole > 1e-12 * uu * vv:
            return None
        return (uy * vv - vy * uv) / whole, (vy * uu - uy * uv) / whole

    def level(self):
        """One height for all bins: nugget alone."""
        mean = self.sum(lambda u, v, y: y) / self.sum(lambda u, v, y: 1.0)
        return (mean, 0.0) if self.model == 'linear' else (mean, mean)

    def numbers(self):
        """Nugget and sill, those given as they are."""
        if self.given.nugget is not None:
            return self.given.nugget, self.given.sill if self.given.sill is not None else self.sill_beside(self.given.nugget)
        if self.given.sill is not None:
            return self.nugget_beside(self.given.sill), self.given.sill
        free = self.free()
        if free and free[0] >= 0 and free[1] >= (0.0 if self.model == 'linear' else free[0]):
            return free
        return min(((0.0, self.sill_beside(0.0)), self.level()), key=lambda pair: self.cost(*pair))


def fit(bins, model, given, longest):
    """Nugget, sill and range, fitted to bins: those given stay. The range is sought such that the model reaches its top, or 95 in a hundred of its rise,
    between the first bin and the longest distance."""
    def at(span):
        best = Best(bins, model, given, span)
        pair = best.numbers()
        return best.cost(*pair), pair
    span = given.range if given.range is not None else search(lambda span: at(span)[0], bins[0].distance / REACH[model], longest / REACH[model])
    return (*at(span)[1], span)


def search(cost, least, most):
    """The range of the least cost between two: the best of a coarse grid, each so many times the one before, and then closer."""
    if not 0 < least < most:
        return most
    ratio = (most / least) ** (1 / COARSE)
    ranges = [least * ratio ** i for i in range(COARSE)] + [most]
    costs = [cost(span) for span in ranges]
    best = next(i for i, each in enumerate(costs) if each <= min(costs) * ROUNDING)  # the shortest of those that are alike
    closer = golden(cost, ranges[max(best - 1, 0)], ranges[min(best + 1, COARSE)])
    return closer if cost(closer) * ROUNDING < costs[best] else ranges[best]


def golden(cost, low, high):
    a, b = high - GOLDEN * (high - low), low + GOLDEN * (high - low)
    ya, yb = cost(a), cost(b)
    for _ in range(STEPS):
        if ya <= yb:
            high, b, yb = b, a, ya
            a = high - GOLDEN * (high - low)
            ya = cost(a)
        else:
            low, a, ya = a, b, yb
            b = low + GOLDEN * (high - low)
            yb = cost(b)
    return (low + high) / 2
