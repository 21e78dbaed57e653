"""The interpolator and the semivariogram."""
import ctypes
from enum import IntEnum
from typing import NamedTuple

from nakwemol import calls
from nakwemol.limits import MOST_BINS, MOST_NODES, MOST_WELLS
from nakwemol.lists import flat, table
from nakwemol.refused import unless_0
from nakwemol.variogram import Variogram

MOST_TERMS = 4


class KrigingType(IntEnum):
    ORDINARY = 1
    UNIVERSAL = 2


class KrigingResult(NamedTuple):
    """The value at each target, and its variance."""

    values: list
    variances: list


class Semivariogram(NamedTuple):
    """Of each bin that has a pair, by rising distance: its middle, the average over its pairs, and how many there are."""

    distances: list
    semivariances: list
    counts: list


def points_of(points, dimension):
    """The points one after another, and how many numbers each has: `dimension`, or the length of the rows."""
    numbers, width = table(points, "points")
    if dimension is None and width is None:
        raise ValueError("points without rows need a dimension")
    if None not in (dimension, width) and dimension != width:
        raise ValueError(f"points has rows of {width}, and not of {dimension}")
    return numbers, width if dimension is None else dimension


class KrigingInterpolator(NamedTuple):
    kriging_type: int
    variogram: Variogram

    def interpolate(self, points, values, targets, dimension=None):
        """The values at targets, from those at points. A list without rows needs the dimension. Raises Refused."""
        points, d = points_of(points, dimension)
        values, targets = flat(values, 1, "values"), flat(targets, d, "targets")
        m = min(len(targets) // d, MOST_NODES) if d > 0 else 0
        work, figures, variances = map(calls.area, (2 * (min(len(values), MOST_WELLS) + MOST_TERMS) ** 2, m, m))
        unless_0(calls.call(
            "nakwemol_interpolate",
            *map(calls.numbers, (values, points, targets)),
            calls.count(d),
            calls.code(self.kriging_type),
            *self.variogram.handed(),
            work,
            figures,
            variances,
        ))
        return KrigingResult(list(figures), list(variances))


class SemivariogramCalculator:
    @staticmethod
    def calculate(points, values, n_bins, dimension=None):
        """The semivariogram of points with a value at each. A list without rows needs the dimension. Raises Refused."""
        points, d = points_of(points, dimension)
        bins = min(max(n_bins, 0), MOST_BINS)
        distances, semivariances, counts, kept = calls.area(bins), calls.area(bins), (ctypes.c_size_t * bins)(), ctypes.c_size_t()
        unless_0(calls.call(
            "nakwemol_semivariogram",
            *map(calls.numbers, (points, flat(values, 1, "values"))),
            calls.count(d),
            calls.count(n_bins),
            distances,
            semivariances,
            counts,
            ctypes.byref(kept),
        ))
        return Semivariogram(*(list(area)[:kept.value] for area in (distances, semivariances, counts)))
