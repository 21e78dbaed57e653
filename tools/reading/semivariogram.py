"""Paper 01, "Semivariogram"."""
import math
from typing import NamedTuple

from tools.reading import refusals
from tools.reading.floats import div, running_sum
from tools.reading.variogram import distance

MOST_BINS = 64


class Samples(NamedTuple):
    d: int
    values: list
    coords: list
    bins: int

    @property
    def n(self):
        return len(self.values)

    def point(self, i):
        return self.coords[i * self.d:(i + 1) * self.d]


class Areas(NamedTuple):
    distances: list
    semivariances: list
    counts: list


def tests(samples, areas):
    """"Semivariogram: 13, 1, 14, 15, 9, 11, 18"."""
    yield 13, samples.d not in (1, 2, 3)
    yield 1, len(samples.coords) != samples.n * samples.d
    yield 14, samples.n < 2
    yield 15, not 1 <= samples.bins <= MOST_BINS
    yield 9, samples.n > refusals.MOST_WELLS
    yield 11, refusals.some_not_finite([*samples.values, *samples.coords])
    yield 18, refusals.too_short([(area, samples.bins) for area in areas])


def pairs(samples):
    """"Pairs i < j in that order; 0.5·(difference)²": the distance and that."""
    for i in range(samples.n):
        for j in range(i + 1, samples.n):
            difference = samples.values[i] - samples.values[j]
            yield distance(samples.point(i), samples.point(j)), 0.5 * (difference * difference)


def bin_of(h, width, bins):
    """"Bin = floor(distance/width), NaN as 0, above the last as the last"."""
    quotient = div(h, width)
    if quotient != quotient:
        return 0
    return bins - 1 if quotient >= bins else math.floor(quotient)


def width_of(taken, bins):
    """"Width = greatest distance / bins"."""
    return div(max(h for h, _ in taken), float(bins))


def kept_bin(i, width, halves):
    """"(i + 0.5)·width, sum/count, and the count"."""
    return (i + 0.5) * width, running_sum(halves) / len(halves), len(halves)


def calculate(samples, areas):
    """A call's number, and how many bins were kept: "Only their places are written; how many is returned"."""
    number = refusals.first(tests(samples, areas))
    if number:
        return number, 0
    taken = list(pairs(samples))
    width = width_of(taken, samples.bins)
    binned = [[half for h, half in taken if bin_of(h, width, samples.bins) == i] for i in range(samples.bins)]
    kept = [kept_bin(i, width, halves) for i, halves in enumerate(binned) if halves]
    for place, (at, average, count) in enumerate(kept):
        areas.distances[place], areas.semivariances[place], areas.counts[place] = at, average, count
    return 0, len(kept)
