"""Semivariograms that are refused. The number that each has to give stands here, apart from the reading's."""
from tools.generators.refused import Refusals, changes, edited, shorts, too_short
from tools.generators.semivariogram_case import Case, enough
from tools.reading import edges
from tools.reading.semivariogram import Areas, Samples, tests

BASE = Samples(2, edges.spread(4), edges.spread(8), 5)
FAR = 2**64 - 1
EDITS = {
    **edges.SAMPLES_EDITS,
    13: [edges.edit(d=4), edges.edit(d=0), edges.edit(d=FAR)],
    # what stood first in the lists stays
    14: [edges.edit(values=lambda call: call.values[:1], coords=lambda call: call.coords[:2]), edges.edit(values=[], coords=[])],
    15: [edges.edit(bins=65), edges.edit(bins=0), edges.edit(bins=FAR)],
    9: [edges.edit(values=lambda call: (call.values + edges.spread(97))[:97], coords=lambda call: (call.coords + edges.spread(194))[:194])],
}
WAYS = {**changes(EDITS), 18: too_short([0, 1, 2])}
# what is not finite stands first of the values; fewer than 2 samples are not more than 96
SAMPLES = Refusals(edges.SAMPLES_ORDER, WAYS, {11: changes({11: edges.spoilt("values", 0)})[11][0]}, {(14, 9)})


def lent(samples, short):
    return Areas(*(max(0, length - (place in short)) for place, length in enumerate(enough(samples))))


def applies(samples, areas):
    """The numbers of the tests that apply."""
    return {number for number, test in tests(samples, Areas(*([0.0] * length for length in areas))) if test}


def listed():
    for first, numbers, ways in SAMPLES.combined():
        samples = edited(BASE, ways)
        areas = lent(samples, shorts(ways))
        # of no sample none is not finite, and for no bin no area is too short
        never = {11} if not samples.values else {18} if samples.bins == 0 else set()
        assert set(numbers) - never <= applies(samples, areas), (numbers, samples)
        yield Case(samples, areas, number=first)


def other_lists():
    """Lists of another dimension's length, far longer ones and none at all, and areas for as many bins as would be kept."""
    none = Areas(0, 0, 0)
    yield Case(BASE._replace(d=1), none, number=1)
    yield Case(BASE._replace(d=3), none, number=1)
    yield Case(BASE._replace(values=[]), none, number=1)
    yield Case(BASE._replace(values=[], coords=[], bins=0), none, number=14)
    yield Case(BASE._replace(values=edges.spread(300), coords=edges.spread(600), bins=0), none, number=15)
    yield Case(BASE._replace(values=edges.spread(300), coords=edges.spread(600)), none, number=9)
    yield Case(BASE._replace(d=3, values=edges.spread(300), coords=edges.spread(900)), none, number=9)
    yield Case(BASE, none, number=18)
    # one pair: one bin is kept of five, and each area has to have room for five
    pair = Samples(1, [1.0, 2.0], [0.0, 1.0], 5)
    yield from (Case(pair, Areas(*lengths), number=18) for lengths in ((1, 1, 1), (4, 5, 5), (5, 4, 5), (5, 5, 4), (1, 5, 5), (5, 5, 1)))


def refused_cases():
    yield from listed()
    yield from other_lists()
