"""Interpolations that are refused. The number that each has to give stands here, apart from the reading's."""
import math

from tools.generators.interpolator_case import Case, enough
from tools.generators.refused import Refusals, changes, edited, shorts, too_short
from tools.reading import edges
from tools.reading.interpolator import UNIVERSAL, Areas, tests

BASE = edges.QUERY
FAR = 2**64 - 1
# lists at their limits, of which what stood in them stays
MANY_WELLS = edges.edit(values=lambda call: (call.values + edges.spread(97))[:97], coords=lambda call: (call.coords + edges.spread(194))[:194])
MANY_TARGETS = edges.edit(targets=lambda call: (call.targets + edges.spread(202))[:202])
EDITS = {
    **edges.QUERY_EDITS,
    13: [edges.edit(d=4), edges.edit(d=0), edges.edit(d=FAR), edges.edit(d=1, kind=UNIVERSAL), edges.edit(d=4, kind=UNIVERSAL)],
    9: [MANY_WELLS, MANY_TARGETS],
}
# the areas by which 18 and 17 may be too short: figures, variances; work
WAYS = {**changes(EDITS), 17: too_short([2]), 18: too_short([0, 1])}
QUERIES = Refusals(edges.QUERY_ORDER, WAYS, {11: WAYS[11][-1]}, set())


def lent(query, short):
    return Areas(*(length - (place in short) for place, length in enumerate(enough(query))))


def applies(query, areas):
    """The numbers of the tests that apply."""
    return {number for number, test in tests(query, areas._replace(**{name: [0.0] * length for name, length in areas._asdict().items()})) if test}


def undone(query):
    """The numbers that cannot apply beside an earlier one: no list is odd with one dimension, and a range that is infinite by 11 is above zero."""
    return {2 if query.d == 1 else 13, 12 if query.variogram.range == math.inf else 13}


def listed(combinations):
    for first, numbers, ways in combinations:
        query = edited(BASE, ways)
        areas = lent(query, shorts(ways))
        # with no dimension there is no m, and with the greatest there is no target
        assert query.d in (0, FAR) or set(numbers) <= applies(query, areas) | undone(query), (numbers, query)
        yield Case(query, areas, number=first)


def other_lists():
    """Lists of another dimension's length, far longer ones and none at all, and areas of the other type's size."""
    none, line, space = Areas(0, 0, 0), BASE._replace(d=1), BASE._replace(d=3, coords=edges.spread(12), targets=edges.spread(6))
    yield Case(line, none, number=1)
    yield Case(BASE._replace(d=3), none, number=1)
    yield Case(BASE._replace(d=3, coords=edges.spread(12)), none, number=2)
    yield Case(BASE._replace(values=[], targets=[1.0]), none, number=1)
    yield Case(BASE._replace(values=[], coords=[], targets=[1.0]), none, number=2)
    yield Case(space._replace(values=edges.spread(300), coords=edges.spread(900)), none, number=9)
    yield Case(space._replace(targets=edges.spread(900)), none, number=9)
    yield Case(BASE, none, number=17)
    yield Case(BASE, Areas(0, 0, 50), number=18)
    # as much as Ordinary has to have, and Universal has not
    yield Case(BASE._replace(kind=UNIVERSAL), Areas(2, 2, 50), number=17)
    yield Case(BASE._replace(kind=UNIVERSAL), Areas(2, 2, 127), number=17)
    # no point: one row, or four
    yield Case(BASE._replace(values=[], coords=[]), Areas(2, 2, 1), number=17)
    yield Case(BASE._replace(values=[], coords=[]), Areas(2, 1, 2), number=18)
    yield Case(BASE._replace(values=[], coords=[], kind=UNIVERSAL), Areas(2, 2, 31), number=17)
    yield Case(space, Areas(2, 1, 50), number=18)
    yield Case(space, Areas(1, 2, 50), number=18)


def refused_cases():
    """Without the number that came later: its cases stand by themselves."""
    yield from listed(QUERIES.without(22).combined())
    yield from other_lists()


def refused_by_spots():
    """Those in which 22 takes part: by it, and by an earlier number beside it."""
    yield from listed(QUERIES.combined_with(22))
