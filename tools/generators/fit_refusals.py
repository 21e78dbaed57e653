"""Fits that are refused, each number at its edges: alone, together with each later one, and together with all later ones at once. The number that
each has to give stands here, apart from the reading's."""
from tools.generators.fit_case import LONGEST, NOTHING, Case, enough, lengths_of
from tools.reading import edges
from tools.reading.survey import Survey

BASE = edges.survey()
# the areas by which 18 and 17 may be too short: figures, variances, verdicts, weights, multipliers, trend; work
TREND = 5
SHORTS = {17: [6], 18: [0, 1, 2, 3, 4, TREND]}
WAYS = {
    **{number: [(change, None) for change in changes] for number, changes in edges.FIT_EDITS.items()},
    **{number: [(lambda call: call, place) for place in places] for number, places in SHORTS.items()},
}


def shortened(survey, shorts):
    """Areas as long as they have to be, but for one number less of those that are too short; of a survey beyond all limits, as long as there are any."""
    lengths = map(min, enough(survey), LONGEST)
    return Case(survey, lengths_of(length - (place in shorts) for place, length in enumerate(lengths)))


def refused(first, *ways):
    """The case of some ways, of which the first one counts: it is made last, so that no other can undo it."""
    survey = BASE
    for change, _ in reversed(ways):
        survey = change(survey)
    return shortened(survey, {place for _, place in ways if place is not None})._replace(number=first)


def pairs(order):
    """Each number alone, and with each later one: the numbers that apply, and the case."""
    for at, first in enumerate(order):
        for way in WAYS[first]:
            yield [first], refused(first, way)
            yield from (([first, later], refused(first, way, WAYS[later][0])) for later in order[at + 1:])


def at_once(order):
    """A number together with all later ones: what is not finite is the variogram's, which no other way undoes."""
    last = {11: WAYS[11][-1]}
    for at, first in enumerate(order):
        yield order[at:], refused(first, *(last.get(number, WAYS[number][0]) for number in order[at:]))


def short_trends(order):
    """The trend's area too short, together with each earlier number but 3, without columns: it is not looked at before the others."""
    for first in order[:-1]:
        if first != 3:
            yield [first, 18], refused(first, WAYS[first][0], (lambda call: call, TREND))


def combined(order):
    yield from pairs(order)
    yield from at_once(order)
    yield from short_trends(order)


def long_lists():
    """Lists far longer than the limits, and none at all."""
    yield Case(edges.survey(n=300, m=2), NOTHING, number=9)
    yield Case(edges.survey(n=3, m=300), NOTHING, number=9)
    yield Case(edges.survey(n=40, codes=[3] * 7), NOTHING, number=7)
    yield Case(edges.survey(n=42, codes=[3] * 7), NOTHING, number=9)
    yield Case(Survey([], [], [], [], [], [], edges.MODEL, 0.0, 0.0), NOTHING, number=3)
    # no columns, and yet areas for them
    yield Case(edges.survey()._replace(codes=[]), LONGEST, number=3)
    yield Case(Survey([], [], [1], [], [], [], edges.MODEL, 0.0, 0.0), NOTHING, number=7)
    # externals where no code takes them, and node externals, which then count for nothing
    yield shortened(edges.survey(codes=[1])._replace(external=[1.0]), ())._replace(number=6)
    yield Case(edges.survey(), NOTHING, number=17)


def refused_cases():
    """Without the numbers that came later: the cases of those stand by themselves."""
    yield from (case for _, case in combined([number for number in edges.FIT_ORDER if number != 22]))
    yield from long_lists()


def refused_by_spots():
    """Those in which 22 takes part: by it, and by an earlier number beside it."""
    yield from (case for numbers, case in combined(edges.FIT_ORDER) if 22 in numbers)
