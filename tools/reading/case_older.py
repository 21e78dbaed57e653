"""Interpolations and a semivariogram that are small enough to be computed by a proof."""
from unittest.mock import patch

from tools.generators.calls import Calculate, Interpolate
from tools.reading import case_text, interpolator, semivariogram
from tools.reading.floats import clamped, running_sum
from tools.reading.interpolator import ORDINARY, UNIVERSAL, Query
from tools.reading.outcomes import of_query, of_samples
from tools.reading.semivariogram import Samples
from tools.reading.variogram import SPHERICAL, Variogram, distance

MODEL = Variogram(SPHERICAL, 0.25, 1.25, 8.0)
PLANE = Query(
    kind=UNIVERSAL,
    d=2,
    values=[2.0, 5.0, 3.5, 1.0],
    coords=[1.0, 2.0, 4.0, 6.0, 4.0, 2.0, 7.0, 6.0],
    targets=[7.0, 2.0, 1.0, 6.0],
    variogram=MODEL,
)
SPACE = PLANE._replace(
    d=3,
    coords=[1.0, 2.0, 0.5, 4.0, 6.0, 1.5, 4.0, 2.0, 3.0, 7.0, 6.0, -1.0],
    targets=[7.0, 2.0, 1.0, 1.0, 6.0, 2.5],
)
LINE = Query(kind=ORDINARY, d=1, values=[2.0, 5.0], coords=[1.0, 4.0], targets=[2.0, 3.5], variogram=MODEL)
BINS = Samples(d=2, values=[1.0, 4.0, 2.0, 8.0], coords=[0.0, 0.0, 6.0, 8.0, 6.0, 0.0, 1.5, 0.0], bins=5)


def changed(call, outcome_of, module, name, other):
    with patch.object(module, name, other):
        return outcome_of(call)


def wrong_drift(query, name, terms):
    """A Universal query whose columns are made of other terms, under its name."""
    return {name: changed(query, of_query, interpolator, "drift_row", lambda query, point: terms(*point))}


def first_two_exchanged(method):
    def exchanged(self, i):
        x, y, *rest = method(self, i)
        return [y, x, *rest]

    return exchanged


def from_zero(sill, z, b):
    return clamped(running_sum(-(x * y) for x, y in zip(z, b)))


def variogram_entries(query, a, b):
    return query.variogram.evaluate(distance(a, b))


def first_for_all(outcome, name):
    return {**outcome, name: [outcome[name][0]] * len(outcome[name])}


def wrong_queries(query):
    """Those that every query can tell."""
    right = of_query(query)
    return {
        "every target gets target 1's figure": first_for_all(right, "figures"),
        "every target gets target 1's variance": first_for_all(right, "variances"),
        "values reversed in the figure": of_query(query._replace(values=query.values[::-1])),
        "variance started at 0": changed(query, of_query, interpolator, "variance_of", from_zero),
        "entries are the variogram": changed(query, of_query, interpolator, "covariance", variogram_entries),
    }


def wrong_universals(query):
    """Those of the trend's columns."""
    return {
        **wrong_drift(query, "xy read as x·x", lambda x, y, *_: [1.0, x, y, x * x]),
        **wrong_drift(query, "xy read as y·y", lambda x, y, *_: [1.0, x, y, y * y]),
        **wrong_drift(query, "x and y exchanged in the columns of points and targets", lambda x, y, *_: [1.0, y, x, y * x]),
        "x and y of the targets exchanged": changed(query, of_query, Query, "target", first_two_exchanged(Query.target)),
        "x and y of the points exchanged": changed(query, of_query, Query, "point", first_two_exchanged(Query.point)),
    }


def wrong_spaces(query):
    """Those of the third axis."""
    def plane(a, b):
        return distance(a[:2], b[:2])

    return {
        "third axis left out of the distance": changed(query, of_query, interpolator, "distance", plane),
        **wrong_drift(query, "third axis for the second in the columns", lambda x, y, z: [1.0, x, z, x * z]),
        **wrong_drift(query, "xy read as x·z", lambda x, y, z: [1.0, x, y, x * z]),
    }


def print_query(query, *wrong):
    outcome = of_query(query)
    v = query.variogram
    fields = {"kind": query.kind, "d": query.d, "values": query.values, "coords": query.coords, "targets": query.targets}
    case_text.fields("inputs", {**fields, "model": v.model, "nugget": v.nugget, "sill": v.sill, "range": v.range, "same_spot": v.same_spot})
    case_text.fields("expected", outcome)
    case_text.on_the_way(interpolator.assembled(query), [interpolator.right_hand_side(query, q) for q in range(query.m)])
    words = Interpolate(*query[:5], tuple(v)).words()
    case_text.agrees(words, case_text.ok(query.m, outcome["figures"], outcome["variances"]))
    case_text.wrong(outcome, {**wrong_queries(query), **{name: other for readings in wrong for name, other in readings.items()}})


def print_queries():
    case_text.title("interpolation 1: Ordinary, one axis, two points, two targets (s = 3)")
    print_query(LINE)
    case_text.title("interpolation 2: Universal, two axes, four points, two targets (s = 8)")
    print_query(PLANE, wrong_universals(PLANE))
    case_text.title("interpolation 3: Universal, three axes, four points, two targets (s = 8)")
    print_query(SPACE, wrong_universals(SPACE), wrong_spaces(SPACE))


def rounded_bin(h, width, bins):
    return min(round(h / width), bins - 1)


def rounded_up_bin(h, width, bins):
    return min(max(-int(-h // width) - 1, 0), bins - 1)


def above_dropped(h, width, bins):
    return int(h // width)


def axis_after_axis(self, i):
    return [self.coords[axis * self.n + i] for axis in range(self.d)]


def whole_squares(samples):
    return [(h, 2.0 * half) for h, half in pairs_as_they_are(samples)]


pairs_as_they_are = semivariogram.pairs


def kept_otherwise(at=lambda i, width: (i + 0.5) * width, average=lambda halves: running_sum(halves) / len(halves), count=len):
    return lambda i, width, halves: (at(i, width), average(halves), count(halves))


def wrong_bins(samples):
    def instead(name, other):
        return changed(samples, of_samples, semivariogram, name, other)

    def kept(**parts):
        return instead("kept_bin", kept_otherwise(**parts))

    return {
        "1.5·i·width for (i + 0.5)·width": kept(at=lambda i, width: 1.5 * i * width),
        "i·width": kept(at=lambda i, width: i * width),
        "bin by rounding": instead("bin_of", rounded_bin),
        "bin by rounding up": instead("bin_of", rounded_up_bin),
        "the greatest distance in no bin": instead("bin_of", above_dropped),
        "the square not halved": instead("pairs", whole_squares),
        "the sum not divided": kept(average=lambda halves: running_sum(halves)),
        "divided by all pairs": kept(average=lambda halves: running_sum(halves) / 6),
        "each pair counted twice": kept(count=lambda halves: 2 * len(halves)),
        "width over one bin less": instead("width_of", lambda taken, bins: max(h for h, _ in taken) / (bins - 1)),
        "coordinates read axis after axis": changed(samples, of_samples, Samples, "point", axis_after_axis),
    }


def print_bins():
    case_text.title("semivariogram: two axes, four samples, five bins, the second of them empty")
    outcome = of_samples(BINS)
    case_text.fields("inputs", BINS._asdict())
    case_text.fields("expected", outcome)
    assert outcome["kept"] == [4] and sum(outcome["counts"]) == 6
    case_text.agrees(Calculate(*BINS).words(), case_text.ok(4, outcome["distances"], outcome["semivariances"]))
    case_text.wrong(outcome, wrong_bins(BINS))


def print_all():
    print_queries()
    print_bins()
