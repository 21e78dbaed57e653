"""Every refusal at its edges: the orders of the calls' numbers, and edits that put one thing wrong. Literal expectations, apart from the reading's."""
import math

from tools.reading.interpolator import ORDINARY, UNIVERSAL, Query
from tools.reading.semivariogram import Samples
from tools.reading.survey import COLUMNS, Survey
from tools.reading.variogram import Variogram

TINY, GREATEST = 5e-324, 1.7976931348623157e308
ODD = [math.nan, math.inf, -math.inf]
MODEL = Variogram(1, 0.25, 1.25, 8.0)
FIT_ORDER = [1, 2, 3, 4, 5, 6, 7, 8, 9, 10, 11, 22, 12, 17, 18]
QUERY_ORDER = [13, 1, 2, 9, 11, 22, 12, 17, 18]
SAMPLES_ORDER = [13, 1, 14, 15, 9, 11, 18]
WRITER_ORDER = [1, 2, 6, 8, 11, 22, 16, 18]
# the least same-spot distance that a fit takes, and the only one that a writer does; the f64 below it and the one above
LEAST_SPOT = 2.0**-52
BELOW_LEAST, ABOVE_LEAST = math.nextafter(LEAST_SPOT, 0.0), math.nextafter(LEAST_SPOT, 1.0)
WRONG_SPOTS = [0.0, BELOW_LEAST, -0.0, TINY, -1.0, -LEAST_SPOT, -GREATEST, *ODD]
TAKEN_SPOTS = [LEAST_SPOT, ABOVE_LEAST, 1e-3, 0.5, 1.0, GREATEST]
OTHER_SPOTS = [1.0, ABOVE_LEAST, 1e-3, 0.5, GREATEST, *WRONG_SPOTS]


def spread(count):
    return [float(7 * i % 101) for i in range(count)]


def survey(n=4, m=2, codes=(1, 4)):
    k = codes.count(4)
    return Survey(spread(n), spread(2 * n), list(codes), spread(k * n), spread(2 * m), spread(k * m), MODEL, 1e-10, 0.0)


QUERY = Query(ORDINARY, 2, spread(4), spread(8), spread(4), MODEL)
SAMPLES = Samples(2, spread(4), spread(8), 5)


def edit(**fields):
    """An edit that sets fields: to what is given, or to what a function makes of the call."""
    return lambda call: call._replace(**{name: to(call) if callable(to) else to for name, to in fields.items()})


def longer(name, by=1):
    return edit(**{name: lambda call: getattr(call, name) + [1.0] * by})


def shorter(name):
    """A number less, or one where there is none."""
    return edit(**{name: lambda call: getattr(call, name)[:-1] if getattr(call, name) else [1.0]})


def spoilt(name, place=-1):
    """Edits that put what is not finite into a list."""
    def spoil(bad):
        return edit(**{name: lambda call: [bad if i == place % len(getattr(call, name)) else x for i, x in enumerate(getattr(call, name))]})

    return [spoil(bad) for bad in ODD]


def spoilt_variogram():
    return [edit(variogram=lambda call, f=f, b=b: call.variogram._replace(**{f: b})) for f in ("nugget", "sill", "range") for b in ODD]


def spots(distances):
    """Edits of the same-spot distance."""
    return [edit(variogram=lambda call, x=x: call.variogram._replace(same_spot=x)) for x in distances]


def without_range():
    """An Exponential model, the second of the four, whose range is not above zero."""
    return [edit(variogram=lambda call, span=span: call.variogram._replace(model=2, range=span)) for span in (0.0, -0.0, -TINY, -8.0, -1.7e308)]


def grown(**counts):
    """A survey of other counts, with the call's own r, t and variogram."""
    return lambda call: survey(**{"n": call.n, "m": call.m, **counts})._replace(r=call.r, t=call.t, variogram=call.variogram)


def more_columns(call):
    missing = max(0, call.n + 1 - sum(COLUMNS[code] for code in call.codes))
    return call._replace(codes=call.codes + [1] * missing)


LISTS = [e for name in ("values", "coords") for e in spoilt(name) + spoilt(name, 0)]
SURVEY_LISTS = LISTS + [e for name in ("external", "nodes", "node_external") for e in spoilt(name) + spoilt(name, 0)]
FIT_EDITS = {
    1: [longer("coords"), longer("coords", 2), shorter("coords"), edit(coords=[])],
    2: [longer("nodes"), shorter("nodes")],
    3: [edit(codes=[])],
    4: [edit(codes=[1, 4, 0]), edit(codes=[5, 1, 4]), edit(codes=[1, 255, 4])],
    5: [edit(r=r) for r in [-TINY, -1.0, *ODD]],
    6: [longer("external"), shorter("external")],
    7: [more_columns],
    8: [longer("node_external"), shorter("node_external")],
    9: [grown(n=97), grown(m=101), grown(n=20, codes=[3, 3, 4])],
    10: [edit(t=t) for t in [-TINY, -1.0, *ODD]],
    11: SURVEY_LISTS + spoilt_variogram(),
    22: spots(WRONG_SPOTS),
    12: without_range(),
}
QUERY_EDITS = {
    13: [edit(d=0), edit(d=4), edit(d=1, kind=UNIVERSAL)],
    1: [longer("coords"), longer("coords", 2), shorter("coords")],
    2: [longer("targets"), shorter("targets")],
    9: [edit(values=spread(97), coords=spread(194)), edit(targets=spread(202))],
    11: LISTS + spoilt("targets") + spoilt_variogram(),
    22: spots(WRONG_SPOTS),
    12: without_range(),
}
SAMPLES_EDITS = {
    13: [edit(d=0), edit(d=4)],
    1: [longer("coords"), longer("coords", 2), shorter("coords")],
    14: [edit(values=[1.0], coords=[1.0, 2.0]), edit(values=[], coords=[])],
    15: [edit(bins=0), edit(bins=65)],
    9: [edit(values=spread(97), coords=spread(194))],
    11: LISTS,
}
WRITER_EDITS = {
    **{number: FIT_EDITS[number] for number in (1, 2, 6, 8)},
    11: FIT_EDITS[11] + [edit(r=bad) for bad in ODD] + [edit(t=bad) for bad in ODD],
    22: spots(OTHER_SPOTS),
    16: [grown(n=97), grown(m=3000), edit(codes=[1] * 65536 + [4]), grown(n=2500)],
}
