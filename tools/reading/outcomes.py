"""Whole outcomes of the reading, by name, and what differs between two of them."""
from tools.patterns import bits, word
from tools.reading import fit, interpolator, semivariogram
from tools.reading.lent import area, fit_lengths, query_lengths


def of_fit(survey):
    areas = fit.Areas(*map(area, fit_lengths(survey)))
    return {"number": [fit.fit(survey, areas)], **areas._asdict()}


def of_query(query):
    areas = interpolator.Areas(*map(area, query_lengths(query)))
    return {"number": [interpolator.interpolate(query, areas)], **areas._asdict()}


def of_samples(samples):
    areas = semivariogram.Areas(*(area(samples.bins) for _ in range(3)))
    number, kept = semivariogram.calculate(samples, areas)
    return {"number": [number], "kept": [kept], **{name: lent[:kept] for name, lent in areas._asdict().items()}}


def shown(x):
    return word(bits(x)) if isinstance(x, float) else str(x)


def differing(one, other):
    """The names under which two outcomes differ, bit for bit."""
    return [name for name in one if list(map(shown, one[name])) != list(map(shown, other[name]))]
