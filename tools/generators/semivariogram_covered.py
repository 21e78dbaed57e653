"""What the stored semivariograms have to have among them: the generator stops where one is missing."""
import math

from tools.reading.floats import div
from tools.reading.semivariogram import pairs, width_of

NUMBERS = {0, 1, 9, 11, 13, 14, 15, 18}


def quotients(samples):
    """What becomes of the pairs' distances: their quotients with the width, each with the distance and the width."""
    taken = list(pairs(samples))
    width = width_of(taken, samples.bins)
    return [(div(h, width), h, width) for h, _ in taken]


def placed(samples):
    """Where the quotients lie."""
    for q, h, width in quotients(samples):
        if q != q:
            yield "0 / 0" if width == 0.0 else "inf / inf"
        elif width == math.inf:
            yield "over an infinite width"
        elif q >= samples.bins:
            yield "at the last edge" if q == samples.bins else "above the last edge"
        elif q == math.floor(q):
            yield "on an edge" if q else "at zero"
        elif math.ceil(q) - q < 1e-12:
            yield "below the last edge" if math.ceil(q) == samples.bins else "just below an edge"


def covered(all_ended):
    answered = [ended for ended in all_ended if ended.number == 0]
    samples = [ended.case.samples for ended in answered]
    assert {ended.number for ended in all_ended} == NUMBERS
    assert {s.bins for s in samples} == {*range(1, 65)} and {s.n for s in samples} == {*range(2, 97)}
    assert {(s.d, s.bins) for s in samples} >= {(d, bins) for d in (1, 2, 3) for bins in (1, 5, 64)} and {(s.n, s.bins) for s in samples} >= {(48, 1), (48, 64)}
    places = {place for s in samples for place in placed(s)}
    # the greatest distance over the width is the number of bins, or beside it by rounding
    last = {"below the last edge", "at the last edge", "above the last edge"}
    assert places == {"0 / 0", "inf / inf", "over an infinite width", "at zero", "on an edge", "just below an edge"} | last, places
    assert any(width == 0.0 for s in samples for _, _, width in quotients(s)) and any(width == math.inf for s in samples for _, _, width in quotients(s))
    averages = [x for ended in answered for x in ended.areas.semivariances[:ended.kept]]
    assert math.inf in averages and 0.0 in averages and any(0.0 < x < 2.0**-1022 for x in averages)
    assert {ended.kept for ended in answered} >= {1, 2, 10, 64} and any(ended.kept < ended.case.samples.bins for ended in answered)
    # every pair in one bin: 48 samples and 96
    assert all(any(most in ended.areas.counts[:ended.kept] for ended in answered) for most in (1128, 4560))
    assert {length - ended.case.samples.bins for ended in answered for length in ended.case.lent} == {0, 1, 2, 3}
