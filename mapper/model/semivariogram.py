"""The semivariogram of the wells, worked out by the proved call."""
import math

from mapper.errors import Refused
from mapper.records import Bin
from mapper.runs.library_calls import library_calls

MOST_BINS = 16
PAIRS_A_BIN = 10
LEAST_BINS = 4     # where there are as many pairs
NEARER = 0.5       # of the greatest distance: pairs farther apart say little, so that the model is fitted to the nearer ones
LEAST_FITTED = 3
NO_COMPILER = 'Install one, or give --nugget, --sill and --range yourself.'


def bin_count(wells):
    """How many bins: some ten pairs in each, as far as the wells go."""
    pairs = wells * (wells - 1) // 2
    return min(MOST_BINS, max(pairs // PAIRS_A_BIN, min(pairs, LEAST_BINS), 1))


def greatest_distance(wells):
    return max((math.hypot(a.x - b.x, a.y - b.y) for a in wells for b in wells), default=0.0)


def bins_of(wells, levels, tell, progress=False):
    """The bins of these levels at the wells. Raises Refused."""
    _, nakwemol = library_calls(tell, progress, NO_COMPILER)
    try:
        found = nakwemol.SemivariogramCalculator.calculate([(well.x, well.y) for well in wells], levels, bin_count(len(wells)))
    except nakwemol.Refused as refused:
        raise Refused(refused.number)
    bins = [Bin(*each) for each in zip(found.distances, found.semivariances, found.counts)]
    nearer = NEARER * greatest_distance(wells)
    for each in bins[LEAST_FITTED:]:
        each.used = each.distance <= nearer
    return bins
