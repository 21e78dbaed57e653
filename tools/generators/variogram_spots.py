"""Variograms with a same-spot distance of their own: any field at all, distances beside it, every model; and what they have to tell."""
import math
import random

from tools.generators.spots import MODELS, beside
from tools.patterns import bits, value
from tools.reading.variogram import LINEAR, Variogram
from tools.reading.wrong_spots import EVALUATED

LEAST, GREATEST = 2.0**-52, 1.7976931348623157e308
# those that a fit takes, and those that it refuses: `evaluate` alone answers to both
TAKEN = [LEAST, math.nextafter(LEAST, 1.0), 1e-3, 0.5, 1.0, 7.5, 1e300, GREATEST]
REFUSED = [math.nextafter(LEAST, 0.0), 5e-324, 0.0, -0.0, -5e-324, -LEAST, -1e-3, -1.0, -GREATEST, math.inf, -math.inf, math.nan]
# distances that every field is tried with
COMMON = [*beside(LEAST), 0.0, -0.0, 1e-3, 0.75, 1e200, GREATEST, -1.0, math.inf, -math.inf, math.nan]
# nugget, sill and range: as they are, nugget above sill, ranges below the field, zero and below zero
USUAL = (0.25, 1.5, 8.0)
OTHERS = [(2.0, 0.5, 0.4), (0.5, 2.0, 0.0), (0.1, 3.0, 1e-4), (1.0, -0.5, 2.0), (0.0, 1.0, -3.0)]


def distances(field):
    """Beside the field and at it, on both sides of it, and those of every field."""
    return [*beside(field), field / 2, field * 2, *COMMON]


def called():
    """The model, nugget, sill, range, h and the field: first Linear 0, 1, 1, where the variogram is the distance."""
    draw = random.Random("nakwemol variogram, one yard")
    yield from ((LINEAR, 0.0, 1.0, 1.0, h, 0.5) for h in beside(0.5))
    for model in MODELS:
        for field in TAKEN + REFUSED:
            yield from ((model, *USUAL, h, field) for h in distances(field))
        for field in TAKEN:
            yield from ((model, *draw.choice(OTHERS), h, field) for h in distances(field)[:5])


def spot_calls():
    """The model and the patterns of the five numbers, none of them twice."""
    return list(dict.fromkeys((model, *map(bits, numbers)) for model, *numbers in called()))


def told_apart(call):
    """The other sentences that a call tells from the paper's."""
    model, *patterns = call
    nugget, sill, span, h, field = map(value, patterns)
    variogram = Variogram(model, nugget, sill, span, field)
    right = bits(variogram.evaluate(h))
    return {name for name, other in EVALUATED.items() if bits(other(variogram, h)) != right}


def covered(calls, answers):
    """Stops where one of these is missing: of Linear 0, 1, 1 with field 0.5 the three answers by name; of each model each field with the distances beside
    it, and one that is not finite, or a NaN, with those that are; every other sentence."""
    told = dict(zip(calls, answers))
    line = [told[LINEAR, *map(bits, (0.0, 1.0, 1.0, h, 0.5))] for h in beside(0.5)]
    assert line == [bits(0.0), *map(bits, beside(0.5)[1:])], line
    tried = {(model, h, field) for model, _, _, _, h, field in calls}
    usual = {(bits(h), bits(field)) for field in (1e-3, 0.5, 1.0, 1e300, 0.0, -1.0) for h in beside(field)}
    odd = {(bits(h), bits(field)) for field in (math.inf, math.nan) for h in (0.0, 1e-3, GREATEST, math.inf, math.nan)}
    assert tried >= {(model, *pair) for model in MODELS for pair in usual | odd}
    assert set().union(*map(told_apart, calls)) == set(EVALUATED)
