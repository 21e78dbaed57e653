"""What the stored fits have to have among them: the generator stops where one is missing."""
import math

from tools.patterns import bits
from tools.reading.elimination import beside_identity, eliminate
from tools.reading.fit import assembled, drift, node_drift
from tools.reading.floats import all_finite, div
from tools.reading.variogram import EXPONENTIAL, GAUSSIAN, distance

NUMBERS = {0, *range(1, 13), 17, 18, 19, 22}


def node_causes(ended, columns, q):
    """Which of weights, F, f0 and figure are not all finite at a node."""
    survey, areas = ended.case.survey, ended.areas
    n = survey.n
    parts = {"weight": areas.weights[q * n:(q + 1) * n], "F": columns, "f0": node_drift(survey, q), "figure": [areas.figures[q]]}
    return frozenset(name for name, xs in parts.items() if not all_finite(xs))


def causes(ended):
    columns = [x for row in drift(ended.case.survey) for x in row]
    return {node_causes(ended, columns, q) for q in range(ended.case.survey.m)}


def stop(ended):
    """Where the steps stop: the first, the last or one on the way."""
    size = ended.case.survey.s
    step = eliminate(beside_identity(assembled(ended.case.survey)), skip_zero=True)
    return "first" if step == 0 else "last" if step == size - 1 else "middle"


def powers(survey):
    """What u of e^−u is at the wells and nodes of a survey, in the models that have it."""
    v, wells = survey.variogram, [survey.well(i) for i in range(survey.n)]
    apart = {distance(a, b) for a in wells for b in [*wells, *map(survey.node, range(survey.m))]}
    reach = v.range if v.model == EXPONENTIAL else v.range * v.range
    return {div(h if v.model == EXPONENTIAL else h * h, reach) for h in apart if h >= v.same_spot}


def covered_powers(surveys, model):
    """Of one of these models: u below 2^-57, between any two whole numbers up to 36, past it and infinite; of Gaussian a range of 0, and u a NaN."""
    taken = [survey for survey in surveys if survey.variogram.model == model]
    us = set().union(*map(powers, taken))
    assert math.inf in us and any(0.0 <= u < 2.0**-57 for u in us) and any(35.0 < u < 1e300 for u in us)
    assert {*range(0, 36)} <= {math.floor(u) for u in us if u < 36.0}
    assert min(v.variogram.range for v in taken if v.variogram.range > 0.0) == 5e-324
    assert model == EXPONENTIAL or ({bits(0.0), bits(-0.0)} <= {bits(v.variogram.range) for v in taken} and any(u != u for u in us))


def covered(all_ended):
    answered = [ended for ended in all_ended if ended.number == 0]
    surveys = [ended.case.survey for ended in answered]
    assert {ended.number for ended in all_ended} == NUMBERS
    assert {v for ended in answered for v in ended.areas.verdicts[:ended.case.survey.m]} == {*range(14), 255}
    assert {(s.variogram.model, s.k) for s in surveys} >= {(model, k) for model in (1, 2, 3, 4) for k in range(4)}
    assert {*range(1, 49)} <= {s.n for s in surveys} and {0, 100} <= {s.m for s in surveys} and {*range(1, 13)} <= {s.p for s in surveys}
    for model in (EXPONENTIAL, GAUSSIAN):
        covered_powers(surveys, model)
    by = set().union(*map(causes, answered))
    # an entry of f0 that is not finite leaves no weight finite
    assert {frozenset(cause) for cause in (["F"], ["figure"], ["weight", "figure"], ["f0", "weight", "figure"])} <= by, by
    assert {stop(ended) for ended in all_ended if ended.number == 19 and ended.case.whole} == {"first", "middle", "last"}
