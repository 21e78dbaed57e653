"""What the stored interpolations have to have among them: the generator stops where one is missing."""
import math

from tools.generators.interpolator_case import SHAPES
from tools.generators.replay import kind_of
from tools.patterns import bits
from tools.reading.elimination import beside_identity, eliminate, inverse
from tools.reading.fit import solved
from tools.reading.floats import running_sum
from tools.reading.interpolator import assembled, right_hand_side
from tools.reading.variogram import EXPONENTIAL, GAUSSIAN, LINEAR, SPHERICAL, distance

MODELS = (SPHERICAL, EXPONENTIAL, GAUSSIAN, LINEAR)
NUMBERS = {0, 1, 2, 9, 11, 12, 13, 17, 18, 19, 22}


def stop(ended):
    """Where the steps stop: the first, the last or one on the way."""
    step = eliminate(beside_identity(assembled(ended.case.query)), skip_zero=False)
    return "first" if step == 0 else "last" if step == ended.case.query.s - 1 else "middle"


def raw_variances(ended):
    """What the variances are before they are made +0."""
    query = ended.case.query
    rows = beside_identity(assembled(query))
    eliminate(rows, skip_zero=False)
    for q in range(query.m):
        b = right_hand_side(query, q)
        yield running_sum((-(x * y) for x, y in zip(solved(inverse(rows), b), b, strict=True)), start=query.variogram.sill)


def skipped(query):
    """What skipping zero factors would change: the inverse by a NaN, or by the sign of a zero alone; or the steps."""
    told, other = (beside_identity(assembled(query)) for _ in range(2))
    stops = eliminate(told, skip_zero=False), eliminate(other, skip_zero=True)
    if stops[0] != stops[1]:
        return "steps"
    changed = {(kind_of(x), kind_of(y)) for row, others in zip(inverse(told), inverse(other)) for x, y in zip(row, others) if bits(x) != bits(y)}
    return "nan" if any("nan" in pair for pair in changed) else "sign" if changed else "nothing"


def distances(query):
    points = [query.point(i) for i in range(query.n)]
    return {distance(a, b) for i, a in enumerate(points) for b in points[:i]}


def covered(all_ended):
    answered = [ended for ended in all_ended if ended.number == 0]
    stopped = [ended for ended in all_ended if ended.number == 19]
    queries = [ended.case.query for ended in answered]
    assert {ended.number for ended in all_ended} == NUMBERS
    assert {(q.kind, q.d, q.variogram.model) for q in queries} == {(kind, d, model) for kind, d in SHAPES for model in MODELS}
    assert {q.n for q in queries} >= {*range(1, 49)} and {0, 1, 100} <= {q.m for q in queries} and (48, 100) in {(q.n, q.m) for q in queries}
    assert {(ended.case.query.kind, ended.case.query.d) for ended in stopped if ended.case.query.n == 0 and ended.case.whole} == set(SHAPES)
    assert {stop(ended) for ended in stopped if ended.case.whole} == {"first", "middle", "last"}
    assert {(q.kind, q.d) for q in queries if any(q.target(j) == q.point(i) for j in range(q.m) for i in range(q.n))} == set(SHAPES)
    figures = {kind_of(x) for ended in answered for x in ended.areas.figures[:ended.case.query.m]}
    # the sum starts at +0 and so is never minus zero
    assert figures == {"nan", "infinite", "zero", "subnormal", "negative", "positive"}, figures
    raw = {kind_of(x) for ended in answered if ended.case.query.n < 8 for x in raw_variances(ended)}
    assert {"nan", "infinite", "zero", "minus zero", "negative", "positive"} <= raw, raw
    skips = {(q.kind, skipped(q)) for q in queries if q.n < 8}
    assert {(kind, change) for kind in (1, 2) for change in ("nothing", "sign")} | {(2, "nan"), (2, "steps")} <= skips, skips
    assert any(math.inf in distances(q) for q in queries)
    # two points this close to each other are one to the variogram
    assert any(0.0 < h < 2.0**-52 for ended in stopped for h in distances(ended.case.query))
    variograms = [q.variogram for q in queries]
    assert {bits(v.sill) for v in variograms} >= {bits(0.0), bits(-0.0)} and any(v.nugget > v.sill for v in variograms)
    ranges = {(v.model, math.copysign(1.0, v.range), v.range == 0.0) for v in variograms}
    # an Exponential model has none but those above zero: 12
    free = {(model, sign, zero) for model in (SPHERICAL, GAUSSIAN, LINEAR) for sign in (1.0, -1.0) for zero in (True, False)}
    assert ranges == free | {(EXPONENTIAL, 1.0, False)}
    assert {v.range for v in variograms} >= {5e-324}
