"""What the stored interpolations have to have among them of the same-spot distance: the generator stops where one is missing."""
import math

from tools.generators.interpolator_case import SHAPES
from tools.generators.spots import MODELS, beside
from tools.patterns import bits
from tools.reading import edges, interpolator
from tools.reading.outcomes import differing, of_query
from tools.reading.variogram import EXPONENTIAL, LINEAR, SAME_SPOT, distance
from tools.reading.wrong_spots import BY_NAME, outcomes, own

EARLIER, LATER = [13, 1, 2, 9, 11], {12, 17, 18}


def spot(ended):
    return ended.case.query.variogram.same_spot


def point_distances(query):
    points = [query.point(i) for i in range(query.n)]
    return {distance(a, b) for i, a in enumerate(points) for b in points[:i]}


def target_distances(query):
    return {distance(query.point(i), query.target(q)) for i in range(query.n) for q in range(query.m)}


def joined(query):
    """Which of points and targets the field joins that 2^-52 does not."""
    told = {"points": point_distances(query), "targets": target_distances(query)}
    return {name for name, apart in told.items() if any(SAME_SPOT <= h < query.variogram.same_spot for h in apart)}


def applying(ended):
    """The numbers of the tests that apply; with no dimension, or one that no machine has room for, 13 alone is asked for."""
    areas = interpolator.Areas(*([0.0] * length for length in ended.case.lent))
    query = ended.case.query
    if not 0 < query.d < 5:
        return {13, 22} if query.variogram.wrong_spot() else {13}
    return {number for number, applies in interpolator.tests(query, areas) if applies}


def covered_half(all_ended):
    """Linear 0, 1, 1 and field 0.5 over one axis: what two points give by how far they are apart."""
    told = {}
    for ended in all_ended:
        q = ended.case.query
        if q.variogram == (LINEAR, 0.0, 1.0, 1.0, 0.5) and (q.kind, q.d, q.n) == (1, 1, 2) and q.coords[0] == 0.0:
            told[q.coords[1]] = ended.number
    assert told[0.5] == 0 and told[math.nextafter(0.5, 0.0)] == 19, told


def covered_edges(all_ended):
    """The same query, with areas that are long enough, and fields at both sides of 22."""
    alone = {}
    for ended in all_ended:
        if own(ended.case.query) == edges.QUERY and applying(ended) <= {22}:
            alone.setdefault(bits(spot(ended)), set()).add(ended.number)
    below, above = math.nextafter(2.0**-52, 0.0), math.nextafter(2.0**-52, 1.0)
    # with the greatest field all points are one
    assert all(alone[bits(x)] == {0} for x in (2.0**-52, above, 1e-3, 0.5, 1.0)) and alone[bits(1.7976931348623157e308)] == {19}, alone
    assert all(alone[bits(x)] == {22} for x in (below, 0.0, -0.0, -1.0, -(2.0**-52), 5e-324, math.inf, -math.inf, math.nan)), alone


def covered_order(all_ended):
    """22 alone, with each later number and with all of them; each earlier one with 22, and with all that follow."""
    refused = {(ended.number, frozenset(applying(ended))) for ended in all_ended if ended.number not in (0, 19)}
    by_22 = {numbers for number, numbers in refused if number == 22}
    assert {frozenset([22]), frozenset([22, *LATER])} <= by_22 and {frozenset([22, number]) for number in LATER} <= by_22
    for number in EARLIER:
        assert any(first == number and {22, *LATER} <= numbers for first, numbers in refused), number
    for ended in all_ended:
        applies = applying(ended)
        assert 22 not in applies or ended.number == next((number for number in EARLIER if number in applies), 22), ended


def covered_named(all_ended):
    """The sill and the field both NaN: 11. Exponential with range 0: 22 or 12 by the field. d = 4 and field 0: 13. No work area: 22."""
    told = [(ended.case.query, ended.case.lent, ended.number) for ended in all_ended]
    assert any(math.isnan(q.variogram.sill) and math.isnan(q.variogram.same_spot) and number == 11 for q, _, number in told)
    without_range = {(bits(q.variogram.same_spot), number) for q, _, number in told if q.variogram.model == EXPONENTIAL and q.variogram.range == 0.0}
    assert {(bits(0.0), 22), (bits(2.0**-52), 12)} <= without_range
    assert any(q.d == 4 and q.variogram.same_spot == 0.0 and number == 13 for q, _, number in told)
    assert any(not lent.work and q.variogram.same_spot == 0.0 and number == 22 for q, lent, number in told)


def covered_joined(answered):
    """Of each type, dimension and model fields of 1e-3 and 0.5 that join points and that join targets to points; as many of both as there may be."""
    told = {(q.kind, q.d, q.variogram.model, q.variogram.same_spot, what) for q in answered for what in joined(q)}
    wanted = {(kind, d, model, field) for kind, d in SHAPES for model in MODELS for field in (1e-3, 0.5)}
    assert told >= {(*shape, what) for shape in wanted for what in ("points", "targets")}
    assert (48, 100) in {(q.n, q.m) for q in answered if joined(q)}


def covered_beside(queries):
    """Of each type, dimension and model a distance that occurs, with the field one step below it, at it and one step above: of points and of targets."""
    whole = {}
    for name, distances in (("points", point_distances), ("targets", target_distances)):
        told = {(q.kind, q.d, q.variogram.model, h, x) for q in queries for h in distances(q) for x in beside(h) if x == q.variogram.same_spot}
        whole[name] = {key[:3] for key in told if all((*key[:4], x) in told for x in beside(key[3]))}
    assert whole["points"] | whole["targets"] == {(kind, d, model) for kind, d in SHAPES for model in MODELS}
    assert all({shape[:2] for shape in shapes} == set(SHAPES) for shapes in whole.values())


def covered_sentences(ended_so):
    """Every other sentence shows in some interpolation: by its number, a figure or a variance."""
    left = set(BY_NAME)
    for ended in ended_so:
        query = ended.case.query
        if left and query.s < 16:
            right = of_query(query)
            left -= {name for name, other in outcomes(BY_NAME, interpolator, of_query, query) if {*differing(right, other)} - {"work"}}
    assert not left, left


def covered_spots(all_ended):
    ended_so = [ended for ended in all_ended if ended.number in (0, 19)]
    answered = [ended.case.query for ended in ended_so if ended.number == 0]
    assert any(math.inf in target_distances(q) and q.variogram.same_spot == edges.GREATEST for q in answered)
    covered_half(all_ended)
    covered_edges(all_ended)
    covered_order(all_ended)
    covered_named(all_ended)
    covered_joined(answered)
    covered_beside([ended.case.query for ended in ended_so])
    covered_sentences([ended for ended in ended_so if spot(ended) != SAME_SPOT])
