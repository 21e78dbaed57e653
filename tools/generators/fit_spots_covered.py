"""What the stored fits have to have among them of the same-spot distance: the generator stops where one is missing."""
import math

from tools.generators.spots import MODELS, beside
from tools.patterns import bits
from tools.reading import edges, fit
from tools.reading.outcomes import differing, of_fit
from tools.reading.variogram import EXPONENTIAL, LINEAR, SAME_SPOT, distance
from tools.reading.wrong_spots import OF_A_FIT, outcomes, own

LATER = {12, 17, 18}
EARLIER = {*range(1, 12)}


def spot(ended):
    return ended.case.survey.variogram.same_spot


def well_distances(survey):
    wells = [survey.well(i) for i in range(survey.n)]
    return {distance(a, b) for i, a in enumerate(wells) for b in wells[:i]}


def node_distances(survey):
    return {distance(survey.well(i), survey.node(q)) for i in range(survey.n) for q in range(survey.m)}


def joined(survey):
    """Which of wells and nodes the field joins that 2^-52 does not: wells to wells, nodes to wells."""
    told = {"wells": well_distances(survey), "nodes": node_distances(survey)}
    return {name for name, apart in told.items() if any(SAME_SPOT <= h < survey.variogram.same_spot for h in apart)}


def applying(ended):
    """The numbers of the tests that apply."""
    lent = ended.case.lent
    areas = fit.Areas(*([0.0] * length for length in lent))
    return {number for number, applies in fit.tests(ended.case.survey, areas) if applies}


def covered_half(all_ended):
    """Linear 0, 1, 1 and field 0.5: what two wells on a line give by how far they are apart, and by r."""
    told = {}
    for ended in all_ended:
        s = ended.case.survey
        if s.variogram == (LINEAR, 0.0, 1.0, 1.0, 0.5) and s.codes == [1] and s.n == 2 and s.coords[:2] == [0.0, 0.0] and s.coords[3] == 0.0:
            told[s.coords[2], s.r] = ended.number
    below = math.nextafter(0.5, 0.0)
    assert told[0.5, 0.0] == 0 == told[0.25, 2.0**-52] and told[below, 0.0] == 19 == told[0.25, 2.0**-53], told


def covered_edges(all_ended):
    """The same survey, with areas that are long enough, and fields at both sides of 22."""
    alone = {}
    for ended in all_ended:
        if own(ended.case.survey) == edges.survey() and applying(ended) <= {22}:
            alone.setdefault(bits(spot(ended)), set()).add(ended.number)
    below, above = math.nextafter(2.0**-52, 0.0), math.nextafter(2.0**-52, 1.0)
    assert all(alone[bits(x)] == {0} for x in (2.0**-52, above, 1e-3, 0.5, 1.0, 1.7976931348623157e308)), alone
    assert all(alone[bits(x)] == {22} for x in (below, 0.0, -0.0, -1.0, -(2.0**-52), 5e-324, math.inf, -math.inf, math.nan)), alone


def covered_order(all_ended):
    """22 alone, with each later number and with all of them; each earlier one with 22 alone, and with all that follow."""
    refused = {(ended.number, frozenset(applying(ended))) for ended in all_ended if ended.number not in (0, 19)}
    by_22 = {numbers for number, numbers in refused if number == 22}
    assert {frozenset([22]), frozenset([22, *LATER])} <= by_22 and {frozenset([22, number]) for number in LATER} <= by_22
    # without a code there are no columns, so that no area is too short; as for the others, a list that is wrong makes others wrong too
    for number in EARLIER:
        beside_22 = [numbers for first, numbers in refused if first == number and 22 in numbers]
        assert beside_22 and any({12, 17} <= numbers for numbers in beside_22), number
    assert all(ended.number == min(applying(ended) & EARLIER, default=22) for ended in all_ended if 22 in applying(ended))


def covered_named(all_ended):
    """The sill and the field both NaN: 11. Exponential with range 0: 22 or 12 by the field. t below zero: 10. No work area: 22."""
    told = [(ended.case.survey, ended.case.lent, ended.number) for ended in all_ended]
    assert any(math.isnan(s.variogram.sill) and math.isnan(s.variogram.same_spot) and number == 11 for s, _, number in told)
    without_range = {(bits(s.variogram.same_spot), number) for s, _, number in told if s.variogram[:1] == (EXPONENTIAL,) and s.variogram.range == 0.0}
    assert {(bits(0.0), 22), (bits(2.0**-52), 12)} <= without_range
    assert any(s.t < 0.0 and s.variogram.same_spot == 0.0 and number == 10 for s, _, number in told)
    assert any(not lent.work and s.variogram.same_spot == 0.0 and number == 22 for s, lent, number in told)


def covered_joined(answered):
    """Of each model, with r = 0 and above, without externals and with: fields of 1e-3 and 0.5 that join wells, and that join nodes to wells."""
    told = {(s.variogram.model, s.variogram.same_spot, what) for s in answered for what in joined(s)}
    assert told >= {(model, field, what) for model in MODELS for field in (1e-3, 0.5) for what in ("wells", "nodes")}
    kinds = {(s.variogram.model, s.r > 0.0, s.k > 0) for s in answered if "wells" in joined(s)}
    assert kinds == {(model, grown, external) for model in MODELS for grown in (False, True) for external in (False, True)}, kinds
    assert {s.p for s in answered if joined(s)} >= {1, 2, 3, 4, 5, 6, 12} and {s.n for s in answered if joined(s)} >= {2, 24, 48}
    assert {s.m for s in answered if "wells" in joined(s)} >= {0, 100}


def covered_beside(surveys):
    """Of each model a distance that occurs, between wells and of a node, with the field one step below it, at it and one step above."""
    for distances in (well_distances, node_distances):
        told = {(s.variogram.model, h, step) for s in surveys for h in distances(s) for step, x in enumerate(beside(h)) if x == s.variogram.same_spot}
        whole = {(model, h) for model, h, _ in told if {(model, h, step) for step in range(3)} <= told}
        assert {model for model, _ in whole} == set(MODELS)


def covered_sentences(ended_so):
    """Every other sentence shows in some fit: by its number, or by what it leaves outside the work area."""
    left = set(OF_A_FIT)
    for ended in ended_so:
        survey = ended.case.survey
        right = of_fit(survey) if survey.s < 16 and left else None
        if right:
            left -= {name for name, other in outcomes(OF_A_FIT, fit, of_fit, survey) if {*differing(right, other)} - {"work"}}
    assert not left, left


def covered_spots(all_ended):
    ended_so = [ended for ended in all_ended if ended.number in (0, 19)]
    surveys = [ended.case.survey for ended in ended_so]
    answered = [ended.case.survey for ended in ended_so if ended.number == 0]
    assert any(math.inf in node_distances(s) and s.variogram.same_spot == edges.GREATEST for s in answered)
    covered_half(all_ended)
    covered_edges(all_ended)
    covered_order(all_ended)
    covered_named(all_ended)
    covered_joined(answered)
    covered_beside(surveys)
    covered_sentences([ended for ended in ended_so if spot(ended) != SAME_SPOT])
