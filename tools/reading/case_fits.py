"""Fits that are small enough to be computed by a proof."""
import math
from unittest.mock import patch

from tools.generators.calls import Fit
from tools.patterns import bits, value
from tools.reading import audit, case_text, fit, wrong_trends
from tools.reading.floats import clamped, running_sum
from tools.reading.outcomes import of_fit
from tools.reading.survey import CONSTANT, EXTERNAL, LINEAR, QUADRATIC, Survey
from tools.reading.variogram import SPHERICAL, Variogram

WELLS = [1.0, 2.0, 4.0, 6.0, 4.0, 2.0]
MODEL = Variogram(SPHERICAL, 0.25, 1.25, 8.0)
EXTERNALS = Survey(
    values=[2.0, 5.0, 3.5],
    coords=WELLS,
    codes=[EXTERNAL, EXTERNAL],
    external=[1.0, 0.5, 3.0, 1.5, 2.5, 2.0],
    nodes=[7.0, 2.0, 1.0, 10.0],
    node_external=[1.5, 1.0, 2.0, 0.5],
    variogram=MODEL,
    r=0.125,
    t=2.0**-53,
)
NO_NODES = EXTERNALS._replace(nodes=[], node_external=[])
SURFACE = EXTERNALS._replace(codes=[LINEAR], external=[], nodes=[1.75, 3.5], node_external=[])
ONE_WELL = Survey([1.0], [0.0, 0.0], [EXTERNAL], [3.0], [1.0, 0.0], [1.0], Variogram(SPHERICAL, 0.0, 1.0, 1.0), 0.0, 0.0)
# six wells that tell x², xy and y² apart, on a surface whose coefficients are 1 to 6, and no variogram: the matrix is F and its transpose
QUADRATIC_WELLS = [0.0, 0.0, 1.0, 0.0, 0.0, 1.0, 2.0, 0.0, 1.0, 1.0, 0.0, 2.0]
QUADRATIC_SURFACE = Survey([1.0, 7.0, 10.0, 21.0, 21.0, 31.0], QUADRATIC_WELLS, [QUADRATIC], [], [1.0, 2.0], [], Variogram(SPHERICAL, 0.0, 0.0, 1.0), 0.0, 0.0)
# a weight of a third each, and values of which the small one is lost or not by the order of the sum
FAR_APART = Survey(
    values=[1.0, 2.0**60, -(2.0**60)],
    coords=[0.0, 0.0, 2.0, 0.0, 0.0, 2.0],
    codes=[CONSTANT],
    external=[],
    nodes=[2.0, 2.0],
    node_external=[],
    variogram=Variogram(SPHERICAL, 0.0, 1.0, 1.0),
    r=0.0,
    t=0.0,
)
JUST_BELOW = value(0x3C7F_FFFF_FFFF_FFFF)
AUDITS = {
    "row 1 missed: 3 times the f64 nearest 1/3 is 1 - 2^-54": (ONE_WELL, 1),
    "row 1 missed by a hair: t is the f64 below 2^-55": (ONE_WELL._replace(t=JUST_BELOW), 1),
    "row 1 met, with equality: t = 2^-55": (ONE_WELL._replace(t=2.0**-55), 0),
    "row 2, the figure's, missed: its square of 1 + 2^-52 is rounded": (
        ONE_WELL._replace(values=[1 + 2.0**-52], external=[1.0], node_external=[1 + 2.0**-52]),
        2,
    ),
    "255 by a weight: 2^1023 / 2^-52 is infinite": (ONE_WELL._replace(external=[2.0**-52], node_external=[2.0**1023]), 255),
    "255 by the figure alone: 4 times 2^1023 is infinite, the weight 4 is not": (
        ONE_WELL._replace(values=[2.0**1023], external=[1.0], node_external=[4.0]),
        255,
    ),
}
# the paper's two soundings with a trend, and what it says that it is
SOUNDING_A = Survey([5.0], [0.0, 0.0], [CONSTANT], [], [1.0, 0.0], [], Variogram(SPHERICAL, 0.0, 1.0, 1.0), 0.0, 0.0)
SOUNDING_B = SOUNDING_A._replace(values=[2.0, 6.0], coords=[0.0, 0.0, 2.0, 0.0])
TRENDS = {"A": (SOUNDING_A, 0x4014_0000_0000_0000), "B": (SOUNDING_B, 0x4010_0000_0000_0000)}
MINUS_ZERO = ONE_WELL._replace(values=[-0.0])
FAR_WELL = Survey(
    values=[5.0, 4.0, 7.0, 4.0, 3.0, 7.0],
    coords=[2.0**512, 1.0, 2.0, 5.0, 3.0, 2.0, 2.0, 2.0, 2.0, 4.0, 3.0, 3.0],
    codes=[QUADRATIC],
    external=[],
    nodes=[0.0, 5.0],
    node_external=[],
    variogram=MODEL,
    r=0.0,
    t=1.0,
)


def changed_survey(survey, **methods):
    """The outcome where some of the survey's places are read by another rule."""
    with patch.multiple(Survey, **methods):
        return of_fit(survey)


def changed(survey, module, name, other):
    with patch.object(module, name, other):
        return of_fit(survey)


def well_after_well(self, i):
    return self.external[i * self.k:(i + 1) * self.k]


def column_after_column(self, q):
    return [self.node_external[column * self.m + q] for column in range(self.k)]


def node_yx(self, q):
    return self.nodes[2 * q:2 * q + 2][::-1]


def well_yx(self, i):
    return self.coords[2 * i:2 * i + 2][::-1]


def rounded_met(weights, column, target, t):
    return abs(fit.weighted(weights, column) - target) <= t * (1.0 + abs(target))


def strictly_met(weights, column, target, t):
    return audit.units(t) * (audit.ONE + abs(audit.units(target))) > abs(audit.dot(weights, column) - audit.units(target) * audit.ONE)


def over_weights_alone(survey):
    """The variances by the weights' part of Σ z·b."""
    outcome, n = of_fit(survey), survey.n
    parts = ([w * b for w, b in zip(outcome["weights"][q * n:], fit.right_hand_side(survey, q)[:n])] for q in range(survey.m))
    return {**outcome, "variances": [clamped(running_sum(part)) for part in parts]}


def first_node_multipliers(survey):
    """The multipliers as the first node alone leaves them."""
    alone = survey._replace(nodes=survey.nodes[:2], node_external=survey.node_external[:survey.k])
    return {**of_fit(survey), "multipliers": of_fit(alone)["multipliers"]}


def copied(outcome, name):
    """The first node's entry for every node."""
    return {**outcome, name: [outcome[name][0]] * len(outcome[name])}


def transposed(items, rows):
    return [items[i] for j in range(len(items) // rows) for i in range(j, len(items), len(items) // rows)]


def wrong_placings(survey):
    return {
        "external values read well after well": changed_survey(survey, well_externals=well_after_well),
        "node externals read column after column": changed_survey(survey, node_externals=column_after_column),
        "both external layouts transposed": changed_survey(survey, well_externals=well_after_well, node_externals=column_after_column),
        "node axes exchanged": changed_survey(survey, node=node_yx),
        "well axes exchanged": changed_survey(survey, well=well_yx),
    }


def wrong_answers(survey):
    right = of_fit(survey)
    return {
        "multipliers from the first p entries of z": changed(survey, fit, "multipliers_of", lambda z, p: z[:p]),
        "multipliers from the first node": first_node_multipliers(survey),
        "weights written well after well": {**right, "weights": transposed(right["weights"], survey.m)},
        "node 1's figure for every node": copied(right, "figures"),
        "node 1's verdict for every node": copied(right, "verdicts"),
        "variance over the n weights alone": over_weights_alone(survey),
        "audit with rounded sums": changed(survey, audit, "met", rounded_met),
        "audit with < for ≤": changed(survey, audit, "met", strictly_met),
        "r left off the diagonal": of_fit(survey._replace(r=0.0)),
    }


def wrong_trend(survey, name):
    return {name: changed(survey, fit, "trend_of", wrong_trends.BY_NAME[name])}


def trends_told(survey):
    """Those that a fit can tell whose products are not all minus zero."""
    right = of_fit(survey)
    told = {"the multipliers as the trend": {**right, "trend": right["multipliers"]}, "zeros as the trend": {**right, "trend": [0.0] * survey.p}}
    for name in wrong_trends.BY_NAME:
        if name != wrong_trends.FROM_FIRST:
            told.update(wrong_trend(survey, name))
    return told


def call(survey):
    return Fit(*survey[:6], tuple(survey.variogram), survey.r).words()


def print_case(survey, small=True):
    """A fit's inputs and outcome, held to the original."""
    outcome = of_fit(survey)
    case_text.survey(survey)
    case_text.fields("expected", {name: items for name, items in outcome.items() if small or name != "work"})
    if small:
        case_text.on_the_way(fit.assembled(survey), [fit.right_hand_side(survey, q) for q in range(survey.m)])
    answer = case_text.ok(survey.m, outcome["figures"], outcome["variances"]) + case_text.ok(f" {survey.p}", outcome["multipliers"])[3:]
    case_text.agrees(call(survey), answer)
    return outcome


def print_externals():
    case_text.title("fit 1: two external columns, three wells, two nodes (n = 3, m = 2, p = k = 2, s = 5)")
    outcome = print_case(EXTERNALS)
    assert outcome["verdicts"] == [0, 2]
    case_text.wrong(outcome, {**wrong_placings(EXTERNALS), **wrong_answers(EXTERNALS), **trends_told(EXTERNALS)})


def print_no_nodes():
    case_text.title("fit 2: the same wells, no node (m = 0)")
    outcome = print_case(NO_NODES)
    assert outcome["trend"] == of_fit(EXTERNALS)["trend"]
    multipliers = {f"multipliers {x}": {**outcome, "multipliers": [x, x]} for x in (math.nan, -0.0)}
    case_text.wrong(outcome, {**multipliers, **trends_told(NO_NODES)})


def swapped_drift(codes, x, y, externals):
    return [1.0, y, x]


def print_surface():
    case_text.title("fit 3: Linear, three wells, one node (n = p = 3, s = 6)")
    outcome = print_case(SURFACE)
    wrong = {
        "node axes exchanged": changed_survey(SURFACE, node=node_yx),
        "well axes exchanged": changed_survey(SURFACE, well=well_yx),
        "1, y, x for wells and nodes": changed(SURFACE, fit, "drift_row", swapped_drift),
        "multipliers from the first p entries of z": changed(SURFACE, fit, "multipliers_of", lambda z, p: z[:p]),
    }
    case_text.wrong(outcome, {**wrong, **trends_told(SURFACE)})


def drift_of(*entries):
    """A drift row of six entries by another rule."""
    return lambda codes, x, y, externals: [entry(x, y) for entry in entries]


QUADRATIC_ENTRIES = [lambda x, y: 1.0, lambda x, y: x, lambda x, y: y, lambda x, y: x * x, lambda x, y: x * y, lambda x, y: y * y]


def wrong_drifts(survey):
    """The six entries with one put in place of another, and with two exchanged."""
    for at in range(6):
        for instead in range(6):
            if at == instead:
                continue
            entries = list(QUADRATIC_ENTRIES)
            entries[at] = QUADRATIC_ENTRIES[instead]
            yield f"entry {at} as entry {instead}", changed(survey, fit, "drift_row", drift_of(*entries))
            entries[instead] = QUADRATIC_ENTRIES[at]
            yield f"entries {at} and {instead} exchanged", changed(survey, fit, "drift_row", drift_of(*entries))


def print_quadratic():
    case_text.title("fit 4: Quadratic, six wells, one node (n = p = 6, s = 12)")
    outcome = print_case(QUADRATIC_SURFACE, small=False)
    assert outcome["trend"] == [1.0, 2.0, 3.0, 4.0, 5.0, 6.0] and outcome["figures"] == [47.0]
    wrong = {"node axes exchanged": changed_survey(QUADRATIC_SURFACE, node=node_yx), **dict(wrong_drifts(QUADRATIC_SURFACE))}
    case_text.wrong(outcome, wrong)


def falling_sum(terms, start=0.0):
    return running_sum(reversed(list(terms)), start)


def falling_weighted(weights, values):
    return falling_sum(w * v for w, v in zip(weights, values, strict=True))


def falling_solved(matrix_inverse, b):
    return [falling_sum(x * y for x, y in zip(row, b, strict=True)) for row in matrix_inverse]


def falling_variances(survey):
    """The variances by Σ z·b from the last entry on."""
    outcome, n = of_fit(survey), survey.n
    z = outcome["weights"][:n] + outcome["multipliers"]
    return {**outcome, "variances": [clamped(falling_sum(x * b for x, b in zip(z, fit.right_hand_side(survey, 0), strict=True)))]}


def print_far_apart():
    case_text.title("fit 5: three wells far apart, one node: the order of each sum (n = 3, p = 1, s = 4)")
    outcome = print_case(FAR_APART)
    assert outcome["figures"] == [0.0]
    wrong = {
        "the figure from the last well": changed(FAR_APART, fit, "weighted", falling_weighted),
        "z by falling column": changed(FAR_APART, fit, "solved", falling_solved),
        "the variance from the last entry": falling_variances(FAR_APART),
    }
    case_text.wrong(outcome, wrong)


def print_trends():
    for name, (survey, trend) in TRENDS.items():
        case_text.title(f"trend: sounding {name}")
        assert list(map(bits, print_case(survey)["trend"])) == [trend]
    case_text.title("trend: a value of minus zero, and a sum from 0")
    outcome = print_case(MINUS_ZERO)
    assert list(map(bits, outcome["trend"])) == [0]
    case_text.wrong(outcome, wrong_trend(MINUS_ZERO, wrong_trends.FROM_FIRST))


def print_audits():
    for name, (survey, verdict) in AUDITS.items():
        case_text.title(f"audit: {name}")
        assert print_case(survey)["verdicts"] == [verdict]
    case_text.title("audit: 255 by an F entry alone, x² of a well; every weight and the figure are finite (n = 6, s = 12: not for a proof)")
    outcome = print_case(FAR_WELL, small=False)
    assert outcome["verdicts"] == [255] and all(map(math.isfinite, outcome["weights"] + outcome["figures"]))
    print("an f0 entry that is not finite has no case of its own: each weight has a term with it, so no weight is finite then")


def print_all():
    print_externals()
    print_no_nodes()
    print_surface()
    print_quadratic()
    print_far_apart()
    print_trends()
    print_audits()
