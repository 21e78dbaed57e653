"""Fits whose tolerance is the least with which a row of the audit is met, or the number just below it: every row is the first one missed somewhere."""
import math
from fractions import Fraction

from tools.generators.draw import flat
from tools.generators.fit_case import Case, longer
from tools.reading.audit import rows
from tools.reading.fit import drift, node_drift
from tools.reading.outcomes import of_fit
from tools.reading.survey import Survey
from tools.reading.variogram import LINEAR, SPHERICAL, Variogram


def least_tolerance(weights, column, target):
    """The least f64 that meets a row: the row's own quotient, rounded up."""
    missed = abs(sum((Fraction(w) * Fraction(x) for w, x in zip(weights, column, strict=True)), Fraction(0)) - Fraction(target))
    quotient = missed / (1 + abs(Fraction(target)))
    t = float(quotient)
    return t if Fraction(t) >= quotient else math.nextafter(t, math.inf)


def thresholds(survey, q):
    """The least tolerance of each row, 1 to p + 1, at a node; none where the numbers are not all finite."""
    outcome = of_fit(survey._replace(t=0.0))
    if outcome["number"] != [0] or outcome["verdicts"][q] == 255:
        return []
    weights, figure = outcome["weights"][q * survey.n:(q + 1) * survey.n], outcome["figures"][q]
    return [least_tolerance(weights, column, target) for column, target in rows(drift(survey), node_drift(survey, q), survey.values, figure)]


def at_the_bounds(survey, q):
    """The survey with each tolerance that lets a row of node q be the first one missed by a hair, and with the one that just meets all rows."""
    least = thresholds(survey, q)
    for j, bound in enumerate(least):
        if bound > max(least[:j], default=0.0):
            yield survey._replace(t=math.nextafter(bound, 0.0))
    if least:
        yield survey._replace(t=max(least))


def rising(draw, n, codes, cancelled):
    """Columns that are larger from one to the next, and two nodes where all of them are small: so a later row is missed by more. Where the figure's is to
    be missed by most, the values follow the last column, which is 0 at the nodes."""
    k = codes.count(4)
    wells = [[draw.uniform(-9, 9), draw.uniform(-9, 9)] for _ in range(n)]
    external = [draw.uniform(1, 9) * 16.0**column for column in range(k) for _ in range(n)]
    values = [draw.uniform(1, 9) * 1e9 for _ in range(n)]
    nodes = [draw.uniform(-1, 1) for _ in range(4)]
    node_external = [draw.uniform(-1, 1) * 0.01 for _ in range(2 * k)]
    if cancelled and k:
        values = [x * 1e20 for x in external[-n:]]
        node_external[k - 1] = node_external[-1] = 0.0
    model = Variogram(draw.choice([SPHERICAL, LINEAR]), 0.5, 3.0, 20.0)
    return Survey(values, flat(wells), codes, external, nodes, node_external, model, 1e-10, 0.0)


def audited(draw):
    plans = [(n, codes) for codes in ([1], [4, 4], [2], [1, 4, 4], [2, 4], [3], [3, 4]) for n in (codes.count(3) * 5 + 4, 9)]
    plans += [(13, [2] + [4] * 6), (14, [4] * 12), (16, [3] + [4] * 6)]
    for n, codes in plans:
        for cancelled in (False, True):
            survey = rising(draw, n, codes, cancelled)
            for bounded in at_the_bounds(survey, draw.randrange(2)):
                yield Case(bounded, longer(bounded, draw))
