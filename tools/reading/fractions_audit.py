"""The audit's rows once more, by Python's fractions: a second look at tools/reading/audit.py."""
import math
from fractions import Fraction

from tools.reading.fit import drift, node_drift


def verdict_by_fractions(survey, areas, q):
    n = survey.n
    weights, figure, f0, columns = areas.weights[q * n:(q + 1) * n], areas.figures[q], node_drift(survey, q), drift(survey)
    if any(math.isinf(x) or math.isnan(x) for x in [*weights, figure, *f0, *(x for row in columns for x in row)]):
        return 255
    t = Fraction(survey.t)
    for j, target in enumerate([*f0, figure]):
        entries = survey.values if j == len(f0) else [row[j] for row in columns]
        total = sum((Fraction(w) * Fraction(x) for w, x in zip(weights, entries)), Fraction(0))
        if abs(total - Fraction(target)) > t * (1 + abs(Fraction(target))):
            return j + 1
    return 0
