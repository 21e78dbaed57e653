"""Paper 01, "Audit": one node's verdict, "all sums exact"."""
from tools.reading.exact import ONE, dot, units
from tools.reading.floats import all_finite

NOT_FINITE = 255


def met(weights, column, target, t):
    """"|Σ z_i·F_ij − f0_j| ≤ t·(1 + |f0_j|)", both sides in units of 2^-2148; the last row likewise, with the values and the figure."""
    missed_by = abs(dot(weights, column) - units(target) * ONE)
    return missed_by <= units(t) * (ONE + abs(units(target)))


def rows(drift, node_drift, values, figure):
    """Row j of 1..p: column j of F and entry j of f0; row p + 1: the values and the figure."""
    columns = [[row[j] for row in drift] for j in range(len(node_drift))]
    return [*zip(columns, node_drift), (values, figure)]


def verdict(weights, drift, node_drift, values, figure, t):
    """"255 if a weight, an F entry, an f0 entry or the figure is not finite; else the first row missed; else 0, passed"."""
    if not all_finite([*weights, *(x for row in drift for x in row), *node_drift, figure]):
        return NOT_FINITE
    for number, (column, target) in enumerate(rows(drift, node_drift, values, figure), 1):
        if not met(weights, column, target, t):
            return number
    return 0
