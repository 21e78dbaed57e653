"""Universal kriging with external drift."""
import operator
from enum import IntEnum
from typing import NamedTuple, Sequence

from nakwemol import calls
from nakwemol.limits import MOST_COLUMNS, MOST_NODES, MOST_WELLS
from nakwemol.lists import flat, is_text, number
from nakwemol.refused import unless_0
from nakwemol.variogram import Variogram, VariogramModel

EXTERNAL_CODE = 4
COLUMNS_OF = {1: 1, 2: 3, 3: 6, 4: 1}


class DriftBasis(IntEnum):
    """Columns at a place (x, y): `1`; `1, x, y`; `1, x, y, x·x, x·y, y·y`."""

    CONSTANT = 1
    LINEAR = 2
    QUADRATIC = 3


class External(NamedTuple):
    """A basis with one column: a number for each well. The nodes' numbers stand in `query_external_drift`."""

    values: Sequence


class UniversalKrigingOptions(NamedTuple):
    drift_bases: Sequence = (DriftBasis.CONSTANT,)
    variogram: Variogram = Variogram(VariogramModel.SPHERICAL, 0.0, 1.0, 1.0)
    regularization: float = 1e-10


class UniversalKrigingResult(NamedTuple):
    """For n wells, m nodes and p columns: m figures, m variances, the p multipliers, the p numbers of the trend, n·m weights, node after node, and m
    verdicts: 0 where the node passed its audit, 1 to p + 1 the first row missed, 255 where something is not finite.

    The multipliers are the Lagrange multipliers of the last node, zeros where there is none. The original calls them its drift coefficients, but they
    are no slopes: those are in `trend`, the estimate of the trend's coefficients, in the order of the columns. Those of x and y are slopes, in units of
    value over coordinate. It does not depend on the nodes, and is there without any."""

    predicted: list
    variance: list
    multipliers: list
    trend: list
    weights: list
    verdicts: list


def code_of(basis):
    if isinstance(basis, External):
        return EXTERNAL_CODE
    try:
        return operator.index(basis)
    except TypeError:
        raise TypeError(f"drift_bases has {basis!r:.40} in it, which is neither a DriftBasis nor an External") from None


def listed(bases):
    """The bases as a list; one that stands alone is none."""
    if is_text(bases) or isinstance(bases, External) or not hasattr(bases, "__iter__"):
        raise TypeError(f"drift_bases is {bases!r:.40}, and no list of bases; give one of them as [DriftBasis.LINEAR]")
    return list(bases)


def external_list(bases, wells):
    """The external columns one after another. One that has not a number for each well makes the list's length wrong, whatever the others have."""
    columns = [flat(basis.values, 1, "External") for basis in bases if isinstance(basis, External)]
    if all(len(column) == wells for column in columns):
        return [x for column in columns for x in column]
    return [0.0] * (len(columns) * wells + 1)


def universal_kriging_fit(coords, values, options, query_points, query_external_drift=None, *, tolerance):
    """The fit of wells at `coords`, x and y each, with `values`, at the nodes `query_points`.

    `query_external_drift` has for each node a number for each external basis, and is not looked at where there is none. `tolerance` is that of the
    audit, which the original does not have. Raises Refused.
    """
    values, coords, nodes = flat(values, 1, "values"), flat(coords, 2, "coords"), flat(query_points, 2, "query_points")
    bases = listed(options.drift_bases)
    codes, external = [code_of(basis) for basis in bases], external_list(bases, len(values))
    k = codes.count(EXTERNAL_CODE)
    node_external = flat(query_external_drift, k, "query_external_drift") if k and query_external_drift is not None else []
    columns = sum(COLUMNS_OF.get(code, 0) for code in codes)
    n, p, m = min(len(values), MOST_WELLS), min(columns, MOST_COLUMNS), min(len(nodes) // 2, MOST_NODES)
    work, predicted, variance, weights, multipliers, trend = map(calls.area, (2 * (n + p) ** 2, m, m, n * m, p, p))
    verdicts = calls.codes([0] * m)
    unless_0(calls.call(
        "nakwemol_fit",
        *map(calls.numbers, (values, coords)),
        calls.codes(codes),
        calls.numbers(external),
        *options.variogram.handed(),
        number(options.regularization, "regularization"),
        *map(calls.numbers, (nodes, node_external)),
        number(tolerance, "tolerance"),
        work,
        predicted,
        variance,
        verdicts,
        weights,
        multipliers,
        trend,
    ))
    return UniversalKrigingResult(*map(list, (predicted, variance, multipliers, trend, weights, verdicts)))
