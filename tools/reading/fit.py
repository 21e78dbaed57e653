"""Paper 01, "One fit, followed through", and paper 02, "Trend slopes on the report", "Two wells in one yard" and "Ninety-six wells"."""
from typing import NamedTuple

from tools.reading import refusals
from tools.reading.audit import verdict
from tools.reading.elimination import beside_identity, eliminate, inverse
from tools.reading.floats import clamped, running_sum
from tools.reading.survey import CONSTANT, LINEAR, QUADRATIC
from tools.reading.variogram import distance


class Areas(NamedTuple):
    """What is lent: a fit writes into these lists."""

    figures: list
    variances: list
    verdicts: list
    weights: list
    multipliers: list
    trend: list
    work: list


def tests(survey, areas, most_wells=refusals.MOST_WELLS):
    """"The lowest applying number wins in a fit"; 22 "straight after 11". 9 is by the wells that the library takes, or the program."""
    n, m, p, k, s = survey.n, survey.m, survey.p, survey.k, survey.s
    yield 1, len(survey.coords) != 2 * n
    yield 2, len(survey.nodes) % 2 != 0
    yield 3, not survey.codes
    yield 4, any(code not in (1, 2, 3, 4) for code in survey.codes)
    yield 5, refusals.negative_or_not_finite(survey.r)
    yield 6, len(survey.external) != k * n
    yield 7, n < p
    yield 8, k > 0 and len(survey.node_external) != k * m
    yield 9, n > most_wells or p > refusals.MOST_COLUMNS or m > refusals.MOST_NODES
    yield 10, refusals.negative_or_not_finite(survey.t)
    yield 11, refusals.some_not_finite(survey.judged())
    yield 22, survey.variogram.wrong_spot()
    yield 12, survey.variogram.without_range()
    yield 17, len(areas.work) < 2 * s * s
    lengths = [(areas.figures, m), (areas.variances, m), (areas.verdicts, m), (areas.weights, n * m), (areas.multipliers, p), (areas.trend, p)]
    yield 18, refusals.too_short(lengths)


def drift_row(codes, x, y, externals):
    """"1; 1, x, y; 1, x, y, x², xy, y²; or the external value, in basis order"."""
    row, left = [], list(externals)
    for code in codes:
        if code == CONSTANT:
            row += [1.0]
        elif code == LINEAR:
            row += [1.0, x, y]
        elif code == QUADRATIC:
            row += [1.0, x, y, x * x, x * y, y * y]
        else:
            row += [left.pop(0)]
    return row


def drift(survey):
    """F, row after row."""
    return [drift_row(survey.codes, *survey.well(i), survey.well_externals(i)) for i in range(survey.n)]


def node_drift(survey, q):
    """"the node's drift entries f0"."""
    return drift_row(survey.codes, *survey.node(q), survey.node_externals(q))


def between_wells(survey, i, j):
    """"variogram between different wells, 0 + r on the diagonal"."""
    if i == j:
        return 0.0 + survey.r
    return survey.variogram.evaluate(distance(survey.well(i), survey.well(j)))


def assembled(survey):
    """"Beside and below: F and its transpose [..]. Lower right: zeros"."""
    n, p, columns = survey.n, survey.p, drift(survey)
    upper = [[between_wells(survey, i, j) for j in range(n)] + columns[i] for i in range(n)]
    return upper + [[columns[i][j] for i in range(n)] + [0.0] * p for j in range(p)]


def right_hand_side(survey, q):
    """"b is the variogram to each well, then the node's drift entries f0"."""
    to_wells = [survey.variogram.evaluate(distance(survey.well(i), survey.node(q))) for i in range(survey.n)]
    return to_wells + node_drift(survey, q)


def solved(matrix_inverse, b):
    """"z = inverse times b, summed from 0 by rising column"."""
    return [running_sum(x * y for x, y in zip(row, b, strict=True)) for row in matrix_inverse]


def weighted(weights, values):
    """"Figure: Σ z_i·value_i"."""
    return running_sum(w * v for w, v in zip(weights, values, strict=True))


def multipliers_of(z, p):
    """"the last p entries of the last node's z"."""
    return z[len(z) - p:]


def trend_of(matrix_inverse, values, p):
    """"for column j, the sum from 0 over the wells, in order, of inverse entry (n + j, i) times value i, j and i counted from 1"."""
    n = len(values)
    return [running_sum(matrix_inverse[n + j - 1][i - 1] * values[i - 1] for i in range(1, n + 1)) for j in range(1, p + 1)]


def put(area, start, numbers):
    area[start:start + len(numbers)] = numbers


def answer_node(survey, q, columns, matrix_inverse, areas):
    b = right_hand_side(survey, q)
    z = solved(matrix_inverse, b)
    weights = z[:survey.n]
    figure = weighted(weights, survey.values)
    areas.figures[q] = figure
    areas.variances[q] = clamped(running_sum(x * y for x, y in zip(z, b, strict=True)))
    areas.verdicts[q] = verdict(weights, columns, node_drift(survey, q), survey.values, figure, survey.t)
    put(areas.weights, q * survey.n, weights)
    put(areas.multipliers, 0, multipliers_of(z, survey.p))


def fit(survey, areas, most_wells=refusals.MOST_WELLS):
    """A fit's number: 0 and the answers in the areas, or a refusal."""
    number = refusals.first(tests(survey, areas, most_wells))
    if number:
        return number
    rows = beside_identity(assembled(survey))
    stopped = eliminate(rows, skip_zero=True)
    put(areas.work, 0, [x for row in rows for x in row])
    if stopped is not None:
        return 19
    put(areas.multipliers, 0, [0.0] * survey.p)
    columns, matrix_inverse = drift(survey), inverse(rows)
    put(areas.trend, 0, trend_of(matrix_inverse, survey.values, survey.p))
    for q in range(survey.m):
        answer_node(survey, q, columns, matrix_inverse, areas)
    return 0
