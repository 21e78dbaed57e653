"""The trend by other sentences than the paper's: cases and stored fits have to tell each of them from the right one."""
from tools.reading.fit import trend_of
from tools.reading.floats import running_sum


def by_columns(matrix_inverse, values, p):
    """Entry (i, n + j) for entry (n + j, i)."""
    return trend_of([*zip(*matrix_inverse)], values, p)


def backwards(matrix_inverse, values, p):
    """The wells from the last to the first."""
    return trend_of([row[:len(values)][::-1] for row in matrix_inverse], values[::-1], p)


def by_first_rows(matrix_inverse, values, p):
    """Entry (j, i)."""
    return trend_of([*matrix_inverse[p:], *matrix_inverse[:p]], values, p)


def a_row_above(matrix_inverse, values, p):
    """Entry (n + j - 1, i)."""
    return trend_of([matrix_inverse[-1], *matrix_inverse[:-1]], values, p)


def last_column_first(matrix_inverse, values, p):
    """The columns from the last to the first."""
    return trend_of(matrix_inverse, values, p)[::-1]


def without_last_well(matrix_inverse, values, p):
    """The sum over all wells but the last."""
    return trend_of(matrix_inverse, [*values[:-1], 0.0], p)


def from_first_product(matrix_inverse, values, p):
    """The sum from its first product: minus zero where all of them are."""
    n = len(values)
    return [running_sum((x * y for x, y in zip(row, values)), start=-0.0) for row in matrix_inverse[n:]]


FROM_FIRST = "trend from the first product"
BY_NAME = {
    "trend by columns of the inverse": by_columns,
    "trend by the wells from the last": backwards,
    "trend by the first p rows": by_first_rows,
    "trend a row above": a_row_above,
    "trend with the last column first": last_column_first,
    "trend without the last well": without_last_well,
    FROM_FIRST: from_first_product,
}
