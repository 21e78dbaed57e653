"""Paper 01, "Elimination": on an area of s rows of 2s numbers, row after row."""
from tools.reading.floats import div

SMALLEST_PIVOT = 2.0**-52


def beside_identity(matrix):
    """"The matrix beside the identity, s rows of 2s"."""
    size = len(matrix)
    return [[*row, *(1.0 if j == i else 0.0 for j in range(size))] for i, row in enumerate(matrix)]


def held_row(rows, i):
    """"hold row i and go down; a later row is held instead when its column-i magnitude is > the held one"."""
    held = i
    for k in range(i + 1, len(rows)):
        if abs(rows[k][i]) > abs(rows[held][i]):
            held = k
    return held


def clear(rows, i, skip_zero):
    """"divide row i by the pivot, then from every other row with factor ≠ 0 subtract factor times row i"; or from every other row at all."""
    pivot = rows[i][i]
    rows[i] = [div(x, pivot) for x in rows[i]]
    for k, row in enumerate(rows):
        factor = row[i]
        if k != i and not (skip_zero and factor == 0.0):
            rows[k] = [x - factor * y for x, y in zip(row, rows[i])]


def eliminate(rows, skip_zero):
    """Changes the rows, and answers None, or the step, from 0, whose held magnitude is below 2^-52: then they are as that step found them."""
    for i in range(len(rows)):
        held = held_row(rows, i)
        if abs(rows[held][i]) < SMALLEST_PIVOT:
            return i
        rows[i], rows[held] = rows[held], rows[i]
        clear(rows, i, skip_zero)
    return None


def inverse(rows):
    """"The right half is the inverse"."""
    return [row[len(rows):] for row in rows]
