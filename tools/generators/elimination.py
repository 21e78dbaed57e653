"""crates/vectors_elimination: inverses of the original, as records.py has them, and then whole work areas before and after; and last the largest inverses.

The original hands out the inverse alone. What stands in the left half, and what a stop leaves, is tools/reading's; where the original has an
inverse, the right half is held to it, and where it has none, the reading has to stop.

A record of an area: the call (6 the fit's elimination, 7 the interpolator's), how many words it has and how many its answer; the size and the
area's numbers; then 0, or the step from 1 where it stopped, and the area's numbers after.
"""
import math
import random

from tools.generators.draw import Draw, flat
from tools.generators.records import answered, files as made_files, number, numbers, packed, record
from tools.patterns import bits, word
from tools.reading.elimination import beside_identity, eliminate, inverse

CALLS = ("invert_uked", "matrix_inverse")
PAST = [1.5, -2.5, math.nan]


def struck():
    """Matrices of four rows with a NaN, an infinity or a signed zero at each place, and those that stop at the first, a middle and the last step."""
    plain = [[4.0, 1.0, -2.0, 0.5], [1.0, -3.0, 0.25, 2.0], [-2.0, 0.75, 5.0, 1.0], [0.5, 2.0, 1.0, -6.0]]
    for odd in (math.nan, math.inf, -math.inf, 0.0, -0.0):
        for at in range(16):
            rows = [row[:] for row in plain]
            rows[at // 4][at % 4] = odd
            yield rows
    for step in range(4):
        # rows and columns from the step on are alike, and below 2^-52
        yield [[2.0**-53 if min(i, j) >= step else float(i == j) for j in range(4)] for i in range(4)]
    # a factor that is a zero of either sign, beside entries whose product with it is a NaN or flips a zero's sign
    for zero in (0.0, -0.0):
        for beside in (math.inf, -0.0, 3.0):
            yield [[1.0, beside, 0.0], [zero, -0.0, 1.0], [2.0, 1.0, -0.0]]


def drawn_matrix(draw, size):
    style = draw.randrange(5)
    rows = [[round(draw.uniform(-9, 9), 3) for _ in range(size)] for _ in range(size)]
    if style == 0:
        rows = [[float(draw.randrange(-1, 2)) for _ in range(size)] for _ in range(size)]
    elif style == 1:
        rows = [[draw.measured() if draw.randrange(5) else draw.edge() for _ in range(size)] for _ in range(size)]
    elif style == 2 and size > 1:
        rows[-1] = [x * draw.choice([1.0, 1.0 + 2.0**-50]) for x in rows[0]]
    elif style == 3 and draw.randrange(3) == 0:
        rows[draw.randrange(size)][draw.randrange(size)] = draw.choice([math.nan, math.inf, -0.0])
    return rows


def inverted(draw):
    """The matrices whose inverses are asked for."""
    yield from struck()
    for size in [1, 2, 3, 4, 5, 6, 7, 8, 9, 10, 12]:
        for _ in range(24 if size < 8 else 6):
            yield drawn_matrix(draw, size)
    for pivot in (2.0**-52, 2.0**-52 * (1 - 2.0**-53), -(2.0**-52), 0.0, 5e-324, math.nan, math.inf):
        yield [[pivot]]
    yield drawn_matrix(draw, 60)


def inverse_records():
    calls = [[call, len(rows), *numbers(flat(rows))] for rows in inverted(Draw("nakwemol inverse")) for call in CALLS]
    return [record(call, answer) for call, answer in answered(calls)]


def whole(pick):
    """The matrices whose whole areas are told."""
    yield from struck()
    for size in (1, 2, 3, 5, 8, 12):
        for _ in range(10):
            rows = [[round(pick.uniform(-9, 9), 3) for _ in range(size)] for _ in range(size)]
            if size > 1 and pick.randrange(2):
                # a row that repeats another one stops a step on the way
                rows[pick.randrange(1, size)] = rows[0][:]
            if pick.randrange(3) == 0:
                rows[pick.randrange(size)][pick.randrange(size)] = pick.choice([0.0, -0.0, math.nan, math.inf, 1e300, 5e-324])
            yield rows


def area(rows):
    return [bits(x) for x in flat(rows) + PAST]


def area_record(matrix, call, answer):
    """One area's record, held to the original's answer."""
    rows = beside_identity(matrix)
    before = area(rows)
    step = eliminate(rows, skip_zero=call == "invert_uked")
    reading = "none" if step is not None else " ".join(["ok", str(len(matrix)), *(word(number(x)) for x in flat(inverse(rows)))])
    assert reading == answer, (matrix, call, reading, answer)
    asked, after = [len(matrix), *before], [0 if step is None else step + 1, *area(rows)]
    return packed([6 + CALLS.index(call), len(asked), len(after), *asked, *after])


def area_records():
    told = [(rows, call) for rows in whole(random.Random("nakwemol areas")) for call in CALLS]
    answers = answered([[call, len(rows), *numbers(flat(rows))] for rows, call in told])
    return [area_record(rows, call, answer) for (rows, call), (_, answer) in zip(told, answers)]


def largest(draw):
    """As many rows as a fit has at most, by the fit's elimination, and as an interpolation has, by its own: with an inverse, and with a column of zeros, at
    which a step on the way stops, or the last one; and one row more than a fit of 48 wells has at most, by both."""
    for size, call, stop in ((108, CALLS[0], 71), (100, CALLS[1], 99)):
        rows = plain_matrix(draw, size)
        yield call, rows
        yield call, [row[:stop] + [0.0] + row[stop + 1:] for row in rows]
    yield from ((call, plain_matrix(draw, 61)) for call in CALLS)


def plain_matrix(draw, size):
    return [[round(draw.uniform(-9, 9), 3) for _ in range(size)] for _ in range(size)]


def largest_records():
    calls = [[call, len(rows), *numbers(flat(rows))] for call, rows in largest(Draw("nakwemol inverse, ninety-six wells"))]
    records = list(answered(calls))
    assert [(call[1], answer == "none") for call, answer in records] == [(108, False), (108, True), (100, False), (100, True), (61, False), (61, False)]
    return [record(call, answer) for call, answer in records]


def files():
    return made_files(inverse_records() + area_records() + largest_records())
