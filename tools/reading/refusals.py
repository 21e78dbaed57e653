"""Paper 01, "What turns a call away", and paper 02, "Ninety-six wells": the conditions that more than one call has, and their order."""
from tools.reading.floats import all_finite, is_finite

# slip 7: "Number 9 reads n > 96 in place of n > 48 in the library calls"; "`wellmap` gives 9 above 48"
MOST_WELLS, MOST_COLUMNS, MOST_NODES = 96, 12, 100
MOST_WELLS_OF_PROGRAM = 48
KINDS = {
    1: ("DimensionMismatch",),
    2: ("DimensionMismatch",),
    3: ("InvalidInput",),
    5: ("InvalidParameter",),
    6: ("DimensionMismatch",),
    7: ("InsufficientData",),
    8: ("DimensionMismatch", "InvalidInput"),
    14: ("InsufficientData",),
    19: ("MatrixError",),
}


def first(tests):
    """The number of the first test that applies, 0 where none does."""
    return next((number for number, applies in tests if applies), 0)


def negative_or_not_finite(x):
    """r and t: "r = −0 and t = −0 are accepted"."""
    return not is_finite(x) or x < 0.0


def some_not_finite(xs):
    return not all_finite(xs)


def too_short(areas_and_lengths):
    return any(len(area) < length for area, length in areas_and_lengths)
