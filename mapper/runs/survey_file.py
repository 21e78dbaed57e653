"""The survey file, which the proved program and the library read: docs/REFERENCE.md, section 12; and how much each of them takes."""
import struct

from mapper.runs.survey import SAME_SPOT

CODES = {'constant': 1, 'linear': 2, 'quadratic': 3}
EXTERNAL = 4
MODELS = {'spherical': 1, 'exponential': 2, 'gaussian': 3, 'linear': 4}
COLUMNS = {'constant': ['1'], 'linear': ['1', 'x', 'y'], 'quadratic': ['1', 'x', 'y', 'x²', 'xy', 'y²']}
WELLS, PROGRAM_WELLS = 96, 48  # at most: in a call of the library and in a survey file; in one that the program answers
DRIFT, NODES = 12, 100         # both take as many columns, and as many nodes a sheet


def can_say(survey):
    """Whether a survey file says all of a survey: it has no place for a same-spot distance, and is read with the plain one."""
    return survey.same_spot in (None, SAME_SPOT)


def program_takes(survey):
    """Whether the program answers a survey: a file says all of it, and it has no more wells than the program takes."""
    return can_say(survey) and len(survey.wells) <= PROGRAM_WELLS


def version(wells):
    """That of a file with so many wells: 2 above what was taken when there was one version alone, so that a reader of then turns it away."""
    return 2 if PROGRAM_WELLS < wells <= WELLS else 1


def columns(trend, external):
    """What the audit's rows are, in words."""
    return COLUMNS[trend] + ([] if external is None else [external])


def codes(trend, external):
    """The trend's codes, a byte each."""
    return bytes([CODES[trend]] + ([] if external is None else [EXTERNAL]))


def packed(numbers):
    numbers = list(numbers)
    return struct.pack(f'<{len(numbers)}d', *numbers)


def head(variogram, regularization, tolerance):
    """The five numbers that the body begins with."""
    return packed((variogram.nugget, variogram.sill, variogram.range, regularization, tolerance))


def trailer(wells, nodes, codes, model, note=0):
    """What the file ends with: how long its note is, how many wells, nodes and codes it has, the model, the version and two zeros."""
    return struct.pack('<IHHHBBH', note, wells, nodes, len(codes), MODELS[model], version(wells), 0)
