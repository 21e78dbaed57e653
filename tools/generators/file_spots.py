"""Calls of the writer that 22 has a part in: a file has no place for the same-spot distance, so any other than 2^-52 is refused. The number that each
has to give stands here, apart from the reading's."""
import math

from tools.generators.file_case import MOST_BYTES, Write, cycled, survey_of, written_file
from tools.generators.file_cases import CODES, LONGEST
from tools.generators.file_refusals import REFUSALS, refused_by
from tools.reading import edges
from tools.reading.variogram import SAME_SPOT

SURVEY = survey_of(1, 2, [1, 4, 2])


def at(survey, spot):
    return survey._replace(variogram=survey.variogram._replace(same_spot=spot))


def plain():
    """Surveys that a file would hold, of every model and some shapes, but for the field: those that a fit takes among them."""
    for spot in edges.OTHER_SPOTS:
        for n, m, codes, model in ((1, 2, [1, 4, 2], 1), (0, 0, [], 2), (3, 5, [2], 3), (48, 100, [3, 4, 4], 4)):
            survey = at(survey_of(n, m, codes, model), spot)
            yield Write(survey, len(written_file(survey).data()), 22)
    # what a file holds: written, as with no field named
    for model in (1, 2, 3, 4):
        survey = at(survey_of(1, 2, [1, 4, 2], model), SAME_SPOT)
        yield Write(survey, len(written_file(survey).data()), 0)


def ordered():
    """22 after 11, r and t included; before 16 by bytes and by codes; before 18, with no room and with too little."""
    length = len(written_file(SURVEY).data())
    for spot in (1.0, math.nan, edges.ABOVE_LEAST):
        taken = at(SURVEY, spot)
        for odd in edges.ODD:
            yield from (Write(taken._replace(**{name: odd}), lent, 11) for name in ("r", "t") for lent in (length, 0))
        yield from (Write(at(survey_of(0, 0, cycled(CODES, count)), spot), lent, 22) for count in (65535, 65536) for lent in (0, MOST_BYTES))
        for n, m, codes, note in LONGEST:
            survey = at(survey_of(n, m, codes + [1] * note), spot)
            yield from (Write(survey, lent, 22) for lent in (65536, 65535, 0))
            yield from (Write(survey._replace(codes=survey.codes + [1]), lent, 22) for lent in (65537, 0))
        yield from (Write(taken, lent, 22) for lent in (0, 1, length - 1, length, length + 5))


def spot_writes():
    yield from plain()
    yield from refused_by(REFUSALS.combined_with(22))
    yield from ordered()
