"""Files of version 1 that are read and surveys that are written: every count and every length at its edge, any pattern of a number, the longest file in five
shapes. One of these and one of the longest have more wells than a writer takes."""
import math

from tools.generators.file_case import CODE_PERIOD, Read, Write, cycled, file_of, room, survey_of, with_pattern, written_file
from tools.reading.survey_file import Lists

# n, m and the codes: none of each, one of each, three codes beside two nodes, columns before and after, codes that no fit takes, counts of two bytes
SHAPES = [
    (0, 0, []),
    (1, 0, []),
    (0, 1, []),
    (0, 0, [1]),
    (0, 0, [4]),
    (1, 2, [1, 4, 2]),
    (2, 1, [4, 3, 4]),
    (3, 5, [2]),
    (5, 3, [4, 4]),
    (4, 2, [0, 4, 5, 255, 4, 3]),
    (1, 4, [4]),
    (258, 3, [1]),
    (2, 259, [1]),
    (1, 2, cycled([3, 1, 2], 260)),
    (2, 3, cycled([4, 1], 9)),
    (48, 100, [3, 4, 4]),
    (49, 101, [1, 4]),
]
# five ways to 65,536 bytes, each one byte of the last list or of the note away from 65,537
CODES = [1, 2, 3, 5, 2, 1, 3]
LONGEST = [
    (2728, 0, CODES + CODES[:3], 0),
    (0, 4092, CODES + CODES[:3], 0),
    (0, 0, cycled(CODES, 65482), 0),
    (1, 0, [4] * 7273, 1),
    (3, 5, [4, 4], 65536 - 8 * (5 + 9 + 6 + 10 + 10) - 2 - 14),
]
assert len(CODES) == CODE_PERIOD
NOTES = [b"", b"a", b"a note\n", bytes(range(14)), b"x" * 13, b"y" * 257, b"z" * 54]
# minus zero, the least f64, a subnormal one, the greatest, both infinities, and a NaN of every kind: quiet, with a payload, signalling, negative
ODD = [1 << 63, 1, 0x000F_FFFF_FFFF_FFFF, 0x7FEF_FFFF_FFFF_FFFF, 0x7FF0 << 48, 0xFFF0 << 48]
NANS = [0x7FF8 << 48, 0x7FF8_0000_0000_00FF, 0x7FF0_0000_0000_0001, 0x7FF7_FFFF_FFFF_FFFF, 0xFFF8 << 48, 0xFFFF_FFFF_FFFF_FFFF, 0xFFF0_0000_0000_0001]


def more(lent, by):
    return Lists(*(length + by + place % 2 for place, length in enumerate(lent)))


def reads(file, past=0):
    """A file that is read, with areas of just the lengths, and with some places more."""
    return Read(file.data(), more(room(file), past) if past else room(file), 0)


def read_cases():
    for n, m, codes in SHAPES:
        yield reads(file_of(n, m, codes))
        yield reads(file_of(n, m, codes, note=b"note"), past=2)
    yield from (reads(file_of(1, 2, [1, 4, 2], model=model, note=note)) for model in (1, 2, 3, 4) for note in NOTES)
    file = file_of(1, 2, [1, 4, 2])
    yield from (reads(with_pattern(file, at, pattern)) for at in range(len(file.patterns)) for pattern in ODD + NANS)
    for n, m, codes, note in LONGEST:
        whole = file_of(n, m, codes, note=b"n" * note)
        assert len(whole.data()) == 65536
        yield reads(whole)
        yield reads(whole, past=3)
    yield reads(file_of(0, 0, cycled(CODES, 65481)))


def writes(survey, past=0):
    """A survey that is written, with bytes enough and some more; 97 wells and more no file is written of."""
    return Write(survey, len(written_file(survey).data()) + past, 16 if len(survey.values) >= 97 else 0)


def odd_numbers(survey):
    """The same survey with a number that is finite in each place of it."""
    for x in (-0.0, 0.0, 5e-324, -2.0**-1030, 1.7976931348623157e308):
        yield survey._replace(variogram=survey.variogram._replace(nugget=x, sill=-x, range=x), r=x, t=-x)
        for name in ("values", "coords", "external", "nodes", "node_external"):
            yield survey._replace(**{name: [x] + getattr(survey, name)[1:]})


def write_cases():
    for n, m, codes in SHAPES:
        yield writes(survey_of(n, m, codes))
        yield writes(survey_of(n, m, codes), past=5)
    base = survey_of(1, 2, [1, 4, 2])
    yield from (writes(survey_of(1, 2, [1, 4, 2], model=model), past=1) for model in (1, 2, 3, 4))
    yield from map(writes, odd_numbers(base))
    # "ignored if k = 0": not written, not counted and not judged
    without = survey_of(2, 3, [1, 2])
    yield from (writes(without._replace(node_external=list(ignored))) for ignored in ([1.0], [1.0] * 3, [math.nan], [math.inf] * 9))
    for n, m, codes, note in LONGEST:
        # there is no note: one code more for each byte of it
        survey = survey_of(n, m, codes + [1] * note)
        assert len(written_file(survey).data()) == 65536
        yield writes(survey)
        yield writes(survey, past=4)
