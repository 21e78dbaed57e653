"""Files of both versions by their wells, and surveys that are written with the one or the other. The number that each has to give stands here, apart from
the reading's: "version 1 at any n as before; a version 2 file must have n from 49 to 96, else 16"; "The writer refuses n > 96 by 16"."""
import math

from tools.generators.file_case import Read, Write, cycled, file_of, room, survey_of, written_file
from tools.generators.file_cases import more, reads
from tools.generators.file_refusals import ALL, NONE, plenty, short_by
from tools.reading import edges

# n, m and the codes of a file of 65,536 bytes with as many wells as version 2 takes
LONGEST = 96, 100, [4] * 39 + [1] * 387
# what low and high bytes of n say: 49 to 96 in the one alone, and in neither
OTHER_BYTES = [256 + n for n in (0, 48, 49, 60, 96, 97)] + [512 + 60, 768, 1536]


def version(number, n, m=2, codes=(1, 4, 2), note=b"", model=1):
    return file_of(n, m, codes, note=note, model=model)._replace(version=number)


def read_so(files, number):
    """Each with all the room there is, and with none: then 18 where it is well formed."""
    for file in files:
        yield Read(file.data(), ALL, number)
        yield Read(file.data(), NONE, number or 18)


def taken():
    """Files whose lengths meet: of version 1 with any wells, of version 2 with 49 to 96."""
    yield from (version(1, n) for n in (0, 1, 48, 49, 60, 95, 96, 97, 98, 305, 500))
    yield from (version(2, n) for n in (49, 50, 60, 95, 96))
    yield from (version(2, 60, m, codes, b"note", model) for m, codes, model in ((0, [], 1), (49, [4], 2), (3, cycled([1, 2], 300), 3), (259, [3, 4, 4], 4)))


def malformed():
    """Version 2 with other wells, counts beside n in its place, low and high bytes; versions that there are not; and what else is wrong of a version 2."""
    yield from (version(2, n) for n in (0, 1, 2, 47, 48, 97, 98, 500, *OTHER_BYTES))
    # 60 nodes, 60 codes or a note of 60 bytes, and 48 wells or 97
    for n in (48, 97):
        yield from (version(2, n, 60), version(2, n, 2, cycled([1, 4], 60)), version(2, n, note=b"n" * 60), version(2, n, 60, cycled([1], 60), b"n" * 60))
    yield from (version(other, n) for other in (0, 3, 4, 18, 128, 130, 255) for n in (1, 49, 60, 96))
    # the trailer says 60 and there are 61, or the other way round
    for other in (1, 2):
        yield from (version(other, has)._replace(n=says) for has, says in ((61, 60), (60, 61), (97, 96), (96, 97), (48, 49), (49, 48)))
    good = version(2, 60)
    yield from (good._replace(model=model) for model in (0, 5, 255))
    yield from (good._replace(zeros=zeros) for zeros in (b"\1\0", b"\0\2", b"\0\1"))
    yield from (good._replace(**{name: getattr(good, name) + 1}) for name in ("start", "m", "count"))
    yield from (good._replace(codes=codes) for codes in ([1, 1, 2], [1, 4, 4], [1, 4]))


def short_areas():
    """Version 2: each area a place too short, the others as long as they have to be, and longer; just as long; longer."""
    for n in (49, 96):
        file = version(2, n, 3, [4, 1, 4])
        for place in range(6):
            yield Read(file.data(), short_by(room(file), place), 18)
            yield Read(file.data(), short_by(plenty(file), place, 4), 18)
        # as much as 48 wells need
        yield Read(file.data(), room(file)._replace(values=48, coords=96, external=96), 18)
        yield Read(file.data(), room(file), 0)
        yield Read(file.data(), more(room(file), 2), 0)


def longest():
    n, m, codes = LONGEST
    file = version(2, n, m, codes)
    assert len(file.data()) == 65536
    yield reads(file)
    yield Read(version(2, n, m, codes + [1]).data(), ALL, 16)
    yield Read(version(2, 97, m - 1, codes).data(), ALL, 16)


def version_reads():
    yield from read_so(taken(), 0)
    yield from read_so(malformed(), 16)
    yield from short_areas()
    yield from longest()


def length(survey):
    return len(written_file(survey).data())


def by_wells():
    """48 wells with version 1, 49 to 96 with version 2, 97 and more not at all; 16 before 18."""
    for n in (0, 47, 48, 49, 50, 60, 95, 96, 97, 98, 304, 305, 316, 500):
        for m, codes, model in ((2, [1, 4, 2], 1), (0, [2], 4)):
            survey = survey_of(n, m, codes, model)
            number = 0 if n <= 96 else 16
            yield from (Write(survey, length(survey) + past, number) for past in (0, 3))
            yield from (Write(survey, lent, number or 18) for lent in (0, length(survey) - 1))


def beside():
    """97 wells beside what counts earlier, with room and without; beside too many codes. 96 wells with the same things wrong."""
    for n in (96, 97):
        survey = survey_of(n, 2, [1, 4, 2])
        for number in (1, 2, 6, 8, 11):
            for edit in edges.WRITER_EDITS[number][:3]:
                wrong = edit(survey)
                yield from (Write(wrong, lent, number) for lent in (0, length(survey) + 64))
                yield Write(wrong._replace(variogram=wrong.variogram._replace(same_spot=1.0)), 0, number)
        for name in ("r", "t"):
            yield Write(survey._replace(**{name: math.nan}), 0, 11)
        for spot in (1.0, edges.ABOVE_LEAST, math.nan):
            other = survey._replace(variogram=survey.variogram._replace(same_spot=spot))
            yield from (Write(other, lent, 22) for lent in (0, length(survey)))
        yield from (Write(survey_of(n, 0, cycled([1, 2, 3, 5, 2, 1, 3], count)), lent, 16) for count in (65535, 65536) for lent in (0, 66000))


def longest_written():
    n, m, codes = LONGEST
    survey = survey_of(n, m, codes)
    assert length(survey) == 65536
    yield from (Write(survey, lent, number) for lent, number in ((65536, 0), (65540, 0), (65535, 18), (0, 18)))
    yield from (Write(survey_of(n, m, codes + [1]), lent, 16) for lent in (65537, 0))


def version_writes():
    yield from by_wells()
    yield from beside()
    yield from longest_written()
