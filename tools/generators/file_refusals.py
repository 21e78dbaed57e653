"""Calls of the reader and of the writer that are refused. The number that each has to give stands here, apart from the reading's."""
from tools.generators.file_case import MOST_BYTES, MOST_NUMBERS, Read, Write, cycled, file_of, room, survey_of, written_file
from tools.generators.file_cases import CODES, LONGEST
from tools.generators.refused import Refusals, changes, edited, shorts, too_short
from tools.reading import edges
from tools.reading.survey_file import Lists, file_length, writer_tests

BASE = file_of(1, 2, [1, 4, 2])
NONE = Lists(0, 0, 0, 0, 0, 0)
ALL = Lists(MOST_NUMBERS, MOST_NUMBERS, MOST_BYTES, MOST_NUMBERS, MOST_NUMBERS, MOST_NUMBERS)


def in_trailer():
    """What the trailer says, one thing wrong: no count meets the length, another model or version, a zero that is not zero."""
    for name in ("start", "n", "m", "count"):
        yield from (BASE._replace(**{name: getattr(BASE, name) + by}) for by in (1, 2, 256, 65000))
    yield from (BASE._replace(**{name: 0}) for name in ("n", "m", "count"))
    yield from (BASE._replace(**{name: 65535}) for name in ("n", "m", "count"))
    yield from (BASE._replace(start=start) for start in (2**16, 2**24, 2**31, 2**32 - 1))
    yield from (BASE._replace(model=model) for model in (0, 5, 6, 128, 255))
    yield from (BASE._replace(version=version) for version in (0, 2, 3, 128, 255))
    yield from (BASE._replace(zeros=zeros) for zeros in (b"\1\0", b"\0\1", b"\1\1", b"\x80\0", b"\0\xff"))


def exchanged():
    """Two counts of the trailer exchanged, and counts whose sum comes out right only if it wraps at 2^32."""
    yield BASE._replace(n=BASE.m, m=BASE.n)
    yield BASE._replace(m=BASE.count, count=BASE.m)
    yield BASE._replace(n=BASE.count, count=BASE.n)
    yield BASE._replace(start=BASE.n, n=BASE.start)
    # a well more has 32 bytes more, with the external column
    yield BASE._replace(n=BASE.n + 1, start=2**32 - 32)
    # high bytes first
    yield BASE._replace(n=BASE.n << 8, m=BASE.m << 8, count=BASE.count << 8)


def other_codes():
    """A code 4 more, or one less: the numbers do not meet. One code too few before the trailer, or one too many."""
    yield BASE._replace(codes=[1, 1, 2])
    yield BASE._replace(codes=[1, 4, 4])
    yield BASE._replace(codes=[1, 4])
    yield BASE._replace(codes=[1, 4, 2, 2])
    # the 4 stands before the codes that are counted
    yield BASE._replace(count=1, start=2)


def cut():
    """Lengths: under 14 bytes, a trailer alone, a byte lost or one too many."""
    data = BASE.data()
    yield from (b"", b"\0", data[-13:], data[-14:], bytes(14), data[-53:], bytes(54), data[:-1], data[1:], data + b"\0", b"n" + data, data[:-15] + data[-14:])
    # 14 bytes before the trailer, or 13, that could be codes
    yield from (bytes(c) + bytes(8) + bytes([c, 0, 1, 1, 0, 0]) for c in (0, 13, 14, 15))
    yield from (bytes([4]) * 5 + bytes(4 + 4) + bytes([count, 0, 1, 1, 0, 0]) for count in (5, 6, 255))


def too_long_files():
    """Well formed, but for a byte more than 65,536; and much longer."""
    for n, m, codes, note in LONGEST:
        file = file_of(n, m, codes + [1], note=b"n" * note)
        assert len(file.data()) == 65537
        yield file
    yield file_of(1, 2, [1, 4, 2], note=b"n" * (65537 - len(BASE.data())))
    yield file_of(0, 0, cycled(CODES, 65535))
    yield file_of(0, 0, [1], note=b"m" * (MOST_BYTES - 55))


def malformed_files():
    yield from (file.data() for ways in (in_trailer(), exchanged(), other_codes()) for file in ways)
    yield from cut()
    yield from (file.data() for file in too_long_files())


def plenty(file):
    return Lists(*(length + 3 for length in room(file)))


def short_by(lent, place, by=1):
    return Lists(*(length - by if i == place else length for i, length in enumerate(lent)))


def short_areas():
    """Each area a place too short, the others as long as they have to be, and longer; all too short; none at all."""
    for n, m, codes in ((1, 2, [1, 4, 2]), (3, 2, [4, 4]), (2, 1, cycled([1, 4], 5))):
        file = file_of(n, m, codes, note=b"note")
        for place, length in enumerate(room(file)):
            yield Read(file.data(), short_by(room(file), place), 18)
            yield Read(file.data(), short_by(plenty(file), place, 4), 18)
            yield Read(file.data(), short_by(room(file), place, length), 18)
        yield Read(file.data(), Lists(*(length - 1 for length in room(file))), 18)
        yield Read(file.data(), NONE, 18)
    for n, m, codes, note in LONGEST:
        file = file_of(n, m, codes, note=b"n" * note)
        yield from (Read(file.data(), short_by(room(file), place), 18) for place, length in enumerate(room(file)) if length)


def refused_reads():
    # all the room that there is, and none: 16 counts before 18
    for data in malformed_files():
        yield Read(data, ALL, 16)
        yield Read(data, NONE, 16)
    yield from short_areas()


# ---- the writer
SURVEY = survey_of(1, 2, [1, 4, 2])


def with_codes(total):
    """As many codes 1 more as make a file of so many bytes."""
    return edges.edit(codes=lambda call: call.codes + [1] * max(0, total - file_length(call)))


def many(**counts):
    """A survey of other counts whose file is a byte too long, with the call's own r, t and variogram."""
    def grown(call):
        survey = survey_of(counts.get("n", call.n), counts.get("m", call.m), [1, 4])._replace(r=call.r, t=call.t, variogram=call.variogram)
        return survey._replace(codes=survey.codes + [1] * (65537 - file_length(survey)))

    return grown


EDITS = {
    **{number: edges.WRITER_EDITS[number] for number in (1, 2, 6, 8, 11, 22)},
    16: [with_codes(65537), with_codes(65540), many(n=2000), many(m=2700), edges.edit(codes=lambda call: call.codes + [1] * (65535 - len(call.codes)))],
}
WAYS = {**changes(EDITS), 18: too_short([0])}
# beside an earlier number: of 11 a list that this leaves alone, and of 16 so many bytes that a list may lose some
BESIDE = {11: edges.spoilt("values", 0), 16: [with_codes(65600)]}
REFUSALS = Refusals(edges.WRITER_ORDER, WAYS, {number: ways[0] for number, ways in changes(BESIDE).items()}, set())


def bytes_for(survey, ways):
    """As many bytes as the file would have, or one less."""
    return file_length(survey) - len(shorts(ways))


def refused_by(combinations):
    for first, numbers, ways in combinations:
        survey = edited(SURVEY, ways)
        lent = bytes_for(survey, ways)
        applies = {number for number, test in writer_tests(survey, bytes(lent)) if test}
        assert set(numbers) <= applies, (first, numbers, applies)
        yield Write(survey, lent, first)


def refused_writes():
    """Without the number that came later: its calls stand by themselves (file_spots.py)."""
    yield from refused_by(REFUSALS.without(22).combined())
    # 18 alone, at every length below the file's that could be taken for it
    length = len(written_file(SURVEY).data())
    yield from (Write(SURVEY, lent, 18) for lent in (0, 1, 14, length - 14, length - 8, length - 1))
    for n, m, codes, note in LONGEST:
        survey = survey_of(n, m, codes + [1] * note)
        # more than 96 wells, of which no file is written
        yield Write(survey, 65535, 16 if n > 96 else 18)
        # a byte too long, with room for it, with room for less, and with none: 16 counts before 18
        yield from (Write(survey._replace(codes=survey.codes + [1]), lent, 16) for lent in (65537, 65536, 0))
    # "a count over 65,535"
    yield from (Write(survey_of(0, 0, cycled(CODES, count)), lent, 16) for count in (65535, 65536) for lent in (0, MOST_BYTES))
