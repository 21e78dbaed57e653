"""Holds the reading to the refusals of edges.py: each at its edges, alone, and together with every later one of its call; and to calls just inside.

Of two edits the one that counts first is made last, so that the other cannot undo it.
"""
import math

from tools.reading import edges, fit, interpolator, semivariogram, survey_file, wellmap
from tools.reading.edges import MODEL, TINY, spread, survey
from tools.reading.lent import area, fit_lengths, query_lengths


def fit_number(call, short=None):
    lengths = fit_lengths(call)
    return fit.fit(call, fit.Areas(*(area(length - (i == short)) for i, length in enumerate(lengths))))


def query_number(call, short=None):
    lengths = query_lengths(call if call.d else call._replace(d=1))
    return interpolator.interpolate(call, interpolator.Areas(*(area(length - (i == short)) for i, length in enumerate(lengths))))


def samples_number(call, short=None):
    return semivariogram.calculate(call, semivariogram.Areas(*(area(call.bins - (i == short)) for i in range(3))))[0]


def writer_number(call, short=None):
    return survey_file.write(call, bytearray(survey_file.file_length(call) - (short is not None)))[0]


def counted(order, edits, shorts, base, number_of):
    """Asserts each number alone and with each later one; answers how many calls that took."""
    ways = {number: [(change, None) for change in changes] for number, changes in edits.items()}
    ways.update({number: [(lambda call: call, place) for place in places] for number, places in shorts.items()})
    calls = 0
    for at, first in enumerate(order):
        for change, short in ways[first]:
            others = [None, *(way for later in order[at + 1:] for way in ways[later][:3])]
            for other in others:
                call = change(other[0](base) if other else base)
                lent_short = short if short is not None else other and other[1]
                assert number_of(call, lent_short) == first, (order, first, calls)
                calls += 1
    return calls


def accepted():
    """Calls just inside the edges: refused by none, or by 19 alone."""
    base, query, samples = survey(), edges.QUERY, edges.SAMPLES._replace(bins=64)
    fits = [base, base._replace(r=-0.0), base._replace(t=-0.0), survey(n=96), survey(m=100), survey(m=0), survey(n=12, codes=[3, 2, 1, 4, 4])]
    fits += [survey(n=48), survey(n=49), survey(codes=[1])._replace(node_external=[math.nan]), survey(n=2), base._replace(variogram=MODEL._replace(model=4))]
    # 12 is of Exponential alone, and of a range that is not above zero
    spans = [*((2, span) for span in (TINY, 8.0)), *((3, span) for span in (TINY, 8.0, 0.0, -0.0, -8.0)), (1, 0.0), (1, -8.0), (4, 0.0), (4, -8.0)]
    models = [MODEL._replace(model=model, range=span) for model, span in spans] + [MODEL._replace(same_spot=x) for x in edges.TAKEN_SPOTS]
    fits += [base._replace(variogram=model) for model in models]
    assert all(fit_number(call) in (0, 19) for call in fits) and fit_number(base) == 0
    queries = [query, query._replace(values=[], coords=[]), query._replace(values=spread(96), coords=spread(192), targets=spread(200))]
    queries += [query._replace(variogram=model) for model in models]
    assert all(query_number(call) in (0, 19) for call in queries) and query_number(queries[1]) == 19
    assert samples_number(samples) == 0 == samples_number(samples._replace(bins=1, values=spread(96), coords=spread(192)))
    return len(fits) + len(queries) + 2


def reader_number(data, short=None):
    lists = survey_file.parsed(data)[:6] if not survey_file.malformed(data) else [[]] * 6
    return survey_file.read(data, survey_file.Lists(*([0] * (len(items) - (i == short)) for i, items in enumerate(lists))))[0]


def reader_edges():
    """Files that are well formed, and the same with one thing wrong."""
    call = survey()
    area_of_file = bytearray(survey_file.file_length(call))
    survey_file.write(call, area_of_file)
    data = bytes(area_of_file)
    noted = bytes(65536 - len(data)) + data[:-14] + (65536 - len(data)).to_bytes(4, "little") + data[-10:]
    wrong = [b"", data[-13:], data[:-1], data[1:], data + b"\0", b"n" + data, bytes(1) + noted, data[:-15] + data[-14:]]
    wrong += [data[:at] + bytes([data[at] ^ 1]) + data[at + 1:] for at in range(len(data) - 14, len(data)) if at != len(data) - 4]
    wrong += [data[:-4] + bytes([model]) + data[-3:] for model in (0, 5, 255)]
    wrong += [data[:-15] + b"\1" + data[-14:]]  # the code 4 gone: no externals, so the lengths do not meet
    assert len(noted) == 65536 and reader_number(data) == 0 == reader_number(noted)
    assert all(reader_number(bad) == 16 for bad in wrong)
    assert all(reader_number(data, short) == 18 for short in range(6))
    return len(wrong) + 8


def file_of(call, version, **changes):
    """A survey's file of that version, whatever the writer makes of it; the trailer may say another n."""
    trailer = survey_file.trailer(call, version=version)
    n = changes.get("n", call.n)
    return survey_file.body(call) + trailer[:4] + n.to_bytes(2, "little") + trailer[6:]


def version_edges():
    """The version by the wells: what is read, and what is written."""
    taken = {1: (0, 1, 48, 49, 60, 96, 97, 500), 2: (49, 60, 96)}
    refused = {2: (0, 1, 48, 97, 305, 500), 0: (1, 60), 3: (1, 60), 255: (60,)}
    assert all(reader_number(file_of(survey(n=n), version)) == 0 for version, counts in taken.items() for n in counts)
    assert all(reader_number(file_of(survey(n=n), version)) == 16 for version, counts in refused.items() for n in counts)
    # what the trailer says has to be what there is
    assert [reader_number(file_of(survey(n=61), version, n=60)) for version in (1, 2)] == [16, 16]
    for n, version in ((0, 1), (48, 1), (49, 2), (96, 2)):
        area_of_file = bytearray(survey_file.file_length(survey(n=n)))
        assert survey_file.write(survey(n=n), area_of_file)[0] == 0 and area_of_file[-3] == version
    return sum(map(len, [*taken.values(), *refused.values()])) + 6


def program_edges():
    """What the program prints of files of both versions: 9 above 48 wells, in its own place."""
    many = survey(n=49)
    told = [(many, 9), (many._replace(r=-1.0), 5), (many._replace(codes=[], external=[], node_external=[]), 3), (many._replace(t=-1.0), 9)]
    told += [(many._replace(values=[math.nan] * 49), 9), (survey(n=60, m=101), 9), (survey(n=96), 9), (many._replace(codes=[1, 4, 0]), 4)]
    for call, number in told:
        for version in (1, 2):
            assert wellmap.lines(file_of(call, version)) == [f"refused {number}"], (number, version)
    assert wellmap.lines(file_of(survey(n=97), 1)) == ["refused 9"] and wellmap.lines(file_of(survey(n=97), 2)) == ["refused 16"]
    assert wellmap.lines(file_of(survey(n=48), 1))[0] == "nodes 2" and wellmap.lines(file_of(survey(n=48), 2)) == ["refused 16"]
    return 2 * len(told) + 4


def check():
    """How many calls were refused, or accepted, as they have to be."""
    total = accepted() + reader_edges() + version_edges() + program_edges()
    total += counted(edges.FIT_ORDER, edges.FIT_EDITS, {17: [6], 18: [0, 1, 2, 3, 4, 5]}, survey(), fit_number)
    total += counted(edges.QUERY_ORDER, edges.QUERY_EDITS, {17: [2], 18: [0, 1]}, edges.QUERY, query_number)
    total += counted(edges.SAMPLES_ORDER, edges.SAMPLES_EDITS, {18: [0, 1, 2]}, edges.SAMPLES, samples_number)
    total += counted(edges.WRITER_ORDER, edges.WRITER_EDITS, {18: [0]}, survey(), writer_number)
    return total
