"""crates/vectors_file: files that are read and surveys that are written, as file_cases.py, file_refusals.py, file_spots.py and file_versions.py have them,
with all that is left in the areas.

The bytes of every file are put together by file_case.py from the paper's sentence, the answers are tools/reading's; where what the one writes is not what
the other has, or a call ends by another number than is written down for it, nothing is written. The original has no survey file.

A record is words of 64 bits and bytes. First the call, 1 the reader's, 2 the writer's.

    reader: how much is lent of values, coordinates, codes, externals, nodes, node externals; the file. Then the number, 0 for an answer; wells, nodes,
        codes, model, nugget, sill, range, same-spot distance, r, t, all 0 in a refusal; and what is written of each of the six areas.
    writer: the lengths of values, coordinates, externals, nodes, node externals; model, nugget, sill, range, same-spot distance, r, t; how many bytes are
        lent; those lists as one; the codes. Then the number; how many bytes are written; and those.

A list comes as its bytes, eight for a number, and these as runs, so that a long one takes little room: how many runs; of each how many places it has, how
many of them are told, and those. Each place after these is as that so many places before it.
"""
import struct
from typing import NamedTuple

from tools.generators.file_case import CODE_PERIOD, MOST_BYTES, MOST_NUMBERS, PERIOD, Read, Write, written_file
from tools.generators.file_cases import read_cases, write_cases
from tools.generators.file_covered import covered
from tools.generators.file_refusals import refused_reads, refused_writes
from tools.generators.file_spots import spot_writes
from tools.generators.file_versions import version_reads, version_writes
from tools.generators.file_versions_covered import covered_versions
from tools.generators.replay import made_files, marked, untouched, written_lines
from tools.patterns import bits
from tools.reading import survey_file
from tools.reading.survey_file import Lists

MOST_STORED = 1_000_000
PARTS = ["values", "coordinates", "codes", "externals", "nodes", "node externals"]
# after how many bytes a list may come again: one, the codes', the numbers'; and how many it has to save
PERIODS = (1, CODE_PERIOD, 8 * PERIOD)
SAVES = 40
# what a file says besides its lists
HEADER = 10


class Ended(NamedTuple):
    """A case, how it ended, and what is told: of the reader the header and six lists, of the writer the length and the bytes."""

    case: object
    number: int
    header: list
    lists: list


def mark_bytes(length):
    return [160 + at % 61 for at in range(length)]


def lent_areas(lengths):
    areas = Lists(*map(marked, lengths))
    return areas._replace(codes=mark_bytes(lengths.codes))


def read(case):
    """What the reading makes of a file."""
    areas, before = lent_areas(case.lent), lent_areas(case.lent)
    number, survey = survey_file.read(case.data, areas)
    lists = list(survey[:6]) if survey else [[]] * 6
    written = list(map(len, lists))
    numbers = [0, 1, 3, 4, 5]
    assert untouched([areas[i] for i in numbers], [before[i] for i in numbers], [written[i] for i in numbers]), case.number
    assert areas.codes[written[2]:] == before.codes[written[2]:]
    assert [list(map(bits, areas[i][:written[i]])) for i in numbers] == [list(map(bits, lists[i])) for i in numbers]
    if survey is None:
        return Ended(case, number, [0] * HEADER, lists)
    v = survey.variogram
    return Ended(case, number, [survey.n, survey.m, len(survey.codes), v.model, *map(bits, [*v[1:], survey.r, survey.t])], lists)


def reads_back(survey, data):
    """"what it wrote reads back bit for bit", but for node externals that are ignored."""
    taken = survey if survey.k else survey._replace(node_external=[])
    number, got = survey_file.read(data, Lists(*([0] * len(items) for items in taken[:6])))
    same = [list(map(bits, items)) for items in got[:6]] == [list(map(bits, items)) for items in taken[:6]]
    return number == 0 and same and list(map(bits, [*got.variogram, got.r, got.t])) == list(map(bits, [*taken.variogram, taken.r, taken.t]))


def write(case):
    """What the reading makes of a survey: held to the file that is put together apart from it, and read back."""
    area = bytearray(mark_bytes(case.lent))
    number, length = survey_file.write(case.survey, area)
    assert list(area[length:]) == mark_bytes(case.lent)[length:]
    assert number or bytes(area[:length]) == written_file(case.survey).data() and reads_back(case.survey, bytes(area[:length])), case.survey
    return Ended(case, number, [length], [list(area[:length])])


def repeated(items, start, period):
    """How far a list goes on from a place as it began there."""
    at = start + period
    while at < len(items) and items[at] == items[at - period]:
        at += 1
    return at


def longest_run(items, at):
    """Where the longest run from a place ends, and after how many places it comes again."""
    return max(((repeated(items, at, period), period) for period in PERIODS), key=lambda run: (run[0] - run[1], -run[1]))


def runs(items):
    """A list as runs: where each begins, where it ends and how many of its places are told. Only what saves much is repeated."""
    found, start, at = [], 0, 0
    while at < len(items):
        end, period = longest_run(items, at)
        if end - at - period < SAVES:
            at += 1
            continue
        found += [(start, at, at - start), (at, end, period)]
        start = at = end
    found.append((start, at, at - start))
    return [run for run in found if run[0] < run[1]]


def packed_bytes(items):
    items = bytes(items)
    parts = runs(items)
    return packed([len(parts)]) + b"".join(packed([end - start, told]) + items[start:start + told] for start, end, told in parts)


def packed_words(items):
    return packed_bytes(packed(list(map(bits, items))))


def packed(words):
    return struct.pack(f"<{len(words)}Q", *words)


def read_record(ended):
    told = [packed_bytes(items) if place == 2 else packed_words(items) for place, items in enumerate(ended.lists)]
    return packed([1, *ended.case.lent]) + packed_bytes(ended.case.data) + packed([ended.number, *ended.header]) + b"".join(told)


def write_record(ended):
    survey = ended.case.survey
    lists = [survey.values, survey.coords, survey.external, survey.nodes, survey.node_external]
    v = survey.variogram
    head = [*map(len, lists), v.model, *map(bits, [*v[1:], survey.r, survey.t]), ended.case.lent]
    data = packed([2, *head]) + packed_words([x for items in lists for x in items]) + packed_bytes(survey.codes)
    return data + packed([ended.number, *ended.header]) + packed_bytes(ended.lists[0])


def record(ended):
    return read_record(ended) if isinstance(ended.case, Read) else write_record(ended)


def fits_program(case):
    """The program's own arrays are as long as this."""
    if isinstance(case, Read):
        return len(case.data) <= MOST_BYTES and case.lent.codes <= MOST_BYTES and max(case.lent._replace(codes=0)) <= MOST_NUMBERS
    numbers = [*case.survey.values, *case.survey.coords, *case.survey.external, *case.survey.nodes, *case.survey.node_external]
    return len(numbers) <= MOST_NUMBERS and max(len(case.survey.codes), case.lent) <= MOST_BYTES


def counted(all_ended):
    """How many places are compared of each part."""
    reads = [ended for ended in all_ended if isinstance(ended.case, Read)]
    writes = [ended for ended in all_ended if isinstance(ended.case, Write)]
    told = {name: sum(len(ended.lists[place]) for ended in reads) for place, name in enumerate(PARTS)}
    file_bytes = sum(len(ended.lists[0]) for ended in writes)
    lent = sum(sum(ended.case.lent) for ended in reads) + sum(ended.case.lent for ended in writes)
    past = lent - sum(told.values()) - file_bytes
    return {"headers": HEADER * len(reads), **told, "lengths of files": len(writes), "bytes of files": file_bytes, "places not to be written": past}


def files():
    reads = [*map(read, read_cases()), *map(read, refused_reads())]
    all_ended = [*reads, *map(write, write_cases()), *map(write, refused_writes()), *map(write, spot_writes())]
    all_ended += [*map(read, version_reads()), *map(write, version_writes())]
    for ended in all_ended:
        assert fits_program(ended.case) and ended.number == ended.case.number, (ended.case.number, ended.number)
    covered(all_ended)
    covered_versions(all_ended)
    return made_files(map(record, all_ended), written_lines([ended.number for ended in all_ended], counted(all_ended)), MOST_STORED)
