"""What the stored calls of the reader and of the writer have to have among them of the two versions: the generator stops where one is missing."""
from tools.generators.file_case import Read
from tools.generators.file_covered import applying


def trailer(data):
    """The version and n that a file says."""
    return data[-3], int.from_bytes(data[-10:-8], "little")


def covered_reads(reads):
    reads = [e for e in reads if len(e.case.data) >= 14]
    ended = {(*trailer(e.case.data), e.number) for e in reads}
    # "version 1 at any n as before"
    assert {(1, n, 0) for n in (0, 48, 49, 60, 96, 97, 500)} <= ended
    assert {(2, n, 0) for n in (49, 60, 96)} | {(2, n, 16) for n in (0, 1, 48, 97, 305, 316, 500)} | {(2, n, 18) for n in (49, 96)} <= ended
    assert {(version, n, 16) for version in (0, 3, 255) for n in (1, 49, 96)} <= ended
    taken = {(version, n) for version, n, number in ended if number == 0}
    assert {version for version, _ in taken} == {1, 2} and {n for version, n in taken if version == 2} <= {*range(49, 97)}
    # what is not 60, where n is: m, the code count and S
    assert any(trailer(e.case.data) == (2, 48) and e.case.data[-8:-6] == bytes([60, 0]) for e in reads if e.number == 16)
    assert {e.header[3] for e in reads if e.number == 0 and trailer(e.case.data)[0] == 2} == {1, 2, 3, 4}
    assert any(len(e.case.data) == 65536 and trailer(e.case.data) == (2, 96) and e.number == 0 for e in reads)


def covered_writes(writes):
    written = {(e.case.survey.n, e.lists[0][-3]) for e in writes if e.number == 0}
    assert {(0, 1), (48, 1), (49, 2), (60, 2), (95, 2), (96, 2)} <= written and all(version == 1 + (n > 48) and n < 97 for n, version in written)
    told = {(e.case.survey.n, e.number, frozenset(applying(e))) for e in writes}
    assert {(97, 16, frozenset({16})), (97, 16, frozenset({16, 18})), (97, 22, frozenset({16, 22})), (97, 22, frozenset({16, 18, 22}))} <= told
    assert {(n, 18, frozenset({18})) for n in (48, 49, 96)} <= told
    assert {number for n, number, numbers in told if n == 97 and 16 in numbers} == {1, 2, 6, 8, 11, 22, 16}
    assert any(len(e.lists[0]) == 65536 and e.case.survey.n == 96 for e in writes if e.number == 0)


def covered_versions(all_ended):
    covered_reads([ended for ended in all_ended if isinstance(ended.case, Read)])
    covered_writes([ended for ended in all_ended if not isinstance(ended.case, Read)])
