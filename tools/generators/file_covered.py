"""What the stored calls of the reader and of the writer have to have among them: the generator stops where one is missing."""
import math

from tools.generators.file_case import Read
from tools.generators.file_cases import NANS, ODD
from tools.patterns import bits
from tools.reading.survey_file import writer_tests

READER, WRITER = {0, 16, 18}, {0, 1, 2, 6, 8, 11, 16, 18, 22}


def covered_reads(reads):
    assert {ended.number for ended in reads} == READER
    answered = [ended for ended in reads if ended.number == 0]
    lengths = {(ended.number == 0, len(ended.case.data)) for ended in reads}
    assert {(True, 54), (True, 65535), (True, 65536), (False, 13), (False, 14), (False, 65537)} <= lengths and (True, 65537) not in lengths
    # n, m, the code count and S that all differ, and counts of two bytes
    counts = [(*ended.header[:3], int.from_bytes(ended.case.data[-14:-10], "little")) for ended in answered]
    assert any(len(set(four)) == 4 for four in counts) and all(any(four[i] > 255 for four in counts) for i in range(4))
    assert all(any(four[i] == 0 for four in counts) for i in range(4))
    assert {ended.header[3] for ended in answered} == {1, 2, 3, 4}
    # "Survey files don't carry it and take 2^-52"
    assert {ended.header[7] for ended in answered} == {bits(2.0**-52)}
    patterns = {ended.case.data[at:at + 8] for ended in answered for at in range(0, min(len(ended.case.data) - 14, 200), 8)}
    assert {pattern.to_bytes(8, "little") for pattern in ODD + NANS} <= patterns
    # an area that is just long enough, longer, and a place too short, of each list
    for place in range(6):
        past = {ended.case.lent[place] - len(ended.lists[place]) for ended in answered if ended.lists[place]}
        assert 0 in past and max(past) > 0, place
    assert any(not any(ended.case.lent) for ended in reads if ended.number == 16) and any(not any(ended.case.lent) for ended in reads if ended.number == 18)


def covered_writes(writes):
    assert {ended.number for ended in writes} == WRITER
    answered = [ended for ended in writes if ended.number == 0]
    assert {54, 65536} <= {ended.header[0] for ended in answered} and max(ended.header[0] for ended in answered) == 65536
    assert {ended.case.lent - ended.header[0] for ended in answered} >= {0, 1, 4, 5}
    # "ignored if k = 0", and three codes beside two nodes
    assert any(ended.case.survey.node_external and 4 not in ended.case.survey.codes for ended in answered)
    assert any(len(ended.case.survey.codes) == 3 and len(ended.case.survey.nodes) == 4 for ended in answered)
    assert {65535, 65536} <= {len(ended.case.survey.codes) for ended in writes if ended.number == 16}
    assert {0, 65536, 65537} <= {ended.case.lent for ended in writes if ended.number == 16}
    assert {0, 65535} <= {ended.case.lent for ended in writes if ended.number == 18}


def applying(ended):
    return frozenset(number for number, applies in writer_tests(ended.case.survey, bytes(ended.case.lent)) if applies)


def covered_spots(writes):
    """22 by fields that a fit takes and by those that it does not, alone, with each later number and with both; each earlier number beside it."""
    refused = {(ended.number, applying(ended)) for ended in writes}
    assert {(22, frozenset({22, *later})) for later in ((), (16,), (18,), (16, 18))} <= refused
    assert all(any(first == number and {22, 16, 18} <= numbers for first, numbers in refused) for number in (1, 2, 6, 8, 11))
    alone = {bits(ended.case.survey.variogram.same_spot): ended.number for ended in writes if applying(ended) <= {22}}
    taken = [math.nextafter(2.0**-52, 1.0), 1e-3, 0.5, 1.0, 1.7976931348623157e308]
    wrong = [math.nextafter(2.0**-52, 0.0), 0.0, -0.0, -1.0, -(2.0**-52), math.inf, -math.inf, math.nan]
    assert alone == {bits(2.0**-52): 0, **{bits(x): 22 for x in [*taken, *wrong, 5e-324, -1.7976931348623157e308]}}, alone
    named = [(ended.case.survey, ended.case.lent, ended.number) for ended in writes if ended.case.survey.variogram.same_spot == 1.0]
    assert any(math.isnan(s.r) and number == 11 for s, _, number in named) and any(len(s.codes) == 65536 and number == 22 for s, _, number in named)
    assert any(lent == 0 and number == 22 for _, lent, number in named)


def covered(all_ended):
    covered_reads([ended for ended in all_ended if isinstance(ended.case, Read)])
    writes = [ended for ended in all_ended if not isinstance(ended.case, Read)]
    covered_writes(writes)
    covered_spots(writes)
