"""What the stored semivariograms have to have among them of more than 48 samples: the generator stops where one is missing."""
from tools.generators.semivariogram_refusals import applies

COUNTS = (49, 60, 95, 96)


def covered_many(all_ended):
    many = [ended for ended in all_ended if ended.case.samples.n > 48]
    answered = [ended.case.samples for ended in many if ended.number == 0]
    assert {s.n for s in answered} == {*range(49, 97)} and {s.bins for s in answered} == {*range(1, 65)}
    assert {(s.n, s.d) for s in answered} >= {(n, d) for n in COUNTS for d in (1, 2, 3)}
    assert {(s.n, s.d, s.bins) for s in answered} >= {(96, d, bins) for d in (1, 2, 3) for bins in (1, 64)}
    past = {length - ended.case.samples.bins for ended in many for length in ended.case.lent if ended.number == 0}
    assert any(ended.kept == 64 for ended in many) and past == {0, 1, 2, 3}
    beyond = [(ended.number, applies(ended.case.samples, ended.case.lent)) for ended in many if ended.case.samples.n == 97]
    assert {number for number, _ in beyond} == {13, 1, 15, 9}
    assert all((9, {9, *later}) in beyond for later in ((), (11,), (18,), (11, 18))), beyond
    assert {number for number, numbers in beyond if {9, 11} <= numbers} == {13, 1, 15, 9}
    assert not any(ended.number == 9 for ended in many if ended.case.samples.n < 97)
