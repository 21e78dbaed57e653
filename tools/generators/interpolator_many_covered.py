"""What the stored interpolations have to have among them of more than 48 points: the generator stops where one is missing."""
from tools.generators.interpolator_case import SHAPES, enough
from tools.generators.interpolator_covered import stop
from tools.generators.interpolator_spots_covered import applying

COUNTS = {49, 60, 95, 96}


def covered_many(all_ended):
    many = [ended for ended in all_ended if ended.case.query.n > 48]
    answered = [ended for ended in many if ended.number == 0]
    queries = [ended.case.query for ended in answered]
    assert {q.n for q in queries} == COUNTS and {(q.n, q.variogram.model) for q in queries} == {(n, model) for n in COUNTS for model in (1, 2, 3, 4)}
    assert {(q.n, q.kind, q.d, q.variogram.model) for q in queries} >= {(n, *shape, model) for n in COUNTS for shape in SHAPES for model in (1, 4)}
    assert {(2, 3, 96, 100), (1, 1, 96, 100), (1, 2, 95, 100), (2, 2, 96, 0)} <= {(q.kind, q.d, q.n, q.m) for q in queries}
    assert {(q.kind, q.d) for ended, q in zip(answered, queries) if q.n == 96 and ended.case.lent == enough(q)} == set(SHAPES)
    whole = {(ended.number, ended.case.query.s) for ended in many if ended.case.whole}
    assert {(0, 100), (0, 50), (19, 97)} <= whole, whole
    # the first step finds the drift's one
    assert {stop(ended) for ended in many if ended.number == 19 and ended.case.whole} == {"middle", "last"}
    beyond = [ended for ended in many if ended.case.query.n == 97]
    assert {ended.number for ended in beyond} == {13, 1, 2, 9} and any(applying(ended) == {9} for ended in beyond)
    later = [applying(ended) - {9} for ended in beyond if ended.number == 9]
    assert {11, 22, 12, 17, 18} in later and all({number} in later for number in (11, 22, 12, 17, 18)), later
    at = {(ended.number, ended.case.query.kind, ended.case.lent.work) for ended in many if ended.case.query.n == 96}
    assert {(17, 1, 18817), (17, 2, 19999), (17, 1, 5408), (17, 2, 5408)} <= at and {(18, 1), (18, 2)} <= {told[:2] for told in at}
    assert not any(ended.number == 9 for ended in many if ended.case.query.n < 97 and len(ended.case.query.targets) < 101)
