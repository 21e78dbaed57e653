"""What the stored fits have to have among them of more than 48 wells: the generator stops where one is missing."""
import math

from tools.generators.fit_case import enough
from tools.generators.fit_covered import stop
from tools.generators.fit_spots_covered import applying

MODELS = {1, 2, 3, 4}
COUNTS = {49, 60, 95, 96}


def covered_answers(answered):
    """Each number of wells with each model, with one column and with twelve, without a node and with a hundred; seven figures with a Quadratic trend."""
    surveys = [ended.case.survey for ended in answered]
    assert {s.n for s in surveys} == COUNTS and {(s.n, s.variogram.model) for s in surveys} == {(n, model) for n in COUNTS for model in MODELS}
    assert {(s.n, s.p, s.variogram.model) for s in surveys} >= {(n, p, model) for n in COUNTS for p in (1, 2, 3, 5, 6, 12) for model in (1, 4)}
    assert {(96, 100, 12), (96, 100, 1), (95, 100, 3), (49, 100, 12)} <= {(s.n, s.m, s.p) for s in surveys} and {s.n for s in surveys if s.m == 0} == COUNTS
    assert {(s.n, s.variogram.model) for s in surveys if s.codes == [3] and min(s.coords) > 1e6} == {(n, model) for n in (49, 96) for model in (1, 4)}
    assert {(s.n, s.variogram.model) for s in surveys if s.variogram.same_spot == 0.5} == {(96, 1), (95, 2), (60, 3), (49, 4)}
    verdicts = {(s.n, v) for ended, s in zip(answered, surveys) for v in ended.areas.verdicts[:s.m]}
    assert {(n, 0) for n in COUNTS} <= verdicts and any(n == 96 and v not in (0, 255) for n, v in verdicts)
    # areas just as long as they have to be
    assert {ended.case.survey.n for ended in answered if ended.case.lent == enough(ended.case.survey)} >= {49, 96}


def covered_areas(ended_so):
    """Whole work areas: of the largest size, of the least above that of 48 wells and one column, and of stops."""
    whole = {(ended.number, ended.case.survey.s) for ended in ended_so if ended.case.whole}
    assert {(0, 108), (0, 50), (19, 108)} <= whole, whole
    assert {stop(ended) for ended in ended_so if ended.number == 19 and ended.case.whole} == {"first", "middle", "last"}
    assert {ended.case.survey.n for ended in ended_so if ended.number == 19} >= {49, 60, 96}


def covered_refusals(refused):
    """97 wells: 9 alone, with each later number and with all of them; each earlier number before it. 96: 17 and 18 alone."""
    beyond = [ended for ended in refused if ended.case.survey.n == 97]
    assert any(ended.number == 9 and applying(ended) == {9} for ended in beyond)
    later = [applying(ended) - {9} for ended in beyond if ended.number == 9]
    assert {10, 11, 22, 12, 17, 18} <= set().union(*later) and any({10, 11, 22, 12, 17, 18} <= numbers for numbers in later)
    assert all({number} in later for number in (10, 11, 22, 12, 17, 18)), later
    assert {ended.number for ended in beyond if 9 in applying(ended)} == {1, 2, 3, 4, 5, 6, 7, 8, 9}
    assert 5 in {ended.number for ended in beyond if ended.case.survey.r < 0.0} and 9 in {ended.number for ended in beyond if math.isnan(ended.case.survey.t)}
    at = [(ended.number, ended.case.lent) for ended in refused if ended.case.survey.n == 96 and len(applying(ended)) == 1]
    assert {(17, 23327), (17, 7200)} <= {(number, lent.work) for number, lent in at}
    assert {(18, 9599), (18, 4800)} <= {(number, lent.weights) for number, lent in at}
    assert not any(ended.number == 9 for ended in refused if 48 < ended.case.survey.n < 97 and ended.case.survey.p < 13 and ended.case.survey.m < 101)


def covered_many(all_ended):
    many = [ended for ended in all_ended if ended.case.survey.n > 48]
    covered_answers([ended for ended in many if ended.number == 0])
    covered_areas([ended for ended in many if ended.number in (0, 19)])
    covered_refusals([ended for ended in many if ended.number not in (0, 19)])
