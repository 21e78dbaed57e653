"""What the stored fits have to have among them of the trend: the generator stops where one is missing."""
from tools.generators.fit_case import enough
from tools.generators.fit_covered import NUMBERS
from tools.generators.fit_trends import MEASURED, TO_THE_LAST_DIGIT
from tools.generators.replay import kind_of
from tools.patterns import bits
from tools.reading.elimination import beside_identity, eliminate
from tools.reading.fit import assembled
from tools.reading.wrong_trends import BY_NAME


def trend(ended):
    return ended.areas.trend[:ended.case.survey.p]


def inverse(ended):
    """As the fit left it in the work area."""
    s = ended.case.survey.s
    return [ended.areas.work[at + s:at + 2 * s] for at in range(0, 2 * s * s, 2 * s)]


def told(ended, wrong):
    """Whether a fit tells another sentence from the paper's."""
    survey = ended.case.survey
    return list(map(bits, wrong(inverse(ended), survey.values, survey.p))) != list(map(bits, trend(ended)))


def covered_sentences(answered):
    """Every other sentence shows in some fit, with nodes and without; and so do the multipliers, and zeros where there is no node."""
    for ended_so in ([ended for ended in answered if ended.case.survey.m], [ended for ended in answered if not ended.case.survey.m]):
        assert all(any(told(ended, wrong) for ended in ended_so) for wrong in BY_NAME.values())
        assert any(list(map(bits, trend(ended))) != list(map(bits, ended.areas.multipliers[:ended.case.survey.p])) for ended in ended_so)


def stops(survey):
    """Whether the steps would stop at a pivot."""
    return eliminate(beside_identity(assembled(survey)), skip_zero=True) is not None


def covered_lengths(all_ended):
    """Areas just as long as they have to be, and longer; too short by one number, and nothing else, with nodes and without, and where the steps would
    stop; too short beside every earlier number but 3, without columns; and one that is lent in every refusal."""
    assert {ended.case.lent.trend - ended.case.survey.p for ended in all_ended if ended.number == 0} >= {0, 1, 2, 3}
    surveys = [ended.case.survey for ended in all_ended if ended.number == 18 and ended.case.lent == alone(ended.case.survey)]
    assert {(s.p, s.m > 0) for s in surveys} >= {(p, nodes) for p in (1, 2, 3, 6, 12) for nodes in (False, True)} and any(map(stops, surveys))
    assert {ended.number for ended in all_ended if ended.case.lent.trend < ended.case.survey.p} == NUMBERS - {0, 3, 19}
    assert {ended.number for ended in all_ended if ended.case.lent.trend} == NUMBERS


def alone(survey):
    """All that a fit has to have but for one number of the trend's."""
    return enough(survey)._replace(trend=survey.p - 1)


def covered_known(answered):
    """Trends of which something is known: to the bit, to the last digit and as measured; of every model, with no, one and two external columns, with nodes
    and without; in coordinates of seven figures."""
    known = [ended.case for ended in answered if ended.case.known]
    surveys = [case.survey for case in known]
    assert {case.known.within for case in known} == {0.0, TO_THE_LAST_DIGIT, *MEASURED.values()} and any(min(s.coords) > 1e6 for s in surveys)
    assert {(s.variogram.model, s.k, s.m > 0) for s in surveys} == {(model, k, nodes) for model in (1, 2, 3, 4) for k in (0, 1, 2) for nodes in (False, True)}


def covered_trends(all_ended):
    answered = [ended for ended in all_ended if ended.number == 0]
    kinds = {kind_of(x) for ended in answered for x in trend(ended)}
    # the sum starts at +0 and so is never minus zero
    assert kinds == {"nan", "infinite", "zero", "subnormal", "negative", "positive"}, kinds
    covered_sentences(answered)
    covered_lengths(all_ended)
    covered_known(answered)
