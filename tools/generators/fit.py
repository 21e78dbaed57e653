"""crates/vectors_fit: fits, as fit_cases.py, fit_models.py, fit_trends.py, fit_refusals.py, fit_spots.py, fit_spot_refusals.py and fit_many.py draw them,
with all that they leave.

Figures, variances and multipliers are the original's; with a same-spot distance that it does not have, those of its second build. Weights, trends, verdicts, work areas and the numbers of refusals are tools/reading's, which has
to agree with the original wherever that answers: else nothing is written. The original has no trend; it has the inverse, and a trend is held to that.

A record is words of 64 bits:

    the lengths of the values, coordinates, externals, nodes and node externals, and of the codes
    the model, nugget, sill, range, same-spot distance, r and t
    how much is lent of the work area, the figures, variances, verdicts, weights, multipliers and of the trend
    the lists in that order, then the codes
    the number, 0 for an answer
    how much is written of each area, in the same order
    how much of the work area is told, all that is written or nothing
    what stands there, area after area in the same order
"""
from collections import Counter
from typing import NamedTuple

from tools.generators.calls import Fit
from tools.generators.fit_case import LONGEST, NOTHING
from tools.generators.fit_cases import accepted_cases
from tools.generators.fit_covered import covered
from tools.generators.fit_many import many_cases
from tools.generators.fit_many_covered import covered_many
from tools.generators.fit_models import model_cases
from tools.generators.fit_refusals import refused_cases
from tools.generators.fit_spot_refusals import spot_refusals
from tools.generators.fit_spots import spot_cases
from tools.generators.fit_spots_covered import covered_spots
from tools.generators.fit_trends import trend_cases
from tools.generators.fit_trends_covered import covered_trends
from tools.generators.records import answer_words, answered, numbers, packed
from tools.generators.replay import hold_refusal, made_files, marked, plus_zero, untouched, written_lines
from tools.oracle.oracle import ask
from tools.patterns import bits
from tools.reading import fit
from tools.reading.fractions_audit import verdict_by_fractions
from tools.reading.lent import fit_lengths
from tools.reading.original import asked_inverse, trend_by_inverse

MARK_BYTE = 99
MOST_BYTES = 5_100_000
MOST_NUMBERS, MOST_CODES = 3072, 128
PARTS = {
    "figures": "figures",
    "variances": "variances",
    "multipliers": "multipliers",
    "trends": "trend",
    "weights": "weights",
    "verdicts": "verdicts",
    "work areas": "work",
    "places not to be written": "untouched",
}


class Ended(NamedTuple):
    """A case, how it ended, its areas after, and how much of each was written."""

    case: object
    number: int
    areas: fit.Areas
    written: fit.Areas


def lent_areas(lengths):
    return fit.Areas(*map(marked, lengths))._replace(verdicts=[MARK_BYTE] * lengths.verdicts)


def read(case):
    """What the reading makes of a case."""
    survey = case.survey
    areas, before = lent_areas(case.lent), lent_areas(case.lent)
    number = fit.fit(survey, areas)
    named = fit.Areas(*fit_lengths(survey))
    written = named if number == 0 else NOTHING._replace(work=named.work if number == 19 else 0)
    assert untouched(areas, before, written), (number, survey)
    if number == 0 and survey.n * survey.p * survey.m < 100:
        assert all(areas.verdicts[q] == verdict_by_fractions(survey, areas, q) for q in range(survey.m)), survey
    return Ended(case, number, areas, written)


def original(answer, ended):
    """The original's own figures, variances and multipliers, by their patterns; a zero variance as +0."""
    m, p = ended.case.survey.m, ended.case.survey.p
    zero, nodes, *rest = answer_words(answer)
    assert (zero, nodes, rest[2 * m]) == (0, m, p), answer
    return rest[:m], plus_zero(rest[m:2 * m]), rest[2 * m + 1:]


def held(ended, answer):
    """Stops where the original answers otherwise: in figures, variances, multipliers or the kind of a refusal."""
    if ended.number:
        hold_refusal(ended.number, answer, ended.case.survey)
        return
    m, p, areas = ended.case.survey.m, ended.case.survey.p, ended.areas
    reading = [list(map(bits, area)) for area in (areas.figures[:m], areas.variances[:m], areas.multipliers[:p])]
    assert list(original(answer, ended)) == reading, (ended.case.survey, answer)


def hold_trends(all_ended):
    """Stops where a trend is another by the original's inverse."""
    answered = [ended for ended in all_ended if ended.number == 0]
    inverses = ask([asked_inverse(ended.case.survey) for ended in answered])
    for ended, inverse in zip(answered, inverses):
        survey = ended.case.survey
        assert list(map(bits, ended.areas.trend[:survey.p])) == list(map(bits, trend_by_inverse(survey, inverse))), survey


def hold_known(ended):
    """Stops where a trend is not as near to what is known of it as it has to be, or the multipliers are."""
    known, areas, p = ended.case.known, ended.areas, ended.case.survey.p
    if known is None:
        return
    for number, trend, multiplier in zip(known.trend, areas.trend[:p], areas.multipliers[:p], strict=True):
        assert number is None or abs(trend - number) <= known.within < abs(multiplier - number), (ended.case.survey, known, areas.trend[:p])


def asked_words(case):
    survey, lent = case.survey, case.lent
    lists = [survey.values, survey.coords, survey.external, survey.nodes, survey.node_external]
    options = [survey.variogram.model, *numbers([*survey.variogram[1:], survey.r, survey.t])]
    areas = [lent.work, lent.figures, lent.variances, lent.verdicts, lent.weights, lent.multipliers, lent.trend]
    return [*map(len, lists), len(survey.codes), *options, *areas, *(x for xs in lists for x in numbers(xs)), *survey.codes]


def told_words(ended, answer):
    """The areas, as far as they are written: the original's where it has them."""
    areas, written = ended.areas, ended.written
    told = written.work if ended.case.whole else 0
    figures, variances, multipliers = original(answer, ended) if ended.number == 0 else ([], [], [])
    counts = [written.work, written.figures, written.variances, written.verdicts, written.weights, written.multipliers, written.trend, told]
    weights, verdicts, work = numbers(areas.weights[:written.weights]), areas.verdicts[:written.verdicts], numbers(areas.work[:told])
    return [ended.number, *counts, *work, *figures, *variances, *verdicts, *weights, *multipliers, *numbers(areas.trend[:written.trend])]


def fits_program(case):
    """The program's own arrays are as long as this."""
    survey = case.survey
    total = sum(map(len, [survey.values, survey.coords, survey.external, survey.nodes, survey.node_external]))
    lent_fits = all(length <= most for length, most in zip(case.lent, LONGEST, strict=True))
    return total <= MOST_NUMBERS and len(survey.codes) <= MOST_CODES and lent_fits


def counted(all_ended):
    """How many places are compared of each part."""
    counts = Counter()
    for ended in all_ended:
        counts.update(ended.written._replace(work=ended.written.work if ended.case.whole else 0)._asdict())
        counts["untouched"] += sum(ended.case.lent) - sum(ended.written)
    return {name: counts[part] for name, part in PARTS.items()}


def files():
    cases = [*accepted_cases(), *refused_cases(), *model_cases(), *trend_cases(), *spot_cases(), *spot_refusals(), *many_cases()]
    assert all(map(fits_program, cases))
    calls = [Fit(*case.survey[:6], tuple(case.survey.variogram), case.survey.r).words() for case in cases]
    answers = [answer for _, answer in answered(calls)]
    all_ended = list(map(read, cases))
    for ended, answer in zip(all_ended, answers):
        held(ended, answer)
        assert ended.case.number in (None, ended.number), (ended.case, ended.number)
        hold_known(ended)
    hold_trends(all_ended)
    covered(all_ended)
    covered_trends(all_ended)
    covered_spots(all_ended)
    covered_many(all_ended)
    records = [packed([*asked_words(e.case), *told_words(e, a)]) for e, a in zip(all_ended, answers)]
    return made_files(records, written_lines([ended.number for ended in all_ended], counted(all_ended)), MOST_BYTES)
