"""crates/vectors_interpolator: interpolations, as interpolator_cases.py, interpolator_models.py, interpolator_refusals.py, interpolator_spots.py and
interpolator_many.py have them, with all that they leave.

Figures and variances are the original's; with a same-spot distance that it does not have, those of its second build. Work areas and the numbers of refusals are tools/reading's, which has to agree with the original wherever
that answers: else nothing is written.

A record is words of 64 bits: the lengths of the values, coordinates and targets; the type (1 Ordinary, 2 Universal), d, the model, nugget, sill, range
and same-spot distance; how much is lent of the work area, the figures and the variances; the lists in that order. After these the number, 0 for an
answer; how much is written of each area, in the same order; how much of the work area is told, all that is written or nothing; and then what stands
there, area after area.
"""
from collections import Counter
from typing import NamedTuple

from tools.generators.calls import Interpolate
from tools.generators.interpolator_case import LONGEST, MOST_NUMBERS
from tools.generators.interpolator_cases import accepted_cases
from tools.generators.interpolator_covered import covered
from tools.generators.interpolator_many import many_cases
from tools.generators.interpolator_many_covered import covered_many
from tools.generators.interpolator_models import model_cases
from tools.generators.interpolator_refusals import refused_cases
from tools.generators.interpolator_spots import spot_cases
from tools.generators.interpolator_spots_covered import covered_spots
from tools.generators.records import answer_words, answered, numbers, packed
from tools.generators.replay import hold_refusal, made_files, marked, plus_zero, untouched, written_lines
from tools.patterns import bits
from tools.reading import interpolator
from tools.reading.lent import query_lengths

MOST_BYTES = 2_200_000
PARTS = {"figures": "figures", "variances": "variances", "work areas": "work", "places not to be written": "untouched"}


class Ended(NamedTuple):
    """A case, how it ended, its areas after, and how much of each was written."""

    case: object
    number: int
    areas: interpolator.Areas
    written: interpolator.Areas


def read(case):
    """What the reading makes of a case."""
    areas, before = (interpolator.Areas(*map(marked, case.lent)) for _ in range(2))
    number = interpolator.interpolate(case.query, areas)
    figures, variances, work = query_lengths(case.query) if number in (0, 19) else (0, 0, 0)
    written = interpolator.Areas(figures, variances, work) if number == 0 else interpolator.Areas(0, 0, work)
    assert untouched(areas, before, written), (number, case)
    return Ended(case, number, areas, written)


def original(answer, m):
    """The original's own figures and variances, by their patterns; a zero variance as +0."""
    zero, targets, *rest = answer_words(answer)
    assert (zero, targets, len(rest)) == (0, m, 2 * m), answer
    return rest[:m], plus_zero(rest[m:])


def held(ended, answer):
    """Stops where the original answers otherwise: in figures, variances or the kind of a refusal."""
    if ended.number:
        hold_refusal(ended.number, answer, ended.case)
        return
    m, areas = ended.case.query.m, ended.areas
    assert original(answer, m) == (list(map(bits, areas.figures[:m])), list(map(bits, areas.variances[:m]))), (ended.case, answer)


def asked_words(case):
    query, lent = case.query, case.lent
    lists = [query.values, query.coords, query.targets]
    variogram = [query.variogram.model, *numbers(query.variogram[1:])]
    return [*map(len, lists), query.kind, query.d, *variogram, lent.work, lent.figures, lent.variances, *(x for xs in lists for x in numbers(xs))]


def told_words(ended, answer):
    """The areas, as far as they are written: the original's where it has them."""
    written = ended.written
    told = written.work if ended.case.whole else 0
    figures, variances = original(answer, ended.case.query.m) if ended.number == 0 else ([], [])
    return [ended.number, written.work, written.figures, written.variances, told, *numbers(ended.areas.work[:told]), *figures, *variances]


def fits_program(case):
    """The program's own arrays are as long as this."""
    query = case.query
    lent_fits = all(length <= most for length, most in zip(case.lent, LONGEST, strict=True))
    return len(query.values) + len(query.coords) + len(query.targets) <= MOST_NUMBERS and lent_fits


def counted(all_ended):
    """How many places are compared of each part."""
    counts = Counter()
    for ended in all_ended:
        counts.update(ended.written._replace(work=ended.written.work if ended.case.whole else 0)._asdict())
        counts["untouched"] += sum(ended.case.lent) - sum(ended.written)
    return {name: counts[part] for name, part in PARTS.items()}


def files():
    cases = [*accepted_cases(), *refused_cases(), *model_cases(), *spot_cases(), *many_cases()]
    assert all(map(fits_program, cases))
    calls = [Interpolate(*case.query[:5], tuple(case.query.variogram)).words() for case in cases]
    answers = [answer for _, answer in answered(calls)]
    all_ended = list(map(read, cases))
    for ended, answer in zip(all_ended, answers):
        held(ended, answer)
        assert ended.case.number in (None, ended.number), (ended.case, ended.number)
    covered(all_ended)
    covered_spots(all_ended)
    covered_many(all_ended)
    records = [packed([*asked_words(e.case), *told_words(e, a)]) for e, a in zip(all_ended, answers)]
    return made_files(records, written_lines([ended.number for ended in all_ended], counted(all_ended)), MOST_BYTES)
