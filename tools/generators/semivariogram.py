"""crates/vectors_semivariogram: semivariograms, as semivariogram_cases.py, semivariogram_refusals.py and
semivariogram_many.py have them, with all that they leave.

Distances and semivariances are the original's. Counts and the numbers of refusals are tools/reading's, which has to agree with the original wherever
that answers: else nothing is written.

A record is words of 64 bits: the lengths of the values and coordinates; d and the bins; how much is lent of the distances, semivariances and counts; the
lists in that order. After these the number, 0 for an answer; how many bins are kept; and then what stands at so many places of each area, in that order.
"""
from typing import NamedTuple

from tools.generators.calls import Calculate
from tools.generators.records import answer_words, answered, numbers, packed
from tools.generators.replay import MARK, hold_refusal, made_files, marked, untouched, written_lines
from tools.generators.semivariogram_case import LONGEST, MOST_NUMBERS
from tools.generators.semivariogram_cases import accepted_cases
from tools.generators.semivariogram_covered import covered
from tools.generators.semivariogram_many import many_cases
from tools.generators.semivariogram_many_covered import covered_many
from tools.generators.semivariogram_refusals import refused_cases
from tools.patterns import bits
from tools.reading import semivariogram

MOST_BYTES = 1_000_000


class Ended(NamedTuple):
    """A case, how it ended, its areas after, and how many bins were kept."""

    case: object
    number: int
    kept: int
    areas: semivariogram.Areas


def lent_areas(lengths):
    return semivariogram.Areas(marked(lengths.distances), marked(lengths.semivariances), [MARK + at for at in range(lengths.counts)])


def read(case):
    """What the reading makes of a case."""
    samples, areas, before = case.samples, lent_areas(case.lent), lent_areas(case.lent)
    number, kept = semivariogram.calculate(samples, areas)
    assert untouched(areas[:2], before[:2], [kept] * 2) and areas.counts[kept:] == before.counts[kept:], case
    assert number or sum(areas.counts[:kept]) == samples.n * (samples.n - 1) // 2, case
    return Ended(case, number, kept, areas)


def original(answer, kept):
    """The original's own distances and semivariances, by their patterns."""
    zero, bins, *rest = answer_words(answer)
    assert (zero, bins, len(rest)) == (0, kept, 2 * kept), answer
    return rest[:kept], rest[kept:]


def held(ended, answer):
    """Stops where the original answers otherwise: in distances, semivariances, how many there are, or the kind of a refusal."""
    if ended.number:
        hold_refusal(ended.number, answer, ended.case)
        return
    kept, areas = ended.kept, ended.areas
    assert original(answer, kept) == (list(map(bits, areas.distances[:kept])), list(map(bits, areas.semivariances[:kept]))), (ended.case, answer)


def asked_words(case):
    samples = case.samples
    return [len(samples.values), len(samples.coords), samples.d, samples.bins, *case.lent, *numbers(samples.values), *numbers(samples.coords)]


def told_words(ended, answer):
    """The areas, as far as they are written: the original's where it has them."""
    distances, semivariances = original(answer, ended.kept) if ended.number == 0 else ([], [])
    return [ended.number, ended.kept, *distances, *semivariances, *ended.areas.counts[:ended.kept]]


def fits_program(case):
    """The program's own arrays are as long as this."""
    return len(case.samples.values) + len(case.samples.coords) <= MOST_NUMBERS and max(case.lent) <= LONGEST


def counted(all_ended):
    """How many places are compared of each part."""
    kept = sum(ended.kept for ended in all_ended)
    past = sum(sum(ended.case.lent) - 3 * ended.kept for ended in all_ended)
    return {"numbers of kept bins": len(all_ended), "distances": kept, "semivariances": kept, "counts": kept, "places not to be written": past}


def asked(case):
    """The call as it is put to the original, where no bins are too many to be counted."""
    samples = case.samples
    return Calculate(*samples._replace(bins=min(samples.bins, 1000))).words()


def files():
    cases = [*accepted_cases(), *refused_cases(), *many_cases()]
    assert all(map(fits_program, cases))
    answers = [answer for _, answer in answered(list(map(asked, cases)))]
    all_ended = list(map(read, cases))
    for ended, answer in zip(all_ended, answers):
        held(ended, answer)
        assert ended.case.number in (None, ended.number), (ended.case, ended.number)
    covered(all_ended)
    covered_many(all_ended)
    records = [packed([*asked_words(e.case), *told_words(e, a)]) for e, a in zip(all_ended, answers)]
    return made_files(records, written_lines([ended.number for ended in all_ended], counted(all_ended)), MOST_BYTES)
