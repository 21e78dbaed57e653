#!/usr/bin/env python3
"""Holds the reading of the papers to the original: random calls of the fit, the interpolator and the semivariogram, bit for bit.

Usage: tools/reading/compare.py KRIGING.RS [COUNT [SEED]]     COUNT fits (20,000), and a quarter as many of each of the other two, and of trends;
                                                              as many fits and interpolations again, with a same-spot distance of their own

A call is compared where the original answers it: figures, variances, multipliers, distances, semivariances, and the kinds of the refusals that
it has. Where the papers add a refusal nothing is compared, and the call is counted beside; these are tried at their edges (edge_checks.py). Each
reading is also held to what paper 01 says of areas, and its verdicts to sums of fractions. The original has no trend: of more fits the trend is held
to the inverse that the original makes of the same matrix. Calls with a same-spot distance of their own are held to its second build. Prints what was compared and, of what differs, the shortest call.
"""
import pathlib
import sys
from collections import Counter

sys.path.insert(0, str(pathlib.Path(__file__).resolve().parents[2]))

from tools.generators.calls import calculate_call, fit_call, interpolate_call
from tools.generators.draw import Draw
from tools.generators.records import line
from tools.oracle.oracle import ask, build
from tools.patterns import bits, word
from tools.reading import edge_checks, fit, interpolator, semivariogram
from tools.reading.drawn_spots import spotted_fit, spotted_query
from tools.reading.fractions_audit import verdict_by_fractions
from tools.reading.lent import area, fit_lengths, query_lengths, untouched
from tools.reading.original import asked_inverse, trend_by_inverse
from tools.reading.refusals import KINDS
from tools.reading.survey import Survey
from tools.reading.variogram import Variogram

BATCH = 500
TOLERANCES = [0.0, -0.0, 5e-324, 2.0**-56, 2.0**-53, 2.0**-51, 1e-14, 1e-12, 1e-9, 1e-6, 0.5, 1.7e308]


def patterns(xs):
    return "".join(" " + word(bits(x)) for x in xs)


def expected(number, answer):
    """The original's answers that agree with a number; none where it has no such refusal."""
    return [answer] if number == 0 else [f"error {kind}" for kind in KINDS.get(number, ())]


def held(areas, lengths, number):
    """A refusal writes nothing, but 19 the work area; "all past the named lengths is untouched"."""
    if number:
        lengths = [0] * (len(lengths) - 1) + [lengths[-1] if number == 19 else 0]
    assert all(untouched(lent, length) for lent, length in zip(areas, lengths, strict=True)), (number, lengths)


def fitted(draw, call):
    """A fit by the reading: the survey, the areas that it leaves and its number."""
    survey = Survey(*call[:6], Variogram(*call.variogram), call.r, draw.choice(TOLERANCES))
    lengths = fit_lengths(survey)
    areas = fit.Areas(*(area(length, draw.randrange(3)) for length in lengths))
    number = fit.fit(survey, areas)
    held(areas, lengths, number)
    return survey, areas, number


def read_fit(draw, call):
    """What the original has to answer to a fit."""
    survey, areas, number = fitted(draw, call)
    if number:
        return number, expected(number, "")
    n, m, p = survey.n, survey.m, survey.p
    if n * p * m < 40:
        for q in range(m):
            assert areas.verdicts[q] == verdict_by_fractions(survey, areas, q)
    return 0, expected(0, f"ok {m}" + patterns(areas.figures[:m]) + patterns(areas.variances[:m]) + f" {p}" + patterns(areas.multipliers[:p]))


def read_interpolate(draw, call):
    query = interpolator.Query(*call[:5], Variogram(*call.variogram))
    lengths = query_lengths(query)
    areas = interpolator.Areas(*(area(length, draw.randrange(3)) for length in lengths))
    number = interpolator.interpolate(query, areas)
    held(areas, lengths, number)
    m = query.m
    return number, expected(number, f"ok {m}" + patterns(areas.figures[:m]) + patterns(areas.variances[:m]))


def read_calculate(draw, call):
    samples = semivariogram.Samples(*call)
    areas = semivariogram.Areas(*(area(samples.bins, draw.randrange(3)) for _ in range(3)))
    number, kept = semivariogram.calculate(samples, areas)
    assert all(untouched(lent, kept) for lent in areas)
    assert number or sum(areas.counts[:kept]) == samples.n * (samples.n - 1) // 2
    return number, expected(number, f"ok {kept}" + patterns(areas.distances[:kept]) + patterns(areas.semivariances[:kept]))


def draw_fit(draw):
    """Mostly some wells and nodes; one in ten with something wrong, one in fifty large."""
    n = draw.randrange(1, 97) if draw.randrange(50) == 0 else draw.randrange(1, 11)
    m = draw.randrange(0, 101) if draw.randrange(50) == 0 else draw.randrange(0, 5)
    codes = draw.bases(n)
    if draw.randrange(10):
        return fit_call(draw, n, codes, m)
    return fit_call(draw, n, codes + [4] * draw.randrange(2), m, set(draw.sample([1, 3, 5, 6, 7, 8], draw.randrange(1, 3))))


def draw_interpolate(draw):
    while True:
        call = interpolate_call(draw, 96)
        if len(call.values) < 12 or draw.randrange(8) == 0:
            return call


def draw_calculate(draw):
    call = calculate_call(draw, 96)
    return call._replace(bins=draw.choice([0, 65, 1000])) if draw.randrange(100) == 0 else call


def compare(name, draw, count, drawn, read):
    """Compares `count` calls of one kind; answers how many differ."""
    outcomes, differing = Counter(), []
    for begin in range(0, count, BATCH):
        if begin % 5000 == 0:
            print(f"{name}: {begin} of {count}", file=sys.stderr)
        calls = [drawn(draw) for _ in range(min(BATCH, count - begin))]
        lines = [line(call.words()) for call in calls]
        for call, asked, answer in zip(calls, lines, ask(lines)):
            number, wanted = read(draw, call)
            outcomes[number if wanted and answer != "shape" else "beside"] += 1
            if wanted and answer not in [*wanted, "shape"]:
                differing.append((asked, answer, wanted))
    beside = outcomes.pop("beside", 0)
    print(f"{name}: {sum(outcomes.values())} compared, {len(differing)} differ; {beside} beside;", end=" ")
    print("by number:", ", ".join(f"{number}: {times}" for number, times in sorted(outcomes.items())))
    for asked, answer, wanted in sorted(differing, key=lambda d: len(d[0]))[:1]:
        print(f"  call      {asked}\n  original  {answer}\n  reading   {wanted}")
    return len(differing)


def trends(draw, count):
    """Of some fits, those that the reading answers: each survey with its trend."""
    for survey, areas, number in (fitted(draw, draw_fit(draw)) for _ in range(count)):
        if number == 0:
            yield survey, areas.trend[:survey.p]


def compare_trends(draw, count):
    """Compares the trends of `count` fits with those by the original's inverse; answers how many differ."""
    compared, differing = 0, []
    for begin in range(0, count, BATCH):
        read = list(trends(draw, min(BATCH, count - begin)))
        calls = [asked_inverse(survey) for survey, _ in read]
        compared += len(read)
        differing += [survey for (survey, trend), inverse in zip(read, ask(calls)) if patterns(trend) != patterns(trend_by_inverse(survey, inverse))]
    print(f"trends: {compared} compared, {len(differing)} differ")
    for survey in sorted(differing, key=lambda survey: survey.s)[:1]:
        print(f"  {survey}")
    return len(differing)


def main():
    build(sys.argv[1])
    count = int(sys.argv[2]) if len(sys.argv) > 2 else 20000
    seed = sys.argv[3] if len(sys.argv) > 3 else "nakwemol reading"
    draw, yards = (Draw(name).with_models([1, 1, 2, 2, 3, 3, 4]) for name in (seed, seed + ", one yard"))
    print(f"refusals: {edge_checks.check()} calls at the edges, each as it has to be")
    different = compare("fits", draw, count, draw_fit, read_fit)
    different += compare("interpolations", draw, count // 4, draw_interpolate, read_interpolate)
    different += compare("semivariograms", draw, count // 4, draw_calculate, read_calculate)
    different += compare_trends(draw, count // 4)
    different += compare("fits with a same-spot distance", yards, count, lambda draw: spotted_fit(draw, draw_fit(draw)), read_fit)
    different += compare("interpolations with one", yards, count // 4, lambda draw: spotted_query(draw, draw_interpolate(draw)), read_interpolate)
    return 1 if different else 0


if __name__ == "__main__":
    sys.exit(main())
