"""Every stored fit, by the exported call with the areas that its record lends, and by `universal_kriging_fit`."""
import unittest
from typing import NamedTuple

from nakwemol import External, Refused, UniversalKrigingOptions, Variogram, calls, universal_kriging_fit
from tests.words import MARK_BYTE, Words, holds, marked, patterns


class Record(NamedTuple):
    """A record of crates/vectors_fit/stdin: a fit, how much it lends of each area, and how it ends."""

    values: list
    coords: list
    external: list
    nodes: list
    node_external: list
    codes: list
    model: int
    options: list  # nugget, sill, range, same-spot distance, r and t
    lent: list
    number: int
    written: list
    told: list


def next_record(words):
    *lengths, codes = words.take(6)
    model, options, lent = words.word(), words.numbers(6), words.take(7)
    lists = [words.numbers(length) for length in lengths]
    codes, number, written, told = words.take(codes), words.word(), words.take(7), words.word()
    areas = [words.take(length) for length in (told, *written[1:])]
    return Record(*lists, codes, model, options, lent, number, written, areas)


def exported_agrees(r):
    """The exported call: its number, what it writes, and what it does not."""
    work, predicted, variance, verdicts, weights, multipliers, trend = (calls.numbers(marked(length)) for length in r.lent)
    verdicts = calls.codes([MARK_BYTE] * r.lent[3])
    number = calls.call(
        "nakwemol_fit",
        *map(calls.numbers, (r.values, r.coords)),
        calls.codes(r.codes),
        calls.numbers(r.external),
        r.model,
        *r.options[:5],
        *map(calls.numbers, (r.nodes, r.node_external)),
        r.options[5],
        work,
        predicted,
        variance,
        verdicts,
        weights,
        multipliers,
        trend,
    )
    areas = zip((work, predicted, variance, weights, multipliers, trend), (0, 1, 2, 4, 5, 6))
    judged = r.told[3] + [MARK_BYTE] * (r.lent[3] - r.written[3])
    return number == r.number and list(verdicts) == judged and all(holds(area, r.told[at], r.written[at]) for area, at in areas)


def bases(r):
    """The bases of a record's codes with their columns, or None where the externals are not as many as they should be."""
    n = len(r.values)
    if len(r.external) != r.codes.count(4) * n:
        return None
    columns = iter([r.external[c * n:(c + 1) * n] for c in range(r.codes.count(4))])
    return [External(next(columns)) if code == 4 else code for code in r.codes]


def safe_agrees(r, drift_bases):
    """The call that lends areas of its own, so that 17 and 18 do not come up."""
    *variogram, regularization, tolerance = r.options
    options = UniversalKrigingOptions(drift_bases, Variogram(r.model, *variogram), regularization)
    try:
        fit = universal_kriging_fit(r.coords, r.values, options, r.nodes, r.node_external, tolerance=tolerance)
    except Refused as refused:
        return refused.number == r.number
    areas = [patterns(fit.predicted), patterns(fit.variance), fit.verdicts, patterns(fit.weights), patterns(fit.multipliers), patterns(fit.trend)]
    return r.number == 0 and areas == r.told[1:]


class StoredFits(unittest.TestCase):
    def test_every_one(self):
        words, exported, safe = Words("vectors_fit"), 0, 0
        while words.more():
            record = next_record(words)
            exported += 1
            self.assertTrue(exported_agrees(record), f"record {exported}: the exported call differs")
            drift_bases = bases(record)
            if record.number not in (17, 18) and drift_bases is not None:
                safe += 1
                self.assertTrue(safe_agrees(record, drift_bases), f"record {exported}: universal_kriging_fit differs")
        self.assertGreater(safe, 1000)


if __name__ == "__main__":
    unittest.main()
