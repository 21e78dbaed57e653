"""Every stored interpolation and semivariogram, by the exported call with the areas that its record lends, and by the safe one."""
import ctypes
import unittest

from nakwemol import KrigingInterpolator, Refused, SemivariogramCalculator, Variogram, calls
from tests.words import holds, marked, marks, patterns, stored


def ended(call, *arguments):
    """The number of a safe call, and its answer."""
    try:
        return 0, call(*arguments)
    except Refused as refused:
        return refused.number, ()


def interpolation_agrees(words):
    lengths, (kind, d, model), variogram, lent = words.take(3), words.take(3), words.numbers(4), words.take(3)
    values, points, targets = map(words.numbers, lengths)
    number, written, told = words.word(), words.take(3), words.word()
    told = [words.take(count) for count in (told, *written[1:])]
    areas = [calls.numbers(marked(length)) for length in lent]
    given = calls.call("nakwemol_interpolate", *map(calls.numbers, (values, points, targets)), d, kind, model, *variogram, *areas)
    exported = given == number and all(map(holds, areas, told, written))
    if number in (17, 18):
        return exported
    found, answer = ended(KrigingInterpolator(kind, Variogram(model, *variogram)).interpolate, points, values, targets, d)
    return exported and found == number and (number != 0 or list(map(patterns, answer)) == told[1:])


def semivariogram_agrees(words):
    lengths, (d, n_bins), lent = words.take(2), words.take(2), words.take(3)
    values, points = map(words.numbers, lengths)
    number, told = words.word(), words.word()
    distances, semivariances, counts = (words.take(told) for _ in range(3))
    areas = [calls.numbers(marked(length)) for length in lent[:2]]
    counted, kept = (ctypes.c_size_t * lent[2])(*marks(0, lent[2])), ctypes.c_size_t(77)
    handed = *map(calls.numbers, (points, values)), d, n_bins, *areas, counted, ctypes.byref(kept)
    exported = (
        (calls.call("nakwemol_semivariogram", *handed), kept.value) == (number, 77 if number else told)
        and all(map(holds, areas, (distances, semivariances), (told, told)))
        and list(counted) == counts + marks(told, lent[2])
    )
    if number == 18:
        return exported
    found, bins = ended(SemivariogramCalculator.calculate, points, values, n_bins, d)
    return exported and found == number and (number != 0 or [patterns(bins[0]), patterns(bins[1]), bins[2]] == [distances, semivariances, counts])


class StoredOlderCalls(unittest.TestCase):
    def replay(self, name, agrees):
        words, compared = stored(name), 0
        if words is None:
            self.skipTest(f"crates/{name}/stdin is not there")
        while words.more():
            compared += 1
            self.assertTrue(agrees(words), f"{name}: record {compared} differs")

    def test_interpolations(self):
        self.replay("vectors_interpolator", interpolation_agrees)

    def test_semivariograms(self):
        self.replay("vectors_semivariogram", semivariogram_agrees)


if __name__ == "__main__":
    unittest.main()
