"""The fit of the model, held to cases worked out by hand."""
import math
import unittest
from fractions import Fraction

from mapper.model.fitting import Given, fit
from mapper.records import Bin, Variogram


def bins(*rows):
    return [Bin(*row) for row in rows]


class ByHand(unittest.TestCase):
    def close(self, found, *wanted):
        for a, b in zip(found, wanted):
            self.assertAlmostEqual(a, float(b), delta=1e-6 * max(1, abs(float(b))))

    def test_line_through_weighted_bins(self):
        """Heights 2, 3, 5 at 1, 2, 3 with 1, 2, 1 pairs: means 2 and 13/4, slope 3/2, so 1/4 + 3/2 h; over a range of 10 the line rises by 15."""
        self.close(fit(bins((1, 2, 1), (2, 3, 2), (3, 5, 1)), 'linear', Given(range=10.0), 3), 0.25, 15, 10)

    def test_nugget_stays_at_zero(self):
        """Heights 1, 2, 4: the line would start at -3/4. From zero its slope is (1 + 8 + 12) / (1 + 8 + 9) = 7/6."""
        self.close(fit(bins((1, 1, 1), (2, 2, 2), (3, 4, 1)), 'linear', Given(range=10.0), 3), 0, Fraction(70, 6), 10)

    def test_pairs_count(self):
        """Linear to range 1, so every bin says nugget + sill: the average by pairs, (1·1 + 3·5) / 4."""
        nugget, sill, _ = fit(bins((1, 1, 1), (2, 5, 3)), 'linear', Given(range=1.0), 3)
        self.close([nugget + sill], 4)

    def test_sill_beside_a_nugget(self):
        """Range 2: the spherical model is 11/16 at 1 and 1 at 2. Heights 1 and 2: sill (11/16 + 2) / (121/256 + 1) = 688/377."""
        self.close(fit(bins((1, 1, 1), (2, 2, 1)), 'spherical', Given(nugget=0.0, range=2.0), 3), 0, Fraction(688, 377), 2)

    def test_nugget_beside_a_sill(self):
        """As before with sill 2: nugget (1.6 - 2 · 11/16) / (5/16) = 0.72; from a height of 1 it would be -1.2, and stays at 0."""
        self.close(fit(bins((1, 1.6, 1), (2, 2, 1)), 'spherical', Given(sill=2.0, range=2.0), 3), 0.72, 2, 2)
        self.close(fit(bins((1, 1, 1), (2, 2, 1)), 'spherical', Given(sill=2.0, range=2.0), 3), 0, 2, 2)

    def test_exponential_and_gaussian_at_their_range(self):
        """At the range both are 1 - 1/e of the way up; at twice the range 1 - 1/e^2 and 1 - 1/e^4. So a bin there, and nugget 0, give the sill."""
        for model, h, height in (('exponential', 5, 1 - math.exp(-1)), ('exponential', 10, 1 - math.exp(-2)), ('gaussian', 10, 1 - math.exp(-4))):
            self.close(fit(bins((h, 3 * height, 7)), model, Given(nugget=0.0, range=5.0), 30), 0, 3, 5)

    def test_range_of_models_that_only_come_near_their_top(self):
        """Bins that rise without end: three ranges, or √3 of them, are the longest distance. Bins that are all alike: they are the first bin."""
        rising, alike = bins((10, 1, 3), (20, 4, 5), (30, 9, 7)), bins((10, 2, 3), (20, 2, 5), (30, 2, 7))
        for model, times in (('exponential', 3), ('gaussian', math.sqrt(3))):
            self.assertAlmostEqual(fit(rising, model, Given(), 60.0)[2], 60 / times)
            self.assertGreaterEqual(fit(alike, model, Given(), 60.0)[2], 10 / times)

    def test_all_given(self):
        self.assertEqual(fit(bins((1, 1, 1)), 'spherical', Given(0.5, 2.0, 7.0), 3), (0.5, 2.0, 7.0))

    def test_bins_on_a_model_give_it_back(self):
        for model, top, span in (('spherical', 1.1, 730.0), ('linear', 1.0, 730.0), ('exponential', 1.1, 310.0), ('gaussian', 1.1, 420.0)):
            true = Variogram(model, 0.1, top, span)
            found = fit(bins(*((h, true.at(h), 10 + h) for h in range(50, 1001, 50))), model, Given(), 2000.0)
            for a, b in zip(found, (0.1, top, span)):
                self.assertAlmostEqual(a, b, delta=1e-4 * b, msg=model)

    def test_only_what_is_missing(self):
        true = Variogram('spherical', 0.1, 1.1, 730.0)
        row = bins(*((h, true.at(h), 5) for h in range(50, 1001, 50)))
        for given in (Given(nugget=0.1), Given(sill=1.1), Given(nugget=0.1, sill=1.1)):
            found = fit(row, 'spherical', given, 2000.0)
            self.assertAlmostEqual(found[2], 730.0, delta=0.1)
            self.assertAlmostEqual(found[1], 1.1, delta=1e-3)

    def test_bins_that_are_all_alike(self):
        """Any range fits; the shortest is taken, with no nugget."""
        for model in ('spherical', 'linear'):
            self.assertEqual(fit(bins((10, 2, 3), (20, 2, 5), (30, 2, 7)), model, Given(), 60.0), (0.0, 2.0, 10))

    def test_falling_bins(self):
        """Nothing rises: the average by pairs as one height, (3·3 + 2·1 + 1·2) / 6."""
        nugget, sill, span = fit(bins((10, 3, 3), (20, 2, 1), (30, 1, 2)), 'spherical', Given(), 60.0)
        self.assertAlmostEqual(Variogram('spherical', nugget, sill, span).at(20), 13 / 6)
