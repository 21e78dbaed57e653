"""Bins, residuals, and the model that is taken, down to the lists that leave nothing to fit."""
import unittest
from unittest import mock

from mapper.errors import Refused
from mapper.model.fitting import Given
from mapper.model.residuals import residuals
from mapper.model.semivariogram import bin_count, bins_of
from mapper.model.variogram import variogram_of
from mapper.records import Well


def wells(*rows, **more):
    return [Well(str(i), *row, {name: column[i] for name, column in more.items()}) for i, row in enumerate(rows)]


def quiet(sentence):
    raise AssertionError(sentence)


class Residuals(unittest.TestCase):
    def close(self, found, wanted):
        for a, b in zip(found, wanted):
            self.assertAlmostEqual(a, b, places=7)
        self.assertEqual(len(found), len(wanted))

    def test_constant(self):
        self.close(residuals(wells((0, 0, 1), (5, 1, 2), (7, 9, 6)), 'constant', None), [-2, -1, 3])

    def test_line_by_hand(self):
        """Levels 0, 1, 5 at x = 0, 1, 2 on one line: slope 5/2 from -1/2. The column y says nothing there."""
        self.close(residuals(wells((0, 3, 0), (1, 3, 1), (2, 3, 5)), 'linear', None), [0.5, -1, 0.5])

    def test_seven_figures(self):
        self.close(residuals(wells((4512300, 5403200, 0), (4512301, 5403200, 1), (4512302, 5403200, 5)), 'linear', None), [0.5, -1, 0.5])

    def test_wells_on_one_line(self):
        """As before on a line that is none of the axes, once with a well more: 4 levels 0, 1, 5, 2 have slope 1 from 1/2."""
        self.close(residuals(wells((0.1, 0.3, 0), (1.1, 0.6, 1), (2.1, 0.9, 5), (3.1, 1.2, 2)), 'linear', None), [-0.5, -0.5, 2.5, -1.5])

    def test_quadratic_goes_through_six(self):
        rows = [(0, 0, 3), (10, 0, 1), (0, 10, 4), (10, 10, 1), (20, 10, 5), (10, 20, 9)]
        self.close(residuals(wells(*rows), 'quadratic', None), [0] * 6)

    def test_external(self):
        """Levels are 2 + 3·ground, less what only the second well has."""
        found = residuals(wells((0, 0, 5), (1, 5, 8), (2, 2, 11), (9, 3, 14), ground=[1, 2, 3, 4]), 'constant', 'ground')
        self.close(found, [0] * 4)


class Bins(unittest.TestCase):
    def test_two_wells_by_hand(self):
        """The scope's case: (0, 0) with 2 and (2, 0) with 6. One bin of width 2: its middle 1, half of 4 squared."""
        (found,) = bins_of(wells((0, 0, 2), (2, 0, 6)), [2, 6], quiet)
        self.assertEqual((found.distance, found.semivariance, found.pairs), (1.0, 8.0, 1))

    def test_far_bins_are_not_fitted(self):
        row = wells(*((10 * i, 0, i % 3) for i in range(20)))
        found = bins_of(row, [well.level for well in row], quiet)
        self.assertEqual(sum(each.pairs for each in found), 190)
        self.assertEqual([each.used for each in found], [each.distance <= 95 for each in found])

    def test_counts(self):
        self.assertEqual([bin_count(n) for n in (2, 3, 4, 10, 15, 48)], [1, 3, 4, 4, 10, 16])

    def test_one_well_is_refused_by_14(self):
        with self.assertRaises(Refused) as refused:
            bins_of(wells((0, 0, 2)), [2], quiet)
        self.assertEqual(refused.exception.number, 14)


class Taken(unittest.TestCase):
    def taken(self, row, trend='constant', external=None, model='spherical', **given):
        variogram, bins, said = variogram_of(row, trend, external, model, Given(**given), quiet)
        self.assertGreater(variogram.range, 0)
        self.assertGreater(variogram.sill, 0 if model == 'linear' else variogram.nugget)
        self.assertGreaterEqual(variogram.nugget, 0)
        return variogram, bins, said

    def test_levels_all_the_same(self):
        found, _, said = self.taken(wells(*((10 * i, i * i, 7.5) for i in range(9))))
        self.assertEqual((found.nugget, found.sill), (0, 1))
        self.assertIn('leave nothing to fit', said)
        self.assertEqual(found.how, 'plain')
        self.assertNotIn('were fitted', said)

    def test_trend_through_all(self):
        found, _, said = self.taken(wells(*((10 * i, i * i, 200 + i) for i in range(9))), trend='linear')
        self.assertEqual((found.nugget, found.sill), (0, 1))
        self.assertIn('leave nothing to fit', said)

    def test_two_wells(self):
        found, bins, said = self.taken(wells((0, 0, 2), (2, 0, 6)))
        self.assertEqual((found.nugget, found.sill, found.range, len(bins), found.how), (0, 8, 1, 1, 'plain'))
        self.assertIn("too few bins to fit a model to, so a plain one was taken: the bins' average as the sill, half the greatest distance as the range.", said)
        self.assertIn('The semivariogram has 1 bin of 2 wells.', said)

    def test_wells_at_one_spot(self):
        found, _, said = self.taken(wells((5, 5, 2), (5, 5, 6)))
        self.assertEqual((found.sill, found.range), (8, 1))
        self.assertIn('a range of one metre, since all wells share a spot.', said)

    def test_plain_model_with_numbers_given(self):
        """What is given is not said to come from the bins."""
        for given, words in (({'sill': 5.0}, 'half the greatest distance as the range'), ({'range': 7.0}, "the bins' average as the sill"),
                             ({'sill': 5.0, 'range': 7.0}, 'no nugget'), ({'nugget': 9.0, 'range': 7.0}, 'twice the nugget as the sill')):
            found, _, said = self.taken(wells((0, 0, 2), (2, 0, 6)), **given)
            self.assertIn(f'so a plain one was taken: {words}. Taken: ', said)
            self.assertEqual((found.how, found.given), ('plain', list(given)))

    def test_some_numbers_given(self):
        row = wells(*((37 * i % 100, 53 * i % 100, i % 5) for i in range(20)))
        found, _, said = self.taken(row, nugget=0.5)
        self.assertEqual(found.nugget, 0.5)
        self.assertIn('--nugget 0.5', said)
        self.assertIn('(nugget as given)', said)
        self.assertEqual((found.how, found.given), ('fitted', ['nugget']))
        found, _, said = self.taken(row, sill=3.0, range=40.0, model='linear')
        self.assertEqual((found.sill, found.range, found.how, found.given), (3, 40, 'fitted', ['sill', 'range']))
        self.assertIn('(sill and range as given)', said)

    def test_sill_of_the_linear_model_may_be_below_the_nugget(self):
        """Bins that rise slowly from 5: the model tops at nugget + sill."""
        row = wells(*((37 * i % 100, 53 * i % 100, i % 5) for i in range(20)))
        self.assertLess(self.taken(row, model='linear', nugget=1.5)[0].sill, 1.5)

    def test_plain_sill_is_above_a_nugget_that_is_given(self):
        self.assertEqual(self.taken(wells((0, 0, 2), (2, 0, 6)), nugget=9.0)[0].sill, 18)
        self.assertEqual(self.taken(wells((0, 0, 2), (2, 0, 6)), nugget=9.0, model='linear')[0].sill, 8)

    def test_what_is_said_is_what_is_taken(self):
        row = wells(*((37 * i % 100, 53 * i % 100, i % 5) for i in range(20)))
        found, _, said = self.taken(row, trend='quadratic')
        self.assertIn(f'--model spherical --nugget {found.nugget:.10g} --sill {found.sill:.10g} --range {found.range:.10g}.', said)
        self.assertIn('on what a quadratic trend leaves over', said)

    def test_bins_that_do_not_level_off(self):
        found, _, said = self.taken(wells(*((10 * i, 0, i) for i in range(20))))
        self.assertEqual(found.range, 190)
        self.assertIn('do not level off', said)

    def test_models_that_only_come_near_their_top(self):
        """As above, 190 m being the longest distance: it is three ranges of an exponential model, and √3 of a gaussian one."""
        for model, span, words in (('exponential', 63.33, 'three times the range is that reach'), ('gaussian', 109.7, '√3 times the range is that reach')):
            found, _, said = self.taken(wells(*((10 * i, 0, i) for i in range(20))), model=model)
            self.assertEqual(found.range, span)
            self.assertIn(words, said)
            self.assertIn(f'--model {model} ', said)
        found, _, said = self.taken(wells((0, 0, 2), (3, 0, 6)), model='exponential')
        self.assertEqual((found.nugget, found.sill, found.range), (0, 8, 0.5))
        self.assertIn('half the greatest distance as three times the range', said)

    def test_all_given(self):
        found, bins, said = self.taken(wells((0, 0, 2), (2, 0, 6)), nugget=0.0, sill=1.0, range=5.0)
        self.assertEqual((found.how, found.fitted, len(bins), said), ('given', False, 1, ''))

    def test_all_given_and_no_call_built(self):
        with mock.patch('mapper.model.variogram.library_there', return_value=False):
            found, bins, said = self.taken(wells((0, 0, 2), (2, 0, 6)), nugget=0.0, sill=1.0, range=5.0)
        self.assertEqual((found.how, bins, said), ('given', [], ''))
