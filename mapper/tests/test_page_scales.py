"""Round steps, ticks, numbers, classes, and the chart's axes."""
import math
import unittest

from mapper.drawing.classes import classes
from mapper.drawing.colours import LEVELS
from mapper.drawing.scales import alike, counted, decimals, fixed, length_words, plain, round_step, ticks
from mapper.drawing.semivariogram_chart import axis, bin_words, chart, curve_points, model_words, tick_words
from mapper.page.tables import area_words, level_range, node_words, origin_words
from mapper.records import Bin, Run, Variogram
from mapper.tests import samples


class Steps(unittest.TestCase):
    def test_round_steps(self):
        for span, most, step in ((7.3, 9, 1.0), (10, 10, 1.0), (10.1, 10, 2.0), (0.37, 9, 0.05), (2000, 8, 500.0), (1e300, 5, 2e299), (1, 3, 0.5)):
            self.assertEqual(round_step(span, most), step)

    def test_steps_are_round_and_the_smallest_that_do(self):
        for k in range(1, 2000):
            span = k * 0.37
            step = round_step(span, 9)
            self.assertIn(('%e' % step)[0], '125')
            self.assertEqual(float(('%e' % step)[1:8]), 0)
            self.assertLessEqual(span / step, 9 * (1 + 1e-9))
            self.assertGreater(span / (step / 2.5), 9 * (1 - 1e-9))

    def test_no_span(self):
        for span in (0.0, -1.0, math.inf, math.nan):
            self.assertEqual(round_step(span, 9), 1.0)

    def test_ticks(self):
        self.assertEqual(ticks(0.05, 0.36, 0.1), [0.1, 0.2, 0.3])
        self.assertEqual(ticks(-1, 1, 0.5), [-1, -0.5, 0, 0.5, 1])
        self.assertEqual(ticks(3425001, 3425999, 500), [3425500])
        self.assertEqual(ticks(1e300, 1e300 * (1 + 1e-15), 1.0), [])


class Numbers(unittest.TestCase):
    def test_seven_figures_in_groups(self):
        self.assertEqual(fixed(3425000, 0), '3\u202f425\u202f000')
        self.assertEqual(fixed(9999, 0), '9999')
        self.assertEqual(fixed(12345.678, 1), '12\u202f345.7')

    def test_signs(self):
        self.assertEqual(fixed(-1.5, 1), '\u22121.5')
        self.assertEqual(fixed(-0.001, 1), '0.0')

    def test_plain(self):
        self.assertEqual([plain(v) for v in (47.30, 0.0, 1e-10, 1e300, 100.0, -2.5)], ['47.3', '0', '1e\u221210', '1e300', '100', '\u22122.5'])
        self.assertEqual(plain(3425000.25, 10), '3\u202f425\u202f000.25')

    def test_no_number_is_said(self):
        self.assertEqual(fixed(math.nan, 2), 'not a number')
        self.assertEqual(fixed(-math.inf, 2), '\u2212∞')

    def test_alike(self):
        self.assertEqual(alike([46.6, 47.31, 48.0]), ['46.60', '47.31', '48.00'])

    def test_words(self):
        self.assertEqual(counted(1, 'node'), '1\u00a0node')
        self.assertEqual(counted(100000, 'node'), '100,000\u00a0nodes')
        self.assertEqual([length_words(v) for v in (500, 1000, 2500)], ['500\u00a0m', '1\u00a0km', '2.5\u00a0km'])
        self.assertEqual([decimals(v) for v in (1, 0.5, 0.1, 0.05, 20)], [0, 1, 1, 2, 0])


class Tables(unittest.TestCase):
    def test_ranges(self):
        self.assertEqual(level_range([45.1, 49.25, 47.0]), '45.10 to 49.25 m')
        self.assertEqual(level_range([45.1, 45.1]), '45.1 m')
        self.assertEqual(level_range([]), '–')
        self.assertEqual(level_range([-5544.8173, -6.1579]), '\u22125544.82 to \u22126.16 m')
        self.assertEqual(level_range([0.0159971, 0.0414042]), '0.0160 to 0.0414 m')
        self.assertEqual(level_range([205.113, 205.12]), '205.11 to 205.12 m')

    def test_origins(self):
        self.assertEqual(origin_words(Run((0.0, 0.0), {})), 'coordinates as entered')
        self.assertEqual(origin_words(Run((3425000.0, 5812000.0), {})), 'origin moved to (3\u202f425\u202f000, 5\u202f812\u202f000)')
        self.assertEqual(origin_words(Run((0.0, 5812000.0), {})), 'origin moved to (0, 5\u202f812\u202f000)')

    def test_nodes_and_area_in_words(self):
        self.assertIn('40 columns, 30 rows, 51.28\u00a0m by 51.72\u00a0m apart', node_words(samples.grid_map()))
        self.assertIn('12\u00a0nodes in a line, 181.8\u00a0m apart', node_words(samples.grid_map(12, 1)))
        self.assertEqual(node_words(samples.grid_map(1, 1)), '1\u00a0node')
        self.assertEqual(area_words(samples.grid_map()), '2\u00a0km by 1.5\u00a0km, 3 km²')
        self.assertEqual(area_words(samples.grid_map(12, 1)), 'none: a line of 2\u00a0km')


class Classed(unittest.TestCase):
    def test_round_bounds(self):
        found = classes(44.35, 49.04, LEVELS)
        self.assertEqual(found.bounds, [44.5, 45.0, 45.5, 46.0, 46.5, 47.0, 47.5, 48.0, 48.5, 49.0])
        self.assertEqual([found.of(v) for v in (44.4, 44.5, 48.999, 49.0)], [0, 1, 9, 10])
        self.assertEqual([found.words(k) for k in (0, 1, 10)], ['below 44.5', '44.5 to 45.0', '49.0 and above'])
        self.assertEqual(found.figure(47.43219), '47.432')

    def test_a_level_at_the_least_bound_leaves_no_class_empty(self):
        found = classes(45.0, 46.0, LEVELS)
        self.assertEqual(found.bounds[0], 45.1)


class Chart(unittest.TestCase):
    def test_axes_start_at_0_and_hold_everything(self):
        self.assertEqual(axis(1.9, 5), (0.5, [0.0, 0.5, 1.0, 1.5, 2.0]))
        self.assertEqual(axis(2.0, 5)[1][-1], 2.0)

    def test_the_curve_starts_at_the_nugget_and_ends_at_the_sill(self):
        points = curve_points(Variogram('spherical', 0.2, 1.9, 500.0), 1000.0)
        self.assertAlmostEqual(points[0][1], 0.2, places=2)
        self.assertEqual(points[-1], (1000.0, 1.9))

    def test_the_curves_of_models_that_only_come_near_the_sill(self):
        for model, at_range in (('exponential', math.exp(-1)), ('gaussian', math.exp(-1))):
            points = curve_points(Variogram(model, 0.2, 1.9, 500.0), 1200.0)
            self.assertEqual(points[0], (0.0, 0.2))
            self.assertEqual(points[50], (500.0, 0.2 + (1.9 - 0.2) * (1 - at_range)))
        self.assertEqual(points[25], (250.0, 0.2 + (1.9 - 0.2) * (1 - math.exp(-0.25))))

    def test_the_model_in_words(self):
        self.assertEqual(model_words(Variogram('exponential', 0.5, 1.5, 500.0, 'fitted')),
                         'Exponential model, fitted to the bins: nugget 0.5, sill 1.5, range 500 m (95 % of the rise at 1500 m).')
        self.assertIn('(95 % of the rise at 866 m)', model_words(Variogram('gaussian', 0.5, 1.5, 500.0)))
        self.assertEqual(model_words(Variogram('linear', 0.5, 1.5, 500.0)), 'Linear model, as given: nugget 0.5, sill 1.5, range 500 m.')

    def test_where_the_model_comes_from(self):
        """A plain model is not said to be fitted, and a number that was given is not either."""
        for how, given, words in (('plain', [], 'a plain one, since there was nothing to fit'),
                                  ('fitted', ['sill'], 'sill as given and else fitted to the bins'),
                                  ('plain', ['nugget', 'range'], 'nugget and range as given and else a plain one, since there was nothing to fit')):
            self.assertIn(f'Spherical model, {words}: nugget 0,', model_words(Variogram('spherical', 0.0, 1.0, 50.0, how, given)))

    def test_a_dot_for_every_bin(self):
        m = samples.grid_map(3, 3)
        self.assertEqual(chart(m).count('class="bin"'), len(m.bins))
        self.assertIn('class="curve"', chart(m))
        self.assertNotIn('hollow', bin_words(m))

    def test_one_bin_one_pair_and_none(self):
        m = samples.grid_map(3, 3, wells=2)
        m.bins = [Bin(300.0, 0.5, 1)]
        self.assertEqual(bin_words(m), 'The dot: the average over 1\u00a0pair of wells.')
        self.assertIn('<title>1\u00a0pair around 300 m: 0.5</title>', chart(m))
        m.bins = [Bin(300.0, 0.5, 3)]
        self.assertEqual(bin_words(m), 'The dot: the average over 3\u00a0pairs of wells.')
        m.bins = []
        self.assertEqual(bin_words(m), '')

    def test_numbers_too_broad_for_their_room(self):
        """A semivariance of millions, as a level of -9999 makes it."""
        self.assertEqual(tick_words(50000000.0, 1e7, 48), '5e7')
        self.assertEqual(tick_words(1500000.0, 5e5, 48), '1.5e6')
        self.assertEqual(tick_words(0.25, 0.05, 48), '0.25')

    def test_bins_that_were_not_fitted_are_hollow(self):
        m = samples.grid_map(3, 3)
        m.bins[-1].used = m.bins[-2].used = False
        self.assertEqual(chart(m).count('class="bin unused"'), 2)
        self.assertIn('hollow', bin_words(m))


if __name__ == '__main__':
    unittest.main()
