"""Contour lines are dashed where the standard deviation is above half the root of what the model rises to, against places worked out by hand."""
import math
import re
import unittest
from array import array

from mapper.drawing.uncertain_lines import figure_at, parted, pieces, uncertain_above
from mapper.page.page import page
from mapper.records import Variogram
from mapper.tests import samples
from mapper.tests.test_page_contours import field


class Limit(unittest.TestCase):
    def test_half_the_root_of_the_top(self):
        """Tops of 4 and, for the linear model, of 1 + 8."""
        for model, top, most in (('spherical', 4.0, 1.0), ('exponential', 4.0, 1.0), ('gaussian', 4.0, 1.0)):
            variogram = Variogram(model, 1.0, 4.0, 500.0)
            self.assertEqual((variogram.top, uncertain_above(variogram)), (top, most))
        linear = Variogram('linear', 1.0, 8.0, 500.0)
        self.assertEqual((linear.top, uncertain_above(linear)), (9.0, 1.5))

    def test_a_model_without_a_top_has_no_limit(self):
        for sill in (0.0, -1.0, math.inf, math.nan):
            self.assertEqual(uncertain_above(Variogram('spherical', 0.0, sill, 1.0)), math.inf)


class Between(unittest.TestCase):
    def test_on_nodes_edges_and_within(self):
        square = field([[0.0, 10.0], [20.0, 50.0]])
        for at, figure in (((0, 0), 0), ((1, 0), 10), ((0, 1), 20), ((1, 1), 50), ((0.25, 0), 2.5), ((1, 0.5), 30), ((0.5, 0.5), 20)):
            self.assertAlmostEqual(figure_at(square, at), figure)

    def test_a_node_that_does_not_count_is_not_looked_at(self):
        self.assertEqual(figure_at(field([[1.0, 2.0], [math.inf, math.nan]]), (0.5, 0)), 1.5)


class Pieces(unittest.TestCase):
    LINE = [(0.0, 0.0), (4.0, 0.0), (4.0, 8.0)]

    def test_cut_where_the_figure_passes_the_most(self):
        """From 1 to 3 it passes 1.5 a quarter of the way; from 3 back to 1 it passes 1.5 at three quarters."""
        self.assertEqual(pieces(self.LINE, [1.0, 3.0, 1.0], 1.5),
                         [(False, [(0.0, 0.0), (1.0, 0.0)]), (True, [(1.0, 0.0), (4.0, 0.0), (4.0, 6.0)]), (False, [(4.0, 6.0), (4.0, 8.0)])])

    def test_in_one_piece(self):
        self.assertEqual(pieces(self.LINE, [1.0, 1.5, 1.0], 1.5), [(False, self.LINE)])
        self.assertEqual(pieces(self.LINE, [2.0, 3.0, 1.6], 1.5), [(True, self.LINE)])

    def test_no_number_is_uncertain(self):
        for none in (math.nan, math.inf):
            (first, _), (second, places) = pieces(self.LINE[:2], [1.0, none], 1.5)
            self.assertEqual((first, second, places[-1]), (False, True, (4.0, 0.0)))

    def test_a_whole_line_through_a_field(self):
        """The deviation grows by a half for each column: above 1.25 from column 2.5 on."""
        deviation = field([[0.5 * c for c in range(5)]] * 3)
        certain, unsure = parted([[(0, 1), (1, 1), (2, 1), (3, 1), (4, 1)]], deviation, 1.25)
        self.assertEqual(certain, [[(0, 1), (1, 1), (2, 1), (2.5, 1)]])
        self.assertEqual(unsure, [[(2.5, 1), (3, 1), (4, 1)]])


class OnThePage(unittest.TestCase):
    def lines(self, variance, make=lambda: samples.grid_map(6, 5, wells=6), top=4.0):
        """The page of a map whose nodes have this variance, with a model that rises to the top."""
        m = make()
        m.variogram = Variogram('spherical', 0.0, top, 800.0)
        m.nodes.variance = array('d', (variance(x) for x in m.nodes.x))
        text = page(m)
        paths = re.search(r'<g id="ground-lines" class="lines">(.*?)</g>', text).group(1)
        return text, ' class="unsure"/>' in paths, bool(re.search(r'"#\w+"/>', paths))

    def test_certain(self):
        text, dashed, through = self.lines(lambda x: 0.99)  # a top of 4: up to a deviation of 1
        self.assertEqual((dashed, through), (False, True))
        self.assertNotIn('contour line, uncertain', text)
        self.assertIn('contour line, every 0.5 m', text)

    def test_uncertain(self):
        text, dashed, through = self.lines(lambda x: 1.01)
        self.assertEqual((dashed, through), (True, False))
        self.assertIn('contour line, uncertain: ± above 1 m, every 0.5 m', text)
        self.assertNotIn('contour line, every', text)

    def test_both(self):
        text, dashed, through = self.lines(lambda x: 2.0 if x > samples.EAST + 900 else 0.5)
        self.assertEqual((dashed, through), (True, True))
        self.assertIn('contour line, uncertain: ± above 1 m<', text)
        self.assertIn('contour line, every 0.5 m', text)

    def test_on_a_large_map(self):
        text, dashed, through = self.lines(lambda x: 2.0 if x > samples.EAST + 900 else 0.5, lambda: samples.grid_map(160, 100, wells=6))
        self.assertIn('<image', text)
        self.assertEqual((dashed, through), (True, True))

    def test_labels_stay(self):
        """Dashed or not, the lines have the same numbers beside them."""
        told = [sorted(re.findall(r'transform="translate[^>]*>([\d.]+)</text>', self.lines(lambda x: variance)[0])) for variance in (0.5, 2.0)]
        self.assertTrue(told[0])
        self.assertEqual(*told)


if __name__ == '__main__':
    unittest.main()
