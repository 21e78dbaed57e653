"""Maps at the edge of what there can be: the page still comes out, well formed and without a number that is none."""
import math
import unittest
from array import array

from mapper.page.page import page
from mapper.records import Run, Variogram
from mapper.tests import samples
from mapper.tests.test_page import Balance, drawings, words


class Degenerate(unittest.TestCase):
    def sound(self, m):
        """The page of a map, after looking it over."""
        text = page(m)
        reader = Balance()
        reader.feed(text)
        self.assertEqual((reader.open, reader.wrong), ([], []))
        for drawing in drawings(text):
            for element in drawing.iter():
                for name, value in element.attrib.items():
                    if name in ('d', 'x', 'y', 'cx', 'cy', 'r', 'width', 'height', 'viewBox', 'transform'):
                        self.assertNotRegex(value, '(?i)nan|inf', name)
        return text

    def flat(self, level):
        m = samples.grid_map(6, 5, wells=4)
        m.nodes.level = array('d', [level] * 30)
        return m

    def test_one_node(self):
        m = samples.grid_map(1, 1, wells=3)
        self.assertIn('The arithmetic held at 1 of 1 node.', self.sound(m))
        m.grid.dx = m.grid.dy = 0.0
        self.sound(m)

    def test_one_well_on_the_one_node(self):
        m = samples.grid_map(1, 1, wells=1)
        m.wells[0].x, m.wells[0].y = m.nodes.x[0], m.nodes.y[0]
        m.bins = []
        self.assertIn('W-01', words(self.sound(m)))
        m.grid = None
        self.sound(m)

    def test_no_nodes(self):
        m = samples.list_map(0)
        self.sound(m)

    def test_one_row_and_one_column(self):
        for columns, rows in ((12, 1), (1, 12), (2, 1), (2, 2)):
            text = self.sound(samples.grid_map(columns, rows, wells=5, failed=lambda x, y: 2 if x > samples.EAST + 1500 else 0))
            self.assertRegex(text, r'<g id="ground-level"><path')

    def test_all_wells_on_one_spot(self):
        m = samples.grid_map(6, 5, wells=12)
        for well in m.wells:
            well.x, well.y = 3425500.0, 5812500.0
        self.assertIn('marked by its number', self.sound(m))

    def test_all_on_one_line(self):
        m = samples.list_map(30)
        m.nodes.y = array('d', [samples.NORTH] * 30)
        for well in m.wells:
            well.y = samples.NORTH
        self.sound(m)

    def test_equal_levels(self):
        text = self.sound(self.flat(47.3))
        self.assertIn('</svg>47.3</li>', text)
        self.assertEqual(text.count('class="lines"'), 1)
        self.assertIn('class="lines"></g>', text)

    def test_levels_that_differ_by_rounding(self):
        m = self.flat(47.3)
        m.nodes.level[3] = math.nextafter(47.3, 50) if hasattr(math, 'nextafter') else 47.3 * (1 + 2 ** -52)
        self.assertIn('class="lines"></g>', self.sound(m))

    def test_nothing_passed(self):
        m = samples.none_passed()
        for at in range(len(m.nodes)):
            m.nodes.level[at] = (math.nan, math.inf, -math.inf)[at % 3]
            m.nodes.variance[at] = math.nan
        self.assertIn('The arithmetic held at 0 of 1,200 nodes.</strong> 1,200 did not pass the audit and have no level.', self.sound(m))

    def test_numbers_that_are_none_at_failed_nodes(self):
        m = samples.two_runs()
        for at, verdict in enumerate(m.nodes.verdict):
            if verdict:
                m.nodes.level[at], m.nodes.variance[at] = math.nan, math.inf
        self.sound(m)

    def test_a_passed_node_whose_variance_is_past_all_numbers(self):
        m = samples.grid_map(5, 5)
        m.nodes.variance[12] = math.inf
        self.sound(m)

    def test_huge_and_tiny_levels(self):
        for scale in (1e300, 1e307, 1e-300, 1e-12, 1e9):
            with self.subTest(scale):
                m = samples.grid_map(8, 6, wells=5)
                m.nodes.level = array('d', (v * scale for v in m.nodes.level))
                for well in m.wells:
                    well.level *= scale
                text = self.sound(m)
                self.assertLess(len(text), 300000)

    def test_levels_from_end_to_end(self):
        m = samples.grid_map(4, 4)
        m.nodes.level = array('d', [-1.7e308, 1.7e308] * 8)
        self.sound(m)

    def test_huge_and_tiny_coordinates(self):
        for scale in (1e300, 1e-300, 1e-9):
            with self.subTest(scale):
                m = samples.list_map(20)
                m.nodes.x = array('d', ((x - samples.EAST) * scale for x in m.nodes.x))
                m.nodes.y = array('d', ((y - samples.NORTH) * scale for y in m.nodes.y))
                for well in m.wells:
                    well.x, well.y = (well.x - samples.EAST) * scale, (well.y - samples.NORTH) * scale
                self.sound(m)

    def test_coordinates_from_end_to_end(self):
        m = samples.list_map(4)
        m.nodes.x = array('d', [-1.7e308, 1.7e308, 0, 1])
        m.nodes.y = array('d', [-1.7e308, 1.7e308, 0, 1])
        self.sound(m)

    def test_models_without_a_curve(self):
        for variogram in (Variogram('linear', 0.0, 1.0, 0.0), Variogram('spherical', 0.0, 0.0, 0.0),
                          Variogram('spherical', 2.0, 1.0, -5.0), Variogram('linear', 0.0, 1e308, 1e-300),
                          Variogram('exponential', 0.0, 1.0, 0.0), Variogram('exponential', 0.0, 1.0, -5.0),
                          Variogram('gaussian', 0.0, 1.0, 0.0), Variogram('gaussian', 0.0, 1.0, 1e200)):
            for bins in ([], samples.made_bins(samples.made_wells(5))):
                m = samples.grid_map(3, 3, wells=4)
                m.variogram, m.bins = variogram, bins
                self.sound(m)

    def test_a_verdict_that_is_not_known(self):
        m = samples.grid_map(3, 3)
        m.nodes.verdict[0] = 77
        m.runs = [Run((0.0, 0.0), {0: 8, 77: 1})]
        self.assertIn('<td class="n">77</td>', self.sound(m))

    def test_long_names(self):
        m = samples.grid_map(4, 4, wells=6)
        for well in m.wells:
            well.name = 'a name ' * 30
        m.title = 'x' * 300
        self.sound(m)


if __name__ == '__main__':
    unittest.main()
