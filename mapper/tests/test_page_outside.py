"""What is not known is drawn as not known: ground outside the wells is paled and labelled, and hovering says so."""
import json
import re
import unittest

from mapper.drawing.frame import Ground, ground
from mapper.drawing.labels import Box
from mapper.drawing.outside_wells import any_outside, clear_of, label_place, outside_path, well_hull
from mapper.drawing.map_drawing import outside_label, trend_arrow, wells
from mapper.drawing.scene import scene
from mapper.drawing.sheet import SIZES, Sheet
from mapper.page.page import page
from mapper.records import Well
from mapper.tests import samples
from mapper.tests.test_page import drawings, sample_page, words

SQUARE = [(100.0, 100.0), (200.0, 100.0), (200.0, 200.0), (100.0, 200.0)]
PALED = 'paled: outside the wells, not known'


def with_wells(*places, make=samples.grid_map, **more):
    """A map whose wells stand at these shares of its width and height."""
    m = make(**more)
    m.wells = [Well('W-%d' % k, samples.EAST + 2000 * u, samples.NORTH + 1500 * v, 46.0, line=k + 2) for k, (u, v) in enumerate(places)]
    m.left_out = samples.told_by_others(m.wells)
    return m


def outline(text):
    return re.search(r'<path id="ground-outside" class="outside" fill-rule="evenodd" d="([^"]*)"/>', text).group(1)


class Paled(unittest.TestCase):
    def test_all_but_the_hull(self):
        """Ground of 1000 by 800 units, two units a metre: wells 100 m in from its sides, and one in the middle that is no corner."""
        land = Ground(0.0, 0.0, 500.0, 400.0)
        wells = [Well('', x, y, 0.0) for x, y in ((100, 100), (400, 100), (250, 200), (400, 300), (100, 300))]
        path = outside_path(well_hull(wells, land), land)
        whole, ring = re.findall('M[^M]*', path)
        self.assertEqual(whole, 'M0 0H1000V800H0Z')
        self.assertEqual(set(re.findall(r'[\d.]+ [\d.]+', ring)), {'200 200', '800 200', '800 600', '200 600'})

    def test_all_of_it_where_wells_lie_on_a_line_or_a_spot(self):
        for places in ([(0.2, 0.2)], [(0.2, 0.2)] * 4, [(0.2, 0.2), (0.6, 0.6)], [(0.25, 0.25), (0.5, 0.5), (0.75, 0.75)]):
            m = with_wells(*places, columns=4, rows=4)
            m.trend, m.columns, m.runs[0].estimate = 'constant', ['1'], (46.0,)
            text = page(m)
            self.assertEqual(outline(text).count('M'), 1)
            self.assertIn(PALED, text)

    def test_both_pictures_and_all_sizes(self):
        for name in ('plain', 'large', 'list'):
            text = sample_page(name)
            if name != 'list':
                self.assertEqual(outline(text).count('M'), 2)
            for one in re.findall(r'<svg [^>]*class="map .*?</svg>', text, re.S):
                self.assertEqual(one.count('href="#ground-outside"'), 1)
                self.assertLess(one.index('#ground-deviation'), one.index('#ground-outside'), 'it lies over both pictures')
            self.assertEqual(text.count(PALED), 2)  # in both legends

    def test_dots_of_a_list_are_paled_whole(self):
        """Wells around the western half: dots east of the middle are outside, by their own outlines."""
        m = with_wells((0.0, 0.0), (0.5, 0.0), (0.5, 1.0), (0.0, 1.0), make=samples.list_map)
        path = re.search(r'<path id="ground-outside" class="outside" fill-rule="nonzero" d="([^"]*)"/>', page(m)).group(1)
        self.assertEqual(path.count('M'), sum(x > samples.EAST + 1000 for x in m.nodes.x))
        self.assertEqual(path.count('Z'), path.count('M'))
        self.assertTrue(0 < path.count('M') < len(m.nodes))

    def test_no_label_where_there_is_no_level(self):
        self.assertNotIn('outside the wells</text>', sample_page('none'))

    def test_failed_nodes_are_hatched_over_it(self):
        text = sample_page('two_runs')
        one = re.search(r'<svg [^>]*class="map .*?</svg>', text, re.S).group()
        self.assertLess(one.index('#ground-outside'), one.index('#ground-failed'))

    def test_hatching_below_a_picture_is_not_paled(self):
        """Only the points of the picture are, which is clear where a node failed."""
        text = sample_page('large')
        self.assertEqual(text.count('href="#ground-outside" mask="url(#ground-figures)"'), len(SIZES))
        self.assertRegex(text, '<mask id="ground-figures" [^>]*mask-type:alpha"><use href="#ground-level"/></mask>')
        self.assertNotIn('ground-figures', sample_page('two_runs'))

    def test_not_in_the_legend_where_no_node_lies_outside(self):
        corners = (-0.01, -0.01), (1.01, -0.01), (1.01, 1.01), (-0.01, 1.01)
        self.assertNotIn(PALED, page(with_wells(*corners, columns=5, rows=4)))
        self.assertIn(PALED, page(with_wells(*corners[:3], columns=5, rows=4)))

    def test_any_outside_looks_at_every_node_of_a_list(self):
        m = with_wells((-0.1, -0.1), (1.1, -0.1), (1.1, 1.1), (-0.1, 1.1), make=samples.list_map)
        land = ground(m)
        corners = well_hull(m.wells, land)
        self.assertFalse(any_outside(m.nodes, None, corners, land))
        m.nodes.x[37] = samples.EAST + 2300.0
        self.assertTrue(any_outside(m.nodes, None, corners, land))
        m = with_wells((0.5, -0.6), (1.6, 0.5), (0.5, 1.6), (-0.6, 0.5), make=samples.list_map)  # the nodes' rectangle has its corners outside
        for at in range(len(m.nodes)):
            m.nodes.x[at], m.nodes.y[at] = samples.EAST + 1000 + 2000 * (at % 2 - 0.5), samples.NORTH + 750
        m.nodes.x[0], m.nodes.y[0], m.nodes.x[1], m.nodes.y[1] = samples.EAST + 1000, samples.NORTH - 700, samples.EAST + 1000, samples.NORTH + 2200
        self.assertFalse(any_outside(m.nodes, None, well_hull(m.wells, ground(m)), ground(m)))


class Hovering(unittest.TestCase):
    def test_a_digit_for_each_node(self):
        """Nodes at shares 0, 1/4, 1/2, 3/4 and 1 of the width, in three rows; the wells' triangle holds the middle column, and its southern side."""
        m = with_wells((0.25, 0.0), (0.75, 0.0), (0.5, 1.0), columns=5, rows=3)
        told = json.loads(re.search(r'id="told">(.*?)</script>', page(m)).group(1))
        self.assertEqual(told['outside'], '10001' '11011' '11011')

    def test_wells_on_a_line_have_only_the_line_between_them(self):
        """Along the southern side from 1/4 to 3/4 of the width."""
        told = json.loads(re.search(r'id="told">(.*?)</script>', page(with_wells((0.25, 0.0), (0.75, 0.0), columns=5, rows=3))).group(1))
        self.assertEqual(told['outside'], '10001' '11111' '11111')

    def test_units(self):
        script = page(samples.grid_map(3, 3, wells=3)).split('<script>')[1]
        for words_with_unit in ("'level ' + level + ' m'", "' m (standard deviation", "' m²)'", "'level in the list ' + well[3] + ' m'", 'outside the wells'):
            self.assertIn(words_with_unit, script)

    def test_what_the_others_say_of_a_well(self):
        m = samples.doubted(columns=4, rows=4)
        told = json.loads(re.search(r'id="told">(.*?)</script>', page(m)).group(1))
        self.assertEqual([well[2:] for well in told['wells'][4:7:2]], [['W-05', '45.49', ''], ['W-07', '53.1', '47.12']])


class Label(unittest.TestCase):
    def test_clear_of_a_hull(self):
        for box, clear in ((Box(0, 0, 99, 300), True), (Box(0, 0, 101, 101), False), (Box(120, 120, 130, 130), False), (Box(0, 0, 300, 300), False),
                           (Box(201, 0, 300, 300), True), (Box(0, 201, 300, 300), True), (Box(150, 50, 160, 99), True)):
            self.assertEqual(clear_of(box, SQUARE), clear, box)
        slanted = [(0.0, 0.0), (300.0, 300.0), (0.0, 300.0)]
        self.assertTrue(clear_of(Box(120, 20, 200, 100), slanted))   # beyond the slanting edge, though within the hull's bounds
        self.assertFalse(clear_of(Box(80, 20, 200, 100), slanted))

    def test_on_every_sample_outside_and_on_free_ground(self):
        for name in ('plain', 'doubted', 'crowded'):
            for one in drawings(sample_page(name)):
                labels = [text for text in one.iter('{http://www.w3.org/2000/svg}text') if text.get('class') == 'halo unknown']
                if one.get('class', '').startswith('map wide'):
                    self.assertEqual([text.text for text in labels], ['outside the wells'], name)

    def test_place(self):
        area = Box(0, 0, 300, 300)
        lines, box = label_place(SQUARE, area, [], 12)
        self.assertEqual(lines, ('outside the wells',))
        self.assertTrue(box.within(area) and clear_of(box, SQUARE))
        taken = [Box(0, 0, 300, 90), Box(0, 210, 300, 300)]
        lines, box = label_place(SQUARE, area, taken, 12)
        self.assertEqual(lines, ('outside', 'the wells'))  # only narrow strips are left, to the west and the east
        self.assertFalse(any(box.meets(other) for other in taken))
        self.assertIsNone(label_place(SQUARE, area, [*taken, Box(0, 0, 99, 300), Box(201, 0, 300, 300)], 12))
        self.assertIsNone(label_place(SQUARE, Box(0, 0, 40, 10), [], 12))

    def test_no_other_label_meets_it(self):
        m = samples.grid_map()
        made = scene(m)
        for size in SIZES:
            sheet = Sheet(made.ground, size)
            _, kept = trend_arrow(m, made, sheet)
            _, taken, _ = wells(m, made.ground, sheet, kept)
            before = list(taken)
            if outside_label(m, made, sheet, taken):
                self.assertEqual(len(taken), len(before) + 1)
                self.assertFalse(any(taken[-1].meets(box) for box in before), size.name)

    def test_for_those_who_cannot_see_it(self):
        self.assertIn('The ground outside the wells is paled.', words(sample_page('plain')))


if __name__ == '__main__':
    unittest.main()
