"""The arrow of the trend on the page: where it points, and when there is none."""
import math
import re
import unittest

from mapper.drawing.map_drawing import drawing, trend_arrow
from mapper.drawing.scene import scene
from mapper.drawing.sheet import SIZES, Sheet
from mapper.page.page import page
from mapper.records import Well
from mapper.tests import samples
from mapper.tests.test_page import drawings, words

SVG = '{http://www.w3.org/2000/svg}'


def sloped(east, north, make=samples.grid_map, **more):
    """A map whose trend has these slopes."""
    m = make(**more)
    m.runs[m.drawn].estimate = (40.0, east, north) + m.runs[m.drawn].estimate[3:]
    return m


def maps(text):
    return [one for one in drawings(text) if one.get('class', '').startswith('map')]


def arrows(text):
    """Every arrow of a page's maps: its class and where it points, across and down."""
    found = []
    for one in maps(text):
        for path in one.iter(SVG + 'path'):
            if path.get('class', '').split()[:1] == ['trend']:
                ends = [tuple(map(float, place.split())) for place in re.findall(r'[ML](-?[\d.]+ -?[\d.]+)', path.get('d'))]
                turn = math.radians(float(re.search(r'rotate\((-?[\d.]+)\)', path.get('transform')).group(1)))
                tip = max(ends)
                assert tip[1] == 0 and tip[0] == -min(ends)[0], 'its outline points to the right'
                found.append((path.get('class'), math.cos(turn), math.sin(turn)))
    return found


class Points(unittest.TestCase):
    def test_down_the_slope_on_every_size(self):
        """On a drawing y runs down: what falls to the south-east points to the right and down."""
        for east, north, across, down in ((-0.003, 0.004, 0.6, 0.8), (0.003, 0.004, -0.6, 0.8), (0.003, -0.004, -0.6, -0.8), (-0.003, -0.004, 0.6, -0.8),
                                          (-0.002, 0, 1, 0), (0.002, 0, -1, 0), (0, 0.002, 0, 1), (0, -0.002, 0, -1)):
            found = arrows(page(sloped(east, north, columns=6, rows=5)))
            self.assertEqual([kind for kind, _, _ in found], ['trend'] * len(SIZES))
            for _, x, y in found:
                self.assertAlmostEqual(x, across, places=2)
                self.assertAlmostEqual(y, down, places=2)

    def test_with_its_label(self):
        for one in maps(page(sloped(-0.003, 0.004))):
            self.assertEqual([text.text for text in one.iter(SVG + 'text') if text.get('class') == 'halo strong'], ['5.0 m/km'])

    def test_an_external_column_is_said_beside_it(self):
        text = page(samples.crowded())
        self.assertIn('>apart from surface &quot;DEM&quot;</text>', text)
        self.assertIn('>in part</text>', text)  # where there is no room for so much

    def test_for_those_who_cannot_see_it(self):
        for one in maps(page(sloped(-0.003, 0.004))):
            self.assertIn('An arrow points the way the trend falls: 5.0 m/km to the south-east.', one.find(SVG + 'desc').text)
        self.assertIn('2.2 m/km to the north-west apart from surface "DEM".', maps(page(samples.crowded()))[0].find(SVG + 'desc').text)

    def test_the_page_says_once_what_it_is(self):
        seen = words(page(sloped(-0.003, 0.004)))
        self.assertEqual(seen.count('The water table falls 5.0 m a kilometre to the south-east'), 1)
        self.assertEqual(seen.count('not a measured flow'), 1)
        self.assertEqual(seen.count('fall of the trend'), 1)
        self.assertIn('linear, falls 5.0 m/km to the south-east', seen)

    def test_it_belongs_to_the_levels(self):
        """The picture of the deviations has none."""
        text = page(sloped(-0.003, 0.004))
        self.assertEqual(len(re.findall(r'<g class="of-level">(?:(?!</g>).)*class="trend"', text)), len(SIZES))
        self.assertIn('fall of the trend', re.search(r'<div class="legend of-level">.*?</div>', text).group())
        self.assertNotIn('fall of the trend', re.search(r'<div class="legend of-deviation">.*?</div>', text).group())


class Without(unittest.TestCase):
    def none(self, m, said):
        text = page(m)
        self.assertEqual(arrows(text), [])
        for word in ('fall of the trend', 'An arrow points', 'm/km'):
            self.assertNotIn(word, text)
        self.assertIn(said, words(text))

    def test_no_node_passed(self):
        self.none(samples.none_passed(), 'The trend is not shown: no node passed')

    def test_level(self):
        self.none(sloped(0.0, 0.0), 'The water table is level')

    def test_constant(self):
        m = samples.grid_map(6, 5)
        m.trend, m.columns, m.runs[0].estimate = 'constant', ['1'], (46.5,)
        self.none(m, 'The trend is a level of 46.50 m, without a slope')

    def test_not_finite(self):
        for wrong in (math.nan, math.inf, -math.inf):
            self.none(sloped(wrong, 0.001), 'The trend is not shown: it came out as no number.')

    def test_no_room(self):
        """Wells so close everywhere on a small map that an arrow would cover some: there is none, and all else is drawn."""
        m = sloped(-0.003, 0.004, columns=4, rows=4)
        m.wells = [Well('W', samples.EAST + 2000 * c / 16, samples.NORTH + 1500 * r / 12, 46.0) for r in range(13) for c in range(17)]
        made, narrow = scene(m), next(size for size in SIZES if size.name == 'narrow')
        self.assertEqual(trend_arrow(m, made, Sheet(made.ground, narrow)), ('', []))
        self.assertNotIn('class="trend"', drawing(m, made, narrow, '', '')[0])


class Doubted(unittest.TestCase):
    def test_hollow_where_some_node_failed(self):
        text = page(samples.two_runs())
        self.assertEqual([kind for kind, _, _ in arrows(text)], ['trend doubted'] * len(SIZES))
        self.assertIn('trend, to be doubted', text)
        self.assertIn('Take it with care: 43 of 1,200 nodes did not pass', words(text))

    def test_hollow_where_it_cannot_be_a_water_table(self):
        text = page(samples.grave())
        self.assertEqual([kind for kind, _, _ in arrows(text)], ['trend doubted'] * len(SIZES))
        self.assertIn('trend, to be doubted', text)
        self.assertNotIn('fall of the trend', text)

    def test_filled_where_a_doubt_is_not_grave(self):
        self.assertEqual([kind for kind, _, _ in arrows(page(samples.doubted()))], ['trend'] * len(SIZES))


if __name__ == '__main__':
    unittest.main()
