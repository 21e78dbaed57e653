"""The trend in words, from coefficients worked out by hand."""
import math
import unittest

from mapper.records import Doubt, Run, Well
from mapper.runs.survey_file import columns
from mapper.runs.trend_words import Slope, drawn_slope, in_short, is_doubted, metres, slope_of, trend_sentence
from mapper.tests import samples

FLOW = ": the trend's estimate, which no audit covers, and not a measured flow."
NO_AUDIT = ': an estimate, which no audit covers.'
CARE = ' Take it with care: 3 of 10 nodes did not pass, and it comes from the same equations.'
# Metres a metre to the east and to the north, and what a reader sees: a level that rises to the north falls to the south.
EIGHT = ((0, -0.0012, '1.2', 'north'), (-0.003, -0.004, '5.0', 'north-east'), (-0.0025, 0, '2.5', 'east'), (-0.004, 0.003, '5.0', 'south-east'),
         (0, 0.0012, '1.2', 'south'), (0.006, 0.008, '10', 'south-west'), (0.0007, 0, '0.70', 'west'), (0.0003, -0.0004, '0.50', 'north-west'))


def with_trend(trend, estimate, external=None, origin=(0.0, 0.0), verdicts=None, wells=None):
    m = samples.grid_map(5, 4, wells=6)
    m.trend, m.external, m.columns, m.wells = trend, external, columns(trend, external), wells or m.wells
    m.runs = [Run(origin, verdicts or {0: 10}, estimate=tuple(estimate))]
    return m


def square_of_wells(*middle):
    """Four wells around a middle, and one in it."""
    x, y = middle
    return [Well(str(k), x + dx, y + dy, 0.0) for k, (dx, dy) in enumerate(((0, 0), (-50, -30), (50, -30), (-50, 30), (50, 30)))]


class Lengths(unittest.TestCase):
    def test_two_figures_and_no_finer_than_a_centimetre(self):
        for length, words in ((0, '0.00'), (0.0049, '0.00'), (0.0051, '0.01'), (0.0149, '0.01'), (0.0567, '0.06'), (0.0996, '0.10'), (0.4567, '0.46'),
                              (0.994, '0.99'), (0.996, '1.0'), (1.2345, '1.2'), (9.94, '9.9'), (9.96, '10'), (12.3, '12'), (123.4, '123'),
                              (12345.6, '12\u202f346'), (1e15, '1e15'), (5e-324, '0.00')):
            self.assertEqual(metres(length), words)


class Directions(unittest.TestCase):
    def test_all_eight(self):
        for east, north, fall, way in EIGHT:
            said = trend_sentence(with_trend('linear', (40, east, north)))
            self.assertEqual(said, f'The water table falls {fall} m a kilometre to the {way}{FLOW}')

    def test_between_two_the_nearer(self):
        """From north by the clock: 22 degrees are north still, 23 north-east; and so around the circle."""
        for degrees, way in ((22, 'north'), (23, 'north-east'), (67, 'north-east'), (68, 'east'), (112, 'east'), (113, 'south-east'), (202, 'south'),
                             (203, 'south-west'), (247, 'south-west'), (248, 'west'), (337, 'north-west'), (338, 'north'), (359, 'north')):
            east, north = -math.sin(math.radians(degrees)) / 1000, -math.cos(math.radians(degrees)) / 1000
            self.assertEqual(Slope(east, north).way, way, degrees)

    def test_an_arrow_points_where_the_words_say(self):
        """On a map right is east and down is south."""
        across = {'north': 0, 'north-east': 1, 'east': 1, 'south-east': 1, 'south': 0, 'south-west': -1, 'west': -1, 'north-west': -1}
        down = {'north': -1, 'north-east': -1, 'east': 0, 'south-east': 1, 'south': 1, 'south-west': 1, 'west': 0, 'north-west': -1}
        for east, north, _, way in EIGHT:
            turn = math.radians(Slope(east, north).turn)
            self.assertEqual((round(math.cos(turn)), round(math.sin(turn))), (across[way], down[way]), way)


class Words(unittest.TestCase):
    def test_level(self):
        """4.9 mm a kilometre are nothing at two figures after the point, 5.1 mm are a centimetre."""
        for slope in ((0.0, 0.0), (-0.0, 0.0), (4.9e-6, 0), (0, -4.9e-6)):
            m = with_trend('linear', (40, *slope))
            self.assertEqual(trend_sentence(m), 'The water table is level to a centimetre a kilometre' + NO_AUDIT)
            self.assertIsNone(drawn_slope(m))
        self.assertIn('falls 0.01 m a kilometre to the west', trend_sentence(with_trend('linear', (40, 5.1e-6, 0))))

    def test_constant(self):
        m = with_trend('constant', (412.3,))
        self.assertEqual(trend_sentence(m), 'The trend is a level of 412.30 m, without a slope' + NO_AUDIT)
        self.assertIsNone(drawn_slope(m))
        self.assertIn('a level of \u22123.25 m', trend_sentence(with_trend('constant', (-3.25,))))

    def test_linear_does_not_depend_on_the_origin(self):
        for origin in ((0.0, 0.0), (4512300.0, 5403200.0)):
            self.assertIn('falls 5.0 m a kilometre to the north-west', trend_sentence(with_trend('linear', (7, 0.003, -0.004), origin=origin)))

    def test_quadratic_in_the_middle_of_the_wells(self):
        """50 + 0.001 x - 0.002 y + 0.000001 x² - 0.000003 xy + 0.000005 y² at (500, 200), as counted from the origin: to the east
        0.001 + 0.000002·500 - 0.000003·200 = 0.0014, to the north -0.002 - 0.000003·500 + 0.00001·200 = -0.0015. So 2.05 m a kilometre, north-west."""
        m = with_trend('quadratic', (50, 1e-3, -2e-3, 1e-6, -3e-6, 5e-6), origin=(4512300.0, 5403200.0), wells=square_of_wells(4512800.0, 5403400.0))
        slope = slope_of(m)
        self.assertAlmostEqual(slope.east, 0.0014, places=15)
        self.assertAlmostEqual(slope.north, -0.0015, places=15)
        self.assertEqual(trend_sentence(m), 'The water table falls 2.1 m a kilometre to the north-west in the middle of the wells' + FLOW)

    def test_quadratic_from_another_origin(self):
        """The same surface counted from (-100, 40): x is x' - 100 and y is y' + 40, so that the slopes change and those in the middle do not."""
        xx, xy, yy = 1e-6, -3e-6, 5e-6
        east, north = 1e-3 + 2 * xx * -100 + xy * 40, -2e-3 + xy * -100 + 2 * yy * 40
        wells = square_of_wells(500.0, 200.0)
        first, second = (slope_of(with_trend('quadratic', (0, *slopes, xx, xy, yy), origin=origin, wells=wells))
                         for slopes, origin in (((1e-3, -2e-3), (0.0, 0.0)), ((east, north), (-100.0, 40.0))))
        self.assertNotEqual((east, north), (1e-3, -2e-3))
        self.assertAlmostEqual(first.east, second.east, places=15)
        self.assertAlmostEqual(first.north, second.north, places=15)

    def test_middle_is_the_average_of_the_wells(self):
        """Wells at x = 0, 0 and 300, y = 0, 90 and 0: the middle is (100, 30). Of 0.00001·x² the slope is 0.002 there, of 0.00002·y² 0.0012."""
        wells = [Well('A', 0, 0, 1), Well('B', 0, 90, 1), Well('C', 300, 0, 1)]
        slope = slope_of(with_trend('quadratic', (0, 0, 0, 1e-5, 0, 2e-5), wells=wells))
        self.assertAlmostEqual(slope.east, 0.002, places=15)
        self.assertAlmostEqual(slope.north, 0.0012, places=15)

    def test_external(self):
        said = trend_sentence(with_trend('constant', (118.5, 0.418), 'ground'))
        self.assertEqual(said, 'The level rises 0.42 m for each metre of ground, and the trend has no other slope' + NO_AUDIT)
        self.assertIn('The level falls 1.3 m for each metre of clay', trend_sentence(with_trend('constant', (118.5, -1.27), 'clay')))
        self.assertIn('The level does not change with clay, and', trend_sentence(with_trend('constant', (118.5, -0.0049), 'clay')))

    def test_external_beside_a_slope(self):
        said = trend_sentence(with_trend('linear', (118.5, -0.0013, 0.0, 0.4), 'ground'))
        self.assertEqual(said, 'The level rises 0.40 m for each metre of ground; apart from that the water table falls 1.3 m a kilometre to the east' + FLOW)
        level = trend_sentence(with_trend('linear', (118.5, 0.0, 0.0, 0.4), 'ground'))
        self.assertIn('ground; apart from that the water table is level to a centimetre a kilometre' + NO_AUDIT, level)
        wells = square_of_wells(0.0, 0.0)
        quadratic = trend_sentence(with_trend('quadratic', (0, 0, 0.002, 0, 0, 0, 0.4), 'ground', wells=wells))
        self.assertIn('apart from that the water table falls 2.0 m a kilometre to the south in the middle of the wells' + FLOW, quadratic)

    def test_never_below_zero(self):
        for east in (-0.001, 0.001):
            for north in (-0.002, 0.002):
                for factor in (-0.5, 0.5):
                    self.assertNotRegex(trend_sentence(with_trend('linear', (-9, east, north, factor), 'ground')), '[-\u2212][0-9]')

    def test_in_short(self):
        for trend, estimate, words in (('constant', (412.3,), 'constant, 412.30 m'), ('linear', (4, 0, 0), 'linear, level'),
                                       ('linear', (4, 0.003, 0.004), 'linear, falls 5.0 m/km to the south-west')):
            self.assertEqual(in_short(with_trend(trend, estimate)), words)
        self.assertEqual(in_short(with_trend('constant', (4, 0.4), 'ground')), 'constant')
        self.assertEqual(in_short(with_trend('linear', (4, -0.0013, 0, 0.4), 'ground')), 'linear, falls 1.3 m/km to the east apart from ground')
        self.assertEqual(in_short(with_trend('linear', (4, 0.003, 0.004), verdicts={1: 10})), 'linear')


class NotShownOrDoubted(unittest.TestCase):
    def test_no_node_passed(self):
        for trend, estimate in (('constant', (40,)), ('linear', (40, 0.003, 0.004))):
            m = with_trend(trend, estimate, verdicts={1: 4, 2: 6})
            self.assertEqual(trend_sentence(m), 'The trend is not shown: no node passed, and it comes from the same equations. Mend the nodes first; '
                             'a simpler --trend may help, or one well in place of several close together.')
            self.assertIsNone(drawn_slope(m))

    def test_not_finite(self):
        for trend, estimate in (('constant', (math.nan,)), ('linear', (math.nan, 0.003, 0.004)), ('linear', (40, math.inf, 0.0)),
                                ('linear', (40, 0.0, -math.inf)), ('linear', (40, 0.0, 1.7e308)), ('quadratic', (40, 0, 0, 1e308, 0, 1e308))):
            m = with_trend(trend, estimate)
            self.assertEqual(trend_sentence(m), 'The trend is not shown: it came out as no number. Look for a level, coordinate or external number that is '
                             'far too large, and for a range of 0.')
            self.assertIsNone(drawn_slope(m))

    def test_some_passed(self):
        said = trend_sentence(with_trend('linear', (40, 0.003, 0.004), verdicts={0: 7, 2: 1, 255: 2}))
        self.assertEqual(said, 'The water table falls 5.0 m a kilometre to the south-west' + FLOW + CARE)
        self.assertTrue(trend_sentence(with_trend('constant', (40,), verdicts={0: 7, 2: 3})).endswith(NO_AUDIT + CARE))

    def test_a_grave_doubt(self):
        """A list that cannot be one of a water table, drawn all the same; an ordinary doubt is no reason."""
        m = with_trend('linear', (40, 0.003, 0.004))
        plain = trend_sentence(m)
        m.doubts = [Doubt('The wells lie on a line.')]
        self.assertEqual((trend_sentence(m), is_doubted(m)), (plain, False))
        m.doubts.append(Doubt('The level of W-01 stands for a missing one.', True))
        self.assertEqual(trend_sentence(m), plain + ' Do not rely on it: it comes from a list that cannot be one of a water table.')
        self.assertTrue(is_doubted(m))

    def test_nothing_is_said_of_a_run_without_a_trend(self):
        self.assertEqual(trend_sentence(with_trend('linear', ())), '')

    def test_the_drawn_run_counts(self):
        self.assertIn('falls 2.2 m a kilometre to the north-west', trend_sentence(samples.two_runs()))


if __name__ == '__main__':
    unittest.main()
