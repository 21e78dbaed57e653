"""Slopes that no water table has, and nodes beyond the wells, against figures by hand."""
import unittest
from array import array

from mapper.doubts.levels import node_doubts, plane_slope, slope_doubts, steepest
from mapper.lists.wells import read_wells
from mapper.records import Well
from mapper.tests import samples
from mapper.tests.support import FOUR, NUMBERS, SAMPLES, Folder

SQUARE = ((0, 0), (100, 0), (100, 100), (0, 100))


def wells_of(level, places=SQUARE):
    return [Well(f'W{i + 1}', x, y, level(x, y), line=i + 2) for i, (x, y) in enumerate(places)]


class Slopes(Folder):
    def test_of_a_plane(self):
        """3 in the hundred to the east and 4 to the north are 5; the corner of a square that does not fit turns it."""
        self.assertAlmostEqual(plane_slope(wells_of(lambda x, y: 7 + 0.03 * x - 0.04 * y)), 0.05)
        self.assertAlmostEqual(plane_slope(wells_of(lambda x, y: 5403200 + 0.03 * x)), 0.03)
        self.assertAlmostEqual(plane_slope(wells_of(lambda x, y: 8.0 if x and y else 0.0)), 0.04 * 2 ** 0.5)

    def test_of_a_plane_under_a_slanting_row(self):
        """x and y grow together, so that each takes part of the other's slope."""
        places = (1000, 2000), (1100, 2080), (1200, 2230), (1300, 2290)
        self.assertAlmostEqual(plane_slope(wells_of(lambda x, y: 7 + 0.03 * x - 0.04 * y, places)), 0.05)
        self.assertAlmostEqual(plane_slope(wells_of(lambda x, y: 0.006 * x + 0.008 * y, places[:3])), 0.01)

    def test_of_none(self):
        self.assertIsNone(plane_slope(wells_of(lambda x, y: x, ((0, 0), (50, 0), (100, 0)))))
        self.assertIsNone(plane_slope(wells_of(lambda x, y: x, ((0, 0), (50, 9)))))
        self.assertIsNone(plane_slope(wells_of(lambda x, y: x, ((7, 8), (7, 8), (7, 8)))))
        self.assertIsNone(plane_slope(wells_of(lambda x, y: x, ((0, 0), (1000, 0), (1000, 9), (0, 9)))))

    def test_limit(self):
        self.assertEqual(slope_doubts(wells_of(lambda x, y: 0.0499 * x)), [])
        self.assertIn('A plane through the wells falls 5.1 %, which is 51 m a kilometre; a water table hardly falls more than 5 %.',
                      slope_doubts(wells_of(lambda x, y: 0.051 * x))[0].sentence)

    def test_same_levels_have_none(self):
        self.assertEqual(slope_doubts(wells_of(lambda x, y: 12.0)), [])

    def test_of_a_pair(self):
        """A and B are 5 m apart and differ by 0.6 m, 12 in the hundred; the others by less than half a metre, or far from each other."""
        places = [(200, 300), (203, 304), (700, 300), (700, 304), (200, 1200)]
        wells = [Well(name, x, y, level, line=i + 2) for i, (name, (x, y), level) in enumerate(zip('ABCDE', places, (10, 10.6, 12, 12.4, 20)))]
        slope, one, other, distance = steepest(wells)
        self.assertEqual((round(slope, 12), {one.name, other.name}, distance), (0.12, {'A', 'B'}, 5))
        self.assertIn('Between A (line 2) and B (line 3) the level differs by 0.6 m over 5 m, a slope of 12 %', slope_doubts(wells)[-1].sentence)
        self.assertIsNone(steepest([wells[2], wells[3]]))

    def test_a_pair_at_one_spot_has_no_slope(self):
        self.assertIsNone(steepest([Well('A', 1, 1, 3), Well('B', 1, 1, 9)]))

    def test_told(self):
        told = self.made(self.file('name,x,y,level\nA,0,0,10\nB,100,0,30\nC,0,100,50\nD,90,80,60\n'), *NUMBERS, '--grid', '3x3')
        self.assertRegex(told, 'Doubtful: A plane through the wells falls [0-9.]+ %, which is [0-9.]+ m a kilometre')
        self.assertRegex(told, r'Doubtful: Between [A-D] \(line [2-5]\) and [A-D] \(line [2-5]\) the level differs by ')

    def test_samples(self):
        for name in ('plain', 'valley'):
            self.assertEqual(slope_doubts(read_wells(SAMPLES / f'{name}.csv').wells), [])


class Nodes(unittest.TestCase):
    """Wells from 44 to 48 m: below 40 or above 52 is beyond them by more than their range."""

    def said(self, *levels, verdicts=None):
        m = samples.grid_map(len(levels), 1)
        m.wells = [Well('A', 0, 0, 44.0), Well('B', 9, 5, 48.0)]
        m.nodes.level, m.nodes.verdict = array('d', levels), bytearray(verdicts or bytes(len(levels)))
        m.nodes.x, m.nodes.y = array('d', range(len(levels))), array('d', [7.0] * len(levels))
        return [doubt.sentence for doubt in node_doubts(m)]

    def test_beyond(self):
        self.assertEqual(self.said(45, 52, 40), [])
        (said,) = self.said(45, 53, 57.25, 39)
        self.assertIn('At (2, 7) the map has 57.25 m, 9.25 m above the highest well (48 m): no well bears that out.', said)
        (said,) = self.said(45, -53)
        self.assertIn('At (1, 7) the map has −53 m, 97 m below the lowest well (44 m)', said)

    def test_failed_nodes_have_no_level(self):
        self.assertEqual(self.said(45, 500, float('nan'), verdicts=[0, 1, 255]), [])

    def test_same_levels_and_rounding(self):
        m = samples.grid_map(2, 1)
        m.wells = [Well('A', 0, 0, 44.0), Well('B', 9, 5, 44.0)]
        m.nodes.level = array('d', [44.0 + 0.009, 44.0 - 1e-9])
        self.assertEqual(node_doubts(m), [])
        m.nodes.level = array('d', [44.0, 43.985])
        self.assertEqual(len(node_doubts(m)), 1)


class Beyond(Folder):
    def test_a_quadratic_trend_far_from_the_wells(self):
        places = (0, 0), (100, 5), (50, 90), (20, 60), (80, 40), (45, 20), (70, 95)
        lines = [f'W{i},{x},{y},{20 + 0.0002 * (x - 50) ** 2 + 0.0001 * i}' for i, (x, y) in enumerate(places)]
        nodes = self.file('x,y\n50,50\n5000,50\n', 'nodes.csv')
        told = self.made(self.file('name,x,y,level\n' + '\n'.join(lines) + '\n'), *NUMBERS, '--trend', 'quadratic', '--nodes', nodes)
        self.assertRegex(told, r'Doubtful: At \(5000, 50\) the map has [0-9,.]+ m, [0-9.]+ k?m above the highest well \(20.5 m\): no well bears that out.')
        self.assertIn('; 2 doubts about the list, above and on the page: ', told)

    def test_no_doubt_on_a_good_list(self):
        self.assertNotIn('Doubtful', self.made(self.file(FOUR), *NUMBERS, '--grid', '3x3'))
