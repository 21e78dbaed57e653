"""What is doubtful about where the wells stand: each list with its sentence and its status."""
import random
import unittest

from mapper.doubts.places import far_wells, is_far, place_doubts, sides
from mapper.doubts.well_words import length
from mapper.lists.wells import read_wells
from mapper.naming import called, several
from mapper.records import Well
from mapper.tests.support import FOUR, NUMBERS, SAMPLES, Folder


def wells_of(*places, level=lambda x, y: 10 + 0.002 * x - 0.001 * y):
    return [Well(f'W{i + 1}', x, y, level(x, y), line=i + 2) for i, (x, y) in enumerate(places)]


def said(wells):
    return [doubt.sentence for doubt in place_doubts(wells)]


def field(count=20, seed=3, wide=1000.0, x0=4512300.0, y0=5403200.0):
    draw = random.Random(seed)
    return [(round(x0 + draw.uniform(0, wide), 1), round(y0 + draw.uniform(0, wide), 1)) for _ in range(count)]


class Words(unittest.TestCase):
    def test_wells(self):
        self.assertEqual(called(Well('BH-99', 1, 2, 3, line=32)), 'BH-99 (line 32)')
        self.assertEqual(called(Well('BH-99', 1, 2, 3)), 'BH-99')

    def test_several(self):
        self.assertEqual([several('ABCDEFG'[:n]) for n in (1, 2, 4, 7)], ['A', 'A and B', 'A, B, C and D', 'A, B, C, D and 3 more'])

    def test_lengths(self):
        self.assertEqual([length(x) for x in (0.0512, 850, 999.7, 1234, 4012345)], ['0.0512 m', '850 m', '1 km', '1.23 km', '4,010 km'])


class FarAway(Folder):
    def test_typed_4000_km_away(self):
        """The first figure of x is 8 in place of 4."""
        lines = [f'W{i},{x},{y},{10 + 0.001 * (x - 4512300)}' for i, (x, y) in enumerate(field())] + ['BH-99,8512300,5403200,10.5']
        told = self.made(self.file('name,x,y,level\n' + '\n'.join(lines) + '\n'), *NUMBERS, '--grid', '3x3')
        self.assertRegex(told, r'Doubtful: BH-99 \(line 22\) stands 4,000 km from the nearest other well, and the others within 1\.[123]\d? km. '
                               r'Look for a wrong figure in its x or y; correct it, or take the well out.\n')
        self.assertRegex(told.splitlines()[-1], 'The arithmetic held at 9 of 9 nodes; [1-9] doubts? about the list, above and on the page: ')

    def test_exchanged(self):
        wells = wells_of(*field(), (5403700.0, 4512800.0))
        self.assertIn('W21 (line 22) stands 1,260 km from the nearest other well', said(wells)[0])
        self.assertIn('Its x and y look exchanged: the other way round it stands among the others. Exchange them in the list.', said(wells)[0])

    def test_several_far_ones(self):
        """Two of twenty, which a mean would follow."""
        wells = wells_of(*field(18), (4612300.0, 5403200.0), (4512300.0, 5303200.0))
        self.assertEqual([well.name for well in far_wells(wells)], ['W19', 'W20'])

    def test_two_that_are_exchanged(self):
        """They stand near each other, far from all others."""
        wells = wells_of(*field(18), (5403700.0, 4512800.0), (5403900.0, 4512500.0))
        self.assertEqual([well.name for well in far_wells(wells)], ['W19', 'W20'])

    def test_two_sites_are_none(self):
        """Five of twenty wells on another site, 20 km away: they have each other."""
        self.assertEqual(far_wells(wells_of(*field(15), *field(5, 8, 300.0, 4532300.0, 5403300.0))), [])

    def test_one_figure_wrong(self):
        """10 km to the east or to the north of a field of 3 km; with both it may have its place."""
        places = field(20, 4, 3000.0)
        for east, north, count in ((10000, 0, 1), (0, 10000, 1), (-10000, 0, 1), (7000, 7000, 0), (40000, 40000, 1)):
            moved = (places[6][0] + east, places[6][1] + north)
            self.assertEqual(len(far_wells(wells_of(*places[:6], moved, *places[7:]))), count, (east, north))

    def test_good_lists_have_none(self):
        for seed in range(60):
            for count in (3, 5, 12, 48):
                self.assertEqual(far_wells(wells_of(*field(count, seed))), [], (seed, count))

    def test_a_well_upstream_is_none(self):
        """Seven wells on a site of 100 m, or fifteen, and one 400 m away for comparison."""
        self.assertEqual(far_wells(wells_of(*field(7, 2, 100.0), (4512700.0, 5403250.0))), [])
        self.assertEqual(far_wells(wells_of(*field(15, 2, 100.0), (4512600.0, 5403480.0))), [])

    def test_limits(self):
        """The others stand in a frame of 3 by 4, which reaches 5; the well is a little more or less than 15 or 6 from the nearest."""
        frame = [(0, 0), (3, 0), (3, 4), (0, 4), (1, 1), (2, 2), (1, 3), (2, 1), (1, 2)]
        for place, times, count, wanted in (
            ((12.1, 16.1), 10.1, 4, True), ((12.1, 16.1), 9.9, 4, False), ((11.9, 15.9), 10.1, 4, False),
            ((12.1, 16.1), 100.1, 3, True), ((12.1, 16.1), 99.9, 3, False),
            ((9.1, 0), 5.1, 9, True), ((9.1, 0), 4.9, 9, False), ((8.9, 0), 5.1, 9, False), ((9.1, 0), 5.1, 8, False), ((9.1, 8), 5.1, 9, False),
            ((0, -6.1), 5.1, 9, True),
        ):
            near, (well,) = wells_of(*frame[:count]), wells_of(place)
            self.assertEqual(is_far(well, times, near, near + [well]), wanted, (place, times, count))

    def test_one_in_ten(self):
        """Of 19 wells one may be far, of 20 two."""
        for count, far in ((17, 1), (18, 2)):
            wells = wells_of(*field(count), (4612300.0, 5403200.0), (4512300.0, 5303200.0))
            self.assertLessEqual(len(far_wells(wells)), far)

    def test_exchanged_onto_the_only_other_spot(self):
        self.assertEqual(far_wells(wells_of((1, 9), (1, 9), (9, 1), (1, 9))), [])
        self.assertEqual(far_wells(wells_of((100, 200), (200, 100))), [])
        self.assertEqual(far_wells(wells_of((100, 200))), [])

    def test_samples(self):
        for name in ('plain', 'valley'):
            self.assertEqual(place_doubts(read_wells(SAMPLES / f'{name}.csv').wells), [])


class OneLine(Folder):
    LINE = 'All wells stand on one line, or nearly: levels beside that line are not known.'

    def test_told(self):
        told = self.made(self.file('name,x,y,level\nA,0,0,10\nB,100,50,11\nC,200,100,11.5\nD,300,150,12\n'), *NUMBERS, '--grid', '3x3')
        self.assertIn('Doubtful: ' + self.LINE, told)
        self.assertIn('; 1 doubt about the list, above and on the page: ', told)

    def test_sides(self):
        """Corners of a rectangle 6 by 2 around its middle: 3 and 1 from it."""
        long, narrow = sides(wells_of((0, 0), (6, 0), (6, 2), (0, 2)))
        self.assertAlmostEqual(long, 3)
        self.assertAlmostEqual(narrow, 1)

    def test_nearly(self):
        """Corners of a rectangle that is a little less or a little more than a hundredth as narrow as it is long."""
        for narrow, count in ((9.5, 1), (10.5, 0)):
            self.assertEqual(len(said(wells_of((0, 0), (1000, 0), (1000, narrow), (0, narrow)))), count)

    def test_a_far_well_makes_no_line(self):
        told = said(wells_of(*field(), (8512300.0, 5403200.0)))
        self.assertEqual(len(told), 1)
        self.assertNotIn(self.LINE, told[0])

    def test_one_spot(self):
        self.assertIn('All wells stand at one spot: levels away', said(wells_of((5, 5), (5, 5)))[0])
        self.assertIn('W1 (line 2) is the only well: levels away', said(wells_of((5, 5)))[0])


class Names(Folder):
    def test_one_name_at_two_places(self):
        told = self.made(self.file(FOUR + 'B,40,50,11.5\n'), *NUMBERS, '--grid', '3x3')
        self.assertIn('Doubtful: B is the name of 2 wells at different places, in lines 3 and 6. Correct the place that is wrong, or give', told)

    def test_a_repeated_line_is_another_matter(self):
        self.assertEqual(said(wells_of((0, 0), (9, 0), (9, 7)) + wells_of((0, 0))), [])
