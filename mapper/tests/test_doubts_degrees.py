"""Degrees against the metres of a yard: lists of both, and the rule's limits."""
import random

from mapper.doubts.degrees import are_degrees, figures, middle_half
from mapper.lists.wells import read_wells
from mapper.tests.support import NUMBERS, SAMPLES, Folder
from mapper.tests.test_doubts_places import wells_of

DEGREES = 'name,x,y,level\nA,13.3542,52.5031,31.2\nB,13.3781,52.5133,31.9\nC,13.4127,52.4871,33.4\nD,13.3902,52.5313,32.2\nE,13.3655,52.4952,31.4\n'


class Degrees(Folder):
    def test_refused_and_drawn_anyway(self):
        wells = self.file(DEGREES)
        told = self.refused(wells, *NUMBERS, '--grid', '3x3')
        self.assertIn('x (13.3542 to 13.4127) and y (52.4871 to 52.5313) look like degrees: as metres all wells would stand within 0.0585 m.', told)
        self.assertIn('Have the places converted to metres on a flat grid, UTM for example; if they are kilometres, write [km] in the header.', told)
        self.assertIn('--anyway draws it all the same, with the doubt on the page.', told)
        drawn = self.made(wells, *NUMBERS, '--grid', '3x3', '--anyway')
        self.assertIn('Doubtful: x (13.3542 to 13.4127) and y ', drawn)

    def test_latitude_first_and_west_of_greenwich(self):
        """Quito and São Paulo have a latitude near 0 or below it; and who writes y before x has the larger number in x."""
        for x, y in ((52.5, 13.4), (-78.5, -0.2), (-46.6, -23.5), (-0.12, 51.5), (151.2, -33.9)):
            draw = random.Random(5)
            places = [(round(x + draw.uniform(-0.1, 0.1), 3), round(y + draw.uniform(-0.1, 0.1), 3)) for _ in range(12)]
            self.assertTrue(are_degrees(wells_of(*places, level=lambda x, y: 40 + 20 * x - 9 * y)), (x, y))

    def test_a_land_in_degrees_to_a_kilometre(self):
        places = [(round(6 + 0.8 * i % 8, 2) + 0.01, 47.13 + round(0.9 * i % 7, 2)) for i in range(20)]
        self.assertTrue(are_degrees(wells_of(*places, level=lambda x, y: 900 - 16 * y + x)))

    def test_levels_that_are_the_same_leave_the_figures(self):
        self.assertTrue(are_degrees(wells_of((13.3542, 52.5031), (13.3781, 52.5133), (13.4127, 52.4871), level=lambda x, y: 31.0)))

    def test_one_wrong_level_decides_nothing(self):
        """A yard of metres and decimetres is one whatever a single level says; so are degrees."""
        yard = wells_of((2.25, 3.5), (17.75, 4.25), (11.5, 16.75), (3.25, 18.5), (9.75, 9.25), (14.5, 11.75))
        yard[2].level = -9999.0
        self.assertFalse(are_degrees(yard))

    def test_yards_are_none(self):
        yard = lambda x, y: 10 + 0.01 * x
        for places in (((0, 0), (100, 0), (0, 80), (90, 70)), ((0.25, 0.5), (12.75, 3.25), (8.5, 14.75), (2.25, 11.5)),
                       ((0.5, 0.25), (3.5, 0.75), (1.25, 2.5), (2.75, 3.25)), ((100.125, 50.375), (104.5, 52.25), (102.375, 57.875))):
            self.assertFalse(are_degrees(wells_of(*places, level=yard)), places)

    def test_made_up_whole_numbers_are_none(self):
        self.assertFalse(are_degrees(wells_of((0, 0), (2, 0), (1, 3), level=lambda x, y: 2 + 2 * x)))

    def test_flat_grids_are_none(self):
        for name in ('plain', 'valley'):
            self.assertFalse(are_degrees(read_wells(SAMPLES / f'{name}.csv').wells))

    def test_middle_half(self):
        self.assertEqual(middle_half([1, 2, 3, 4, 5, 6, 7, 1000]), 3)  # from 3 to 6
        self.assertEqual(middle_half([5, 1, 900]), 899)

    def test_figures(self):
        self.assertEqual([figures(x) for x in (5.0, 13.25, 0.125, 1e-5)], [0, 2, 3, 4])


def row(step=0.05, count=9, x=13.11, y=52.11, steep=20.0):
    """Places a step apart to the east, of two figures after the point, and levels that rise so many times as much."""
    return wells_of(*((round(x + step * i, 2), y) for i in range(count)), level=lambda east, north: steep * east)


class Limits(Folder):
    def test_not_beyond_180_and_90(self):
        """Half of the places being degrees is not enough; nor is a yard that reaches beyond them."""
        self.assertTrue(are_degrees(row(x=179.11)))
        self.assertFalse(are_degrees(row(x=180.11)))
        self.assertFalse(are_degrees(row(x=179.81)))
        self.assertTrue(are_degrees(row(x=120.11, y=89.11)))
        self.assertFalse(are_degrees(row(x=120.11, y=90.11)))
        self.assertTrue(are_degrees(row(x=89.11, y=120.11)))
        self.assertFalse(are_degrees(row(x=13.11, y=-180.11)))
        self.assertFalse(are_degrees(row() + wells_of((13.11, 200.11))))

    def test_how_far_they_reach(self):
        """Nine places: the middle half are four steps, 29.6 or 30.4."""
        self.assertTrue(are_degrees(row(step=7.4)))
        self.assertFalse(are_degrees(row(step=7.6)))

    def test_how_steep_they_are(self):
        self.assertTrue(are_degrees(row(steep=0.51)))
        self.assertFalse(are_degrees(row(steep=0.49)))

    def test_how_many_figures(self):
        """Of nine places five are more than half."""
        def rounded(count, places):
            wells = row()
            for well in wells[count:]:
                well.x, well.y = round(well.x, places), round(well.y, places)
            return wells
        self.assertTrue(are_degrees(rounded(5, 1)))
        self.assertFalse(are_degrees(rounded(4, 1)))

    def test_flat_levels(self):
        """With levels that are the same four figures count, and a reach of five metres; one coordinate with so many is enough."""
        def flat(step, figures):
            return wells_of(*((round(5.12345 + step * i, figures), 7.5) for i in range(9)), level=lambda x, y: 8.0)
        self.assertTrue(are_degrees(flat(1.2, 4)))
        self.assertFalse(are_degrees(flat(1.2, 3)))
        self.assertFalse(are_degrees(flat(1.3, 4)))

    def test_reach_of_the_longer_way(self):
        """Told for metres: 0.4 to the east and 0.6 to the north."""
        wells = wells_of((7.11, 46.01), (7.51, 46.13), (7.23, 46.61), (7.37, 46.33), level=lambda x, y: 40 * y)
        told = self.refused(self.file('x,y,level\n' + ''.join(f'{well.x},{well.y},{well.level:.2f}\n' for well in wells)), *NUMBERS)
        self.assertIn('x (7.11 to 7.51) and y (46.01 to 46.61) look like degrees: as metres all wells would stand within 0.6 m.', told)
