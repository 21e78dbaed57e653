"""Each well as the others tell it: against figures by hand, and where they tell nothing."""
from unittest import mock

from mapper.doubts.leave_one_out import Others, deviation_ratio, rmse
from mapper.errors import Stop
from mapper.lists.wells import read_wells
from mapper.making import Made
from mapper.options import options
from mapper.records import LeftOut, Variogram, Well
from mapper.runs.building import program
from mapper.runs.by_program import ByProgram
from mapper.runs.lost_digits import drawn_map
from mapper.runs.survey import Survey
from mapper.tests import samples
from mapper.tests.support import FOUR, NUMBERS, SAMPLES, Folder

ONE = Variogram('spherical', 0.0, 1.0, 1.0, 'given')  # a sill of 1 from 1 m on


def left(wells, trend='constant', external=None, variogram=ONE, regularization=0.0, origin=(0.0, 0.0)):
    return Others(ByProgram(program(print)), Survey(wells, trend, external, variogram, regularization, 1e-9), origin, 2).left_out(wells)


class ByTheProgram(Folder):
    def test_by_hand(self):
        """Wells farther apart than the range say their average, with a variance of 1.5 of the sill for two of them: the scope's case B."""
        found = left([Well('A', 0, 0, 2), Well('B', 2, 0, 6), Well('C', 0, 3, 10)])
        self.assertEqual([each.level for each in found], [8, 6, 4])
        for each in found:
            self.assertAlmostEqual(each.deviation, 1.5 ** 0.5)

    def test_too_few(self):
        places = [Well(str(i), 37 * i % 100, 61 * i % 97, i % 7) for i in range(8)]
        for trend, least in (('constant', 3), ('linear', 5), ('quadratic', 8)):
            self.assertEqual(left(places[:least - 1], trend), [], trend)
            self.assertEqual(len(left(places[:least], trend, regularization=1e-10)), least, trend)

    def test_the_well_itself_is_not_heard(self):
        """A plane, through which a linear trend goes whatever is left out: a wrong level does not change what the others say of it."""
        wells = [Well(str(i), x, y, 20 + 0.01 * x - 0.02 * y) for i, (x, y) in enumerate(((0, 0), (90, 10), (20, 80), (70, 95), (40, 50), (15, 35)))]
        true, wells[4].level = wells[4].level, 99.0
        self.assertAlmostEqual(left(wells, 'linear', variogram=Variogram('spherical', 0.0, 1.0, 200.0, 'given'))[4].level, true, 9)

    def test_external(self):
        """The level is half of the ground, wherever the well stands; one well's ground is far beyond the others."""
        wells = [Well(str(i), 37 * i % 100, 61 * i % 97, ground / 2, {'ground': ground}) for i, ground in enumerate((20.0, 24.0, 21.0, 30.0, 80.0))]
        for well, each in zip(wells, left(wells, external='ground')):
            self.assertAlmostEqual(each.level, well.level, 9)

    def test_origin(self):
        """As entered the valley loses its digits under a quadratic trend."""
        wells = read_wells(SAMPLES / 'valley.csv').wells
        model = Variogram('spherical', 0.001, 0.02, 250.0, 'given')
        entered, moved = (left(wells, 'quadratic', None, model, 1e-10, origin) for origin in ((0.0, 0.0), (4512300.0, 5403200.0)))
        self.assertEqual(entered, [LeftOut(None)] * 24)
        self.assertTrue(all(abs(each.level - well.level) < 1 for each, well in zip(moved, wells)))

    def test_two_at_one_spot(self):
        """With r = 0 the two are refused by 19 while both are there, which leaves nothing to say of the others."""
        found = left([Well('A', 0, 0, 2), Well('B', 0, 0, 3), Well('C', 3, 0, 5), Well('D', 0, 4, 7)])
        self.assertEqual([each.level and round(each.level, 9) for each in found], [3, 2, None, None])

    def test_listing_that_is_none(self):
        with mock.patch('mapper.runs.by_program.printed', lambda *_: b'nodes 1\n'), self.assertRaises(Stop) as stopped:
            left([Well('A', 0, 0, 2), Well('B', 2, 0, 6), Well('C', 0, 3, 10)])
        self.assertIn('printed no listing for the wells without A: it does not have 1 nodes. Remove it', str(stopped.exception))


class OnTheMap(Folder):
    def made_map(self, *words):
        return drawn_map(Made(options([str(word) for word in words]), lambda sentence: None))[0]

    def test_in_the_order_of_the_wells(self):
        m = self.made_map(self.file(FOUR), *NUMBERS, '--grid', '2x2')
        self.assertEqual(len(m.left_out), 4)
        self.assertEqual(m.left_out, left(m.wells, variogram=m.variogram, regularization=1e-10))

    def test_from_the_origin_that_is_drawn(self):
        m = self.made_map(SAMPLES / 'valley.csv', '--trend', 'quadratic', '--grid', '5x5')
        self.assertEqual(m.runs[m.drawn].origin, (4512300, 5403200))
        self.assertTrue(all(each.level is not None for each in m.left_out))

    def test_with_an_external_column(self):
        m = self.made_map(SAMPLES / 'valley.csv', '--trend', 'linear', '--external', 'ground', '--nodes', SAMPLES / 'valley_nodes.csv')
        self.assertEqual([each.level is not None for each in m.left_out], [True] * 24)
        self.assertLess(rmse(m), 0.1)


class Numbers(Folder):
    def test_by_hand(self):
        """Errors of -6, 0 and 6 m and deviations of 2, 3 and 4 m: the root of 72 / 3, and (9 + 0 + 2.25) / 3; a fourth well says nothing."""
        m = samples.grid_map(2, 2, wells=4)
        for well, level in zip(m.wells, (2.0, 6.0, 10.0, 11.0)):
            well.level = level
        m.left_out = [LeftOut(8.0, 2.0), LeftOut(6.0, 3.0), LeftOut(4.0, 4.0), LeftOut(None)]
        self.assertAlmostEqual(rmse(m), 24 ** 0.5)
        self.assertAlmostEqual(deviation_ratio(m), 3.75)

    def test_without_a_deviation(self):
        m = samples.grid_map(2, 2, wells=2)
        m.left_out = [LeftOut(m.wells[0].level - 1, 0.0), LeftOut(m.wells[1].level + 1, 0.5)]
        self.assertAlmostEqual(rmse(m), 1)
        self.assertAlmostEqual(deviation_ratio(m), 4)

    def test_nothing_left_out(self):
        m = samples.grid_map(2, 2, wells=2)
        self.assertEqual((rmse(m), deviation_ratio(m)), (None, None))
        m.left_out = [LeftOut(None), LeftOut(None)]
        self.assertEqual((rmse(m), deviation_ratio(m)), (None, None))
