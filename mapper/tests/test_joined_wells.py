"""--same-spot joins wells: which, to which, what is said of it, and what becomes of the figures."""
import random
import re
import unittest

from mapper.joined_wells import distance, join_note, joined_wells
from mapper.page.well_table import joined_marks
from mapper.records import Well
from mapper.runs.origin import AS_ENTERED, corner
from mapper.tests.support import Folder, nakwemol

# Two readings of one well, 5 mm apart, and three wells around them.
FIVE = 'name,x,y,level\nA,0,0,10\nA2,0.005,0,10.2\nB,100,20,11\nC,40,90,9\nD,200,150,12\n'
MODEL = ('--nugget', '0', '--sill', '1', '--range', '500')
PLACES, LEVELS = [(0, 0), (0.005, 0), (100, 20), (40, 90), (200, 150)], [10, 10.2, 11, 9, 12]


def at(*places):
    return [Well(str(i), x, y, 0.0, line=i + 2) for i, (x, y) in enumerate(places)]


def fitted(places, levels, same_spot, regularization):
    """The level at (30, 10), its verdict and the largest weight, by the proved call."""
    variogram = nakwemol.Variogram(nakwemol.VariogramModel.SPHERICAL, 0.0, 1.0, 500.0, same_spot)
    options = nakwemol.UniversalKrigingOptions(variogram=variogram, regularization=regularization)
    fit = nakwemol.universal_kriging_fit(places, levels, options, [(30, 10)], tolerance=1e-9)
    return fit.predicted[0], fit.verdicts[0], max(map(abs, fit.weights))


class FieldAlone(unittest.TestCase):
    """Why wells are joined: the distance without it gives wrong levels, and the audit lets them pass."""

    def test_without_joining(self):
        plain = fitted(PLACES, LEVELS, 2.0 ** -52, 1e-6)
        self.assertEqual((round(plain[0], 2), plain[1]), (10.22, 0))
        self.assertGreater(fitted(PLACES, LEVELS, 0.01, 0.0)[2], 5000)
        wrong = fitted(PLACES, LEVELS, 0.01, 1e-6)
        self.assertEqual((round(wrong[0], 2), wrong[1]), (9.15, 0))

    def test_joined(self):
        """Both readings at one place: what one well says that has their average, and no more than the readings differ from what was said without it."""
        level, verdict, weight = fitted(PLACES[:1] + PLACES[:1] + PLACES[2:], LEVELS, 0.01, 1e-6)
        average, _, _ = fitted(PLACES[:1] + PLACES[2:], [10.1] + LEVELS[2:], 2.0 ** -52, 0.0)
        self.assertEqual((verdict, weight < 1), (0, True))
        self.assertAlmostEqual(level, average, 4)
        self.assertLess(abs(level - 10.22), 0.1)


class Rule(unittest.TestCase):
    def joined(self, places, below, moved=AS_ENTERED):
        """The places after, and who was joined to whom."""
        wells, joins = joined_wells(at(*places), below, moved)
        return [(well.x, well.y) for well in wells], [(join.well.name, join.to.name) for join in joins]

    def test_below_and_not_at_the_distance(self):
        """3, 4, 5: at 5 m apart they are two spots for a distance of 5 m, and one for the number above it."""
        self.assertEqual(self.joined([(0, 0), (3, 4)], 5.0), ([(0, 0), (3, 4)], []))
        self.assertEqual(self.joined([(0, 0), (3, 4)], 5.000000000000001), ([(0, 0), (0, 0)], [('1', '0')]))

    def test_only_to_one_that_stays(self):
        """A row of wells 1 m apart is not drawn together: the third is 2 m from the first, to which the second went."""
        self.assertEqual(self.joined([(0, 0), (1, 0), (2, 0), (3, 0)], 1.5), ([(0, 0), (0, 0), (2, 0), (2, 0)], [('1', '0'), ('3', '2')]))

    def test_to_the_first_of_several(self):
        self.assertEqual(self.joined([(0, 0), (2, 0), (1.2, 0)], 1.5)[1], [('2', '0')])

    def test_the_very_same_place(self):
        (_, again), joins = joined_wells(at((7, 8), (7, 8)), 0.01)
        self.assertEqual((again.entered, joins[0].distance), ((7, 8), 0))

    def test_as_near_from_another_origin(self):
        """8.3 - 7.8 is 0.5000000000000009, and 18.3 - 17.8 is 0.5: what is run from the corner (-10, -10) has them nearer than as entered."""
        wells, below = at((7.8, 0), (8.3, 0), (-9.7, 8.3), (8.9, -9.1)), 0.5000000000000009
        self.assertEqual((distance(wells[0], wells[1]), distance(wells[0], wells[1], corner(wells))), (below, 0.5))
        self.assertEqual([len(joined_wells(wells, below, moved)[1]) for moved in (AS_ENTERED, corner(wells))], [0, 1])

    def test_afterwards_at_one_place_or_the_distance_apart(self):
        for seed in range(40):
            draw = random.Random(seed)
            wells = at(*((round(draw.uniform(-20, 20), 1), round(draw.uniform(-20, 20), 1)) for _ in range(30)))
            below, moved = draw.choice((0.1, 1.0, 2.5, 5.0)), corner(wells)
            found, joins = joined_wells(wells, below, moved)
            self.assertEqual(sum(well.entered is not None for well in found), len(joins))
            for origin in (AS_ENTERED, moved):
                apart = {distance(a, b, origin) for a in found for b in found if (a.x, a.y) != (b.x, b.y)}
                self.assertGreaterEqual(min(apart), below)

    def test_what_goes_with_the_place_goes_with_it(self):
        wells = [Well('A', 0, 0, 5, {'ground': 20.0, 'other': 1.0}), Well('B', 0.004, 0, 6, {'ground': 20.1, 'other': 2.0})]
        self.assertEqual(joined_wells(wells, 0.01, external='ground')[0][1].more, {'ground': 20.0, 'other': 2.0})


class Said(Folder):
    def test_by_name_line_and_distance(self):
        said = self.made(self.file(FIVE), *MODEL, '--same-spot', '0.01', '--at', '30,10').splitlines()
        self.assertEqual(said[0], '1 well is taken to be at the spot of another, nearer than 0.01 m, as asked by --same-spot: '
                                  'A2 (line 3) at that of A (line 2), 0.005 m away.')
        self.assertEqual(said[2:], ['Wells at one spot are told apart by --regularization 1e-6, which is taken since none was given.',
                                    'At (30, 10), among the wells: 10.15 m ± 0.36 m (standard deviation); the arithmetic held.',
                                    'The arithmetic held at 1 of 1 node; nothing doubtful was found in the list.'])

    def test_none(self):
        said = self.made(self.file(FIVE), *MODEL, '--same-spot', '0.005', '--at', '30,10')
        self.assertIn('No two wells are nearer to each other than 0.005 m, so that --same-spot 0.005 joins none.\n', said)
        self.assertNotIn('--regularization', said)
        self.assertIn(': 10.22 m ', said)

    def test_many(self):
        _, joins = joined_wells(at(*((i * 1e-4, 0) for i in range(8))), 0.01)
        self.assertIn('7 wells are taken to be at the spot of another, nearer than 0.01 m, as asked by --same-spot: 1 (line 3) at that of 0 (line 2), '
                      '0.0001 m away, ', join_note(joins, 0.01))
        self.assertTrue(join_note(joins, 0.01).endswith('4 (line 6) at that of 0 (line 2), 0.0004 m away and 3 more.'))
        self.assertTrue(join_note(joined_wells(at((1, 1), (1, 1)), 0.01)[1], 0.01).endswith(': 1 (line 3) at that of 0 (line 2), at the same place.'))


class OnThePage(Folder):
    def page(self, *words):
        self.made(*words)
        return (self.folder / 'wells.html').read_text()

    def test_the_wells_table(self):
        """x as the list has it, and whose spot the second reading is taken at."""
        page = self.page(self.file(FIVE), *MODEL, '--same-spot', '0.01', '--grid', '3x3')
        rows = re.findall(r'<td class="name">(.*?)</td><td class="x n">(.*?)</td>', page)
        self.assertEqual([(re.sub('<[^>]*>', '', name), x) for name, x in rows],
                         [('A', '0.000'), ('A2 = #1', '0.005'), ('B', '100.000'), ('C', '40.000'), ('D', '200.000')])
        self.assertIn('A well marked = #1 is taken to be at the spot of well #1; its x and y are as the list has them.', page)
        self.assertIn('<dt>Same spot</dt><dd>nearer than 0.01\u00a0m, 1\u00a0well joined</dd>', page)
        self.assertIn('A2 (line 3) at that of A (line 2), 0.005 m away.', page)
        self.assertIn('Wells that are one spot were left out together.', page)

    def test_nothing_of_it_without(self):
        page = self.page(self.file(FIVE), *MODEL, '--grid', '3x3')
        for words in ('= #', 'Same spot', 'left out together'):
            self.assertNotIn(words, page)

    def test_marks(self):
        wells, _ = joined_wells(at((0, 0), (9, 9), (9, 9.001), (0, 0), (5, 5)), 0.01)
        self.assertEqual(joined_marks(type('M', (), {'wells': wells})), ['', '', '= #2', '= #1', ''])

    def test_a_node_within_the_distance_of_a_well(self):
        """A node 3 mm beside a well is at its spot: with the distance it has the well's level and no deviation, and without it some."""
        wells = self.file('name,x,y,level\nA,0,0,10\nB,100,20,11\nC,40,90,9\nD,200,150,12\n')
        nodes = self.file('x,y\n100.003,20\n', 'nodes.csv')
        deviations = []
        for words in ((), ('--same-spot', '0.01')):
            self.made(wells, *MODEL, '--regularization', '0', '--nodes', nodes, *words)
            deviations.append(float(self.rows()[0][7]))
        self.assertGreater(deviations[0], 0.003)
        self.assertLess(deviations[1], 0.0005)
