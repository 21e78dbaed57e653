"""Lost digits, mended: 20 wells within 200 m in coordinates of seven figures, the disease of samples/seven_figures.survey."""
import sys
import unittest

from mapper.numbers import shown
from mapper.records import Well
from mapper.runs.origin import corner
from mapper.tests.support import ENDING, SAMPLES, Folder, bits, nakwemol

if sys.version_info >= (3, 10):  # which tools/reading asks for
    from tools.reading.survey import Survey
    from tools.reading.survey_file import body, trailer
    from tools.reading.variogram import Variogram
    from tools.reading.wellmap import lines

MODEL = ('--trend', 'quadratic', '--nugget', '0.01', '--sill', '0.2', '--range', '150')


def listed(s):
    rows = (f'S{i},{shown(s.coords[2 * i])},{shown(s.coords[2 * i + 1])},{shown(level)}\n' for i, level in enumerate(s.values))
    return 'name,x,y,level\n' + ''.join(rows)


class Corner(unittest.TestCase):
    def test_round_and_near(self):
        def of(*places):
            return corner([Well('', x, y, 0) for x, y in places])
        self.assertEqual(of((4512310.5, 5403250), (4512910, 5403400)), (4512300, 5403200))
        self.assertEqual(of((4512310, 5403250), (4515310, 5403400)), (4512000, 5403000))
        self.assertEqual(of((4512310.5, 5403250.25)), (4512310, 5403250))
        self.assertEqual(of((-4512310, 10), (-4512110, 20)), (-4512400, 0))
        self.assertEqual(of((0.5, 0.25), (3.5, 0.75)), (0, 0))
        self.assertEqual(of((2000.5, 2000.5), (2000.75, 2000.75)), (2000.5, 2000.5))
        self.assertEqual(of((45.37, 45.37), (45.68, 45.68)), (45.3, 45.3))


class SevenFigures(Folder):
    def setUp(self):
        super().setUp()
        self.sample = nakwemol.read_survey((SAMPLES / 'seven_figures.survey').read_bytes())
        self.wells = self.file(listed(self.sample))

    def test_as_entered_none_passes_and_moved_all(self):
        said = self.made(self.wells, *MODEL, '--grid', '10x10')
        self.assertIn('With coordinates as entered 0 of 100 nodes pass; with the origin moved to (4512300, 5403100) 100 do; '
                      'the map is drawn with the origin moved.\n', said)
        self.assertIn('The arithmetic held at 100 of 100 nodes; ', said.splitlines()[-1])
        self.assertEqual({row[5] for row in self.rows()}, {'0'})

    def test_places_are_shown_as_entered(self):
        self.made(self.wells, *MODEL, '--nodes', self.file('x,y\n4512320,5403120\n', 'nodes.csv'))
        self.assertEqual(self.rows()[0][:3], ['1', '4512320', '5403120'])

    def test_as_entered_is_kept(self):
        said = self.made(self.wells, *MODEL, '--grid', '10x10', '--origin', 'as-entered')
        self.assertNotIn('with the origin moved', said)
        self.assertIn('100 nodes did not pass, with coordinates as entered (without --origin', said)
        self.assertIn('The arithmetic held at 0 of 100 nodes', said)
        for row in self.rows():
            self.assertEqual((row[3], row[4], row[5]), ('', '', '1'))

    def test_moved_at_once(self):
        said = self.made(self.wells, *MODEL, '--grid', '10x10', '--origin', 'moved')
        self.assertIn('The origin is moved to (4512300, 5403100), as asked.', said)
        self.assertNotIn('as entered', said)
        self.assertIn('100 of 100', said)

    @unittest.skipIf(sys.version_info < (3, 10), 'tools/reading asks for Python 3.10')
    def test_moved_figures_are_those_of_another_reading(self):
        """tools/reading, which shares no code with this or with the program, given coordinates less the corner."""
        places = [(4512320.0, 5403120.0), (4512400.0, 5403160.0), (4512455.5, 5403250.25)]
        self.made(self.wells, *MODEL, '--nodes', self.file('x,y\n' + ''.join(f'{x},{y}\n' for x, y in places), 'nodes.csv'))
        less = [z - (4512300.0, 5403100.0)[i % 2] for i, z in enumerate(self.sample.coords)]
        nodes = [z for x, y in places for z in (x - 4512300.0, y - 5403100.0)]
        survey = Survey(self.sample.values, less, [3], [], nodes, [], Variogram(1, 0.01, 0.2, 150.0), 1e-10, 1e-9)
        printed = [line.split() for line in lines(body(survey) + trailer(survey))[1:4]]
        self.assertEqual([[float(z) for z in row[3:5]] for row in self.rows()], [[bits(z) for z in line[1:3]] for line in printed])
        self.assertEqual([row[5] for row in self.rows()], [line[3] for line in printed])

    def test_near_the_origin_nothing_is_moved(self):
        """Wells that start at (0, 0) have it as their corner; a tolerance of 0 is missed there all the same."""
        text = 'x,y,level\n' + ''.join(f'{37 * i % 100},{61 * i % 97},{i % 7}\n' for i in range(12))
        said = self.made(self.file(text), '--trend', 'quadratic', '--tolerance', '0', '--grid', '5x5')
        self.assertIn('with the origin near the wells already', said)
        self.assertNotIn('is drawn', said)


class WhichIsDrawn(Folder):
    """A program that answers by the first well's x: 0 where the origin is moved."""

    def drawn(self, entered, moved, *more):
        answers = [f'printf "nodes 2\\n1 4010000000000000 0000000000000000 {a}\\n2 4010000000000000 0000000000000000 {b}\\n{ENDING}"'
                   if a is not None else f'echo refused {b}' for a, b in (entered, moved)]
        first = "first=$(od -An -v -tx8 -j56 -N8 | tr -d ' \\n')"  # 5 numbers and 2 levels before it
        self.program(f'{first}\nif [ "$first" != 0000000000000000 ]; then {answers[0]}; else {answers[1]}; fi')
        wells, nodes = self.file('x,y,level\n1000,1000,1\n1100,1100,2\n'), self.file('x,y\n1010,1010\n1020,1020\n', 'nodes.csv')
        return self.command(wells, '--nodes', nodes, '--nugget', '0', '--sill', '1', '--range', '9', *more)

    def test_the_better_one(self):
        self.assertIn('1 of 2 nodes pass; with the origin moved to (1000, 1000) 2 do; the map is drawn with the origin moved.', self.drawn((0, 1), (0, 0))[1])
        self.assertEqual([row[5] for row in self.rows()], ['0', '0'])

    def test_as_entered_where_moving_did_not_help(self):
        self.assertIn('moved to (1000, 1000) 1 do; the map is drawn as entered.', self.drawn((0, 1), (2, 0))[1])
        self.assertEqual([row[5] for row in self.rows()], ['0', '1'])

    def test_what_to_do_about_a_gaussian_model(self):
        self.assertIn('several close together, or a larger --nugget', self.drawn((0, 1), (2, 0), '--model', 'gaussian')[1])
        self.assertNotIn('larger --nugget', self.drawn((0, 1), (2, 0), '--model', 'exponential')[1])

    def test_refused_as_entered_and_mended(self):
        status, out, _ = self.drawn((None, 19), (0, 0))
        self.assertEqual(status, 0)
        self.assertIn('As entered the map is turned away. Refused (19)', out)
        self.assertIn('With coordinates as entered the map is refused by 19; with the origin moved to (1000, 1000) 2 of 2 nodes pass; '
                      'the map is drawn with the origin moved.\n', out)

    def test_refused_both_ways(self):
        status, _, err = self.drawn((None, 19), (None, 19))
        self.assertEqual(status, 1)
        self.assertIn('Refused (19)', err)
        self.assertFalse((self.folder / 'wells.html').exists())

    def test_only_19_may_be_a_matter_of_digits(self):
        status, _, err = self.drawn((None, 11), (0, 0))
        self.assertEqual(status, 1)
        self.assertIn('Refused (11)', err)

    def test_refused_only_moved(self):
        status, out, _ = self.drawn((1, 1), (None, 19))
        self.assertEqual(status, 0)
        self.assertIn('With the origin moved to (1000, 1000) the map is turned away. Refused (19)', out)
        self.assertIn('The arithmetic held at 0 of 2 nodes', out)
