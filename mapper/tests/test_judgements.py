"""The two judgements, in the last line, in the table and on the way to it; and what ends a run for its doubts."""
import hashlib
import re
import unittest
from datetime import date
from unittest import mock

from mapper.doubts.judgements import both_words, in_order, judgement_lines, stop_where_grave
from mapper.errors import Stop
from mapper.lists.wells import WellList
from mapper.making import Made
from mapper.options import options
from mapper.output_files import table
from mapper.records import Doubt, Well
from mapper.runs.building import program
from mapper.runs.lost_digits import drawn_map
from mapper.tests import samples
from mapper.tests.support import FOUR, NUMBERS, Folder

GRAVE = Doubt('BH-99 (line 32) has a level of −9999, which stands for no reading. Take the line out.', True)
LIGHT = Doubt('Two columns could be the level.')


class Words(unittest.TestCase):
    def test_both(self):
        m = samples.grid_map(40, 30)
        self.assertEqual(both_words(m, 'above'), 'The arithmetic held at 1,200 of 1,200 nodes; nothing doubtful was found in the list')
        m.doubts = [LIGHT, GRAVE]
        self.assertEqual(both_words(m, 'above'), 'The arithmetic held at 1,200 of 1,200 nodes; 2 doubts about the list, above')

    def test_a_failed_node_is_no_doubt(self):
        m = samples.two_runs()
        self.assertRegex(both_words(m, 'above'), 'The arithmetic held at 1,157 of 1,200 nodes; nothing doubtful was found in the list')

    def test_lines(self):
        m = samples.grid_map(3, 3)
        self.assertEqual(judgement_lines(m), ['The arithmetic held at 9 of 9 nodes.', 'Nothing doubtful was found in the list.'])
        m.doubts = [Doubt('A well with\na name of two lines.')]
        self.assertEqual(judgement_lines(m)[1:], ['Doubtful: A well with a name of two lines.'])

    def test_order(self):
        other = Doubt('Another.')
        self.assertEqual(in_order([LIGHT, GRAVE, other]), [GRAVE, LIGHT, other])

    def test_grave_ones_end_the_run(self):
        stop_where_grave([LIGHT])
        with self.assertRaises(Stop) as stopped:
            stop_where_grave([GRAVE, LIGHT, Doubt('x and y look like degrees.', True)])
        self.assertEqual(str(stopped.exception).splitlines(),
                         ['This cannot be a map of a water table:', '  ' + GRAVE.sentence, '  x and y look like degrees.',
                          'Nothing was written. --anyway draws it all the same, with the doubt on the page.'])


class Table(unittest.TestCase):
    def lines(self, m):
        return b''.join(table(m)).decode().splitlines()

    def test_comments_before_the_header(self):
        m = samples.grid_map(3, 3)
        m.doubts = [LIGHT]
        self.assertEqual(self.lines(m)[:4], ['# The arithmetic held at 9 of 9 nodes.', '# Doubtful: Two columns could be the level.',
                                             '# Worked out by wellmap.', 'node,x,y,level,variance,verdict,says,deviation,where'])

    def test_deviation_and_where(self):
        """A node in the middle of four wells, one on their edge, one beside them; variances of 4, of 0 less rounding and of less than nothing."""
        m = samples.grid_map(3, 1)
        m.wells = [Well(str(i), x, y, 5) for i, (x, y) in enumerate(((0, 0), (10, 0), (10, 10), (0, 10)))]
        for i, (x, y, variance) in enumerate(((5, 5, 4.0), (10, 5, -1e-12), (11, 5, -0.25))):
            m.nodes.x[i], m.nodes.y[i], m.nodes.variance[i] = x, y, variance
        self.assertEqual([line.split(',')[6:] for line in self.lines(m)[-3:]],
                         [['the arithmetic held', '2', 'among the wells'], ['the arithmetic held', '0', 'among the wells'],
                          ['the arithmetic held', '', 'outside the wells']])


class ARun(Folder):
    """A run whose reader has these doubts about the list."""

    def run_with(self, *doubts, words=()):
        listed = WellList([Well(name, x, y, level, line=i + 2) for i, (name, x, y, level) in enumerate(
            (('A', 0, 0, 10), ('B', 100, 0, 11), ('C', 0, 100, 12.5), ('D', 90, 80, 12)))], None, None, ['1 line was left out: line 7.'], list(doubts))
        with mock.patch('mapper.making.read_wells', lambda path, how: listed):
            return self.command(self.file(FOUR), *NUMBERS, '--grid', '3x3', *words)

    def test_a_light_doubt(self):
        status, out, _ = self.run_with(LIGHT)
        self.assertEqual(status, 0)
        self.assertEqual(out.splitlines()[0], '1 line was left out: line 7.')
        self.assertEqual(out.splitlines()[-2], 'Doubtful: Two columns could be the level.')
        self.assertTrue(out.splitlines()[-1].startswith('The arithmetic held at 9 of 9 nodes; 1 doubt about the list, above and on the page: '))
        self.assertEqual(self.judgements(), ['The arithmetic held at 9 of 9 nodes.', 'Doubtful: Two columns could be the level.', 'Worked out by wellmap.'])
        self.assertIn('1 line was left out: line 7.', (self.folder / 'wells.html').read_text())

    def test_a_grave_one(self):
        status, _, err = self.run_with(LIGHT, GRAVE)
        self.assertEqual((status, sorted(path.name for path in self.folder.iterdir())), (1, ['wells.csv']))
        self.assertIn(GRAVE.sentence, err)
        self.assertNotIn(LIGHT.sentence, err)

    def test_a_grave_one_with_sheets(self):
        status, _, err = self.run_with(GRAVE, words=('--sheets', self.folder / 'a'))
        self.assertEqual((status, sorted(path.name for path in self.folder.iterdir())), (1, ['wells.csv']))
        self.assertIn('--anyway', err)

    def test_drawn_anyway(self):
        status, out, _ = self.run_with(GRAVE, words=('--anyway',))
        self.assertEqual(status, 0)
        self.assertIn('Doubtful: ' + GRAVE.sentence, out)
        self.assertEqual(self.judgements()[1:-1], ['Doubtful: ' + GRAVE.sentence])

    def test_sheets_tell_their_doubts(self):
        told = self.made(self.file(FOUR + 'B,40,50,11.5\n'), *NUMBERS, '--grid', '3x3', '--sheets', self.folder / 'sheets')
        self.assertIn('\nDoubtful: B is the name of 2 wells', told)


class Source(Folder):
    def test_of_the_list_and_the_program(self):
        wells = self.file(FOUR)
        m, _ = drawn_map(Made(options([wells, *NUMBERS, '--grid', '2x2']), lambda sentence: None))
        self.assertEqual((m.source.list_name, m.source.checksum), ('wells.csv', hashlib.sha256(FOUR.encode()).hexdigest()))
        with open(program(print), 'rb') as file:
            self.assertEqual(m.source.program, hashlib.sha256(file.read()).hexdigest())
        self.assertEqual(m.source.made, date.today().isoformat())
        self.assertTrue(re.fullmatch(r'\d{4}-\d\d-\d\d', m.source.made))
