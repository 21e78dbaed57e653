"""The verdicts' words, which stand here once; and that page, hovering and table say these and no others."""
import csv
import json
import re
import unittest
from html import unescape

from mapper.output_files import table
from mapper.page.page import page
from mapper.page.tables import sentence
from mapper.runs.survey_file import columns
from mapper.runs.verdicts import verdict_advice, verdict_words
from mapper.tests import samples
from mapper.tests.support import section

ROWS = columns('quadratic', 'ground')
FAILED = (*range(1, 9), 9, 255)


class Words(unittest.TestCase):
    def test_rows(self):
        self.assertEqual(ROWS, ['1', 'x', 'y', 'x²', 'xy', 'y²', 'ground'])

    def test_each(self):
        for verdict, said in ((0, 'passes the audit'),
                              (1, 'the weights do not add up to one within the tolerance'),
                              (3, 'the weights do not carry y to the node within the tolerance'),
                              (5, 'the weights do not carry xy to the node within the tolerance'),
                              (7, 'the weights do not carry ground to the node within the tolerance'),
                              (8, 'the level is not the weighted sum of the wells within the tolerance'),
                              (9, 'not known'),
                              (255, 'no number came out: the figure means nothing')):
            self.assertEqual(verdict_words(verdict, ROWS), said)

    def test_a_further_column_that_is_headed_1(self):
        self.assertIn('carry 1 to the node', verdict_words(2, columns('constant', '1')))

    def test_every_verdict_of_the_reference(self):
        """Its rows: 0; 1 to p; p + 1; 255."""
        self.assertEqual(re.findall(r'^\| ([0-9p +to]+) \|', section(7), re.M), ['0', '1 to p', 'p + 1', '255'])


class Advice(unittest.TestCase):
    def test_every_failure_has_something_to_do(self):
        self.assertEqual(verdict_advice(0, ROWS), '')
        said = {verdict_advice(verdict, ROWS) for verdict in (3, 7, 8, 9, 255)}
        self.assertEqual(len(said), 5)
        self.assertNotIn('', said)

    def test_the_origin_is_moved_once(self):
        for verdict in (1, 2, 6):
            self.assertIn('round corner', verdict_advice(verdict, ROWS))
            self.assertNotIn('round corner', verdict_advice(verdict, ROWS, moved=True))
        self.assertNotIn('round corner', verdict_advice(1, ['1']))


class Shown(unittest.TestCase):
    """A map in which every verdict comes, with a column that a list has to quote."""

    def setUp(self):
        self.map = samples.grid_map(11, 1)
        self.map.columns = columns('quadratic', 'ground, "m"')
        self.map.nodes.verdict[:] = bytes([0, *FAILED])
        self.map.runs[0].verdicts = {verdict: 1 for verdict in (0, *FAILED)}

    def words(self, verdict):
        return verdict_words(verdict, self.map.columns)

    def test_table(self):
        lines = list(csv.reader(line.decode() for line in table(self.map)))
        for verdict, line in zip((0, *FAILED), lines[-11:]):
            said = self.words(verdict) + '; do not use the figure' if verdict else 'the arithmetic held'
            self.assertEqual(line[5:7], [str(verdict), said])
            self.assertEqual([bool(line[i]) for i in (3, 4, 7)], [not verdict] * 3)

    def test_page(self):
        seen = unescape(page(self.map))
        for verdict in FAILED:
            self.assertIn('<td>%s</td>' % sentence(self.words(verdict)), seen)
            self.assertIn('<td>%s</td>' % verdict_advice(verdict, self.map.columns), seen)

    def test_hovering(self):
        told = json.loads(re.search(r'id="told">(.*?)</script>', page(self.map)).group(1))
        self.assertEqual(told['words'], {str(verdict): self.words(verdict) for verdict in (0, *FAILED)})
        self.assertEqual([figure for figure in told['level'] if figure[0] == '!'], ['!%d' % verdict for verdict in FAILED])


if __name__ == '__main__':
    unittest.main()
