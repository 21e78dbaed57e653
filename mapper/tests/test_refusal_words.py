"""There are words for every refusal, and they say what these wells have to do with it."""
import re
import unittest

from mapper.records import Well
from mapper.runs.refusals import REFUSALS, refusal
from mapper.runs.survey_file import DRIFT, NODES, PROGRAM_WELLS, WELLS
from mapper.tests.support import section


def some(count):
    return [Well(f'W{i}', i, i * i, 0) for i in range(count)]


class Words(unittest.TestCase):
    def test_every_refusal_of_the_reference(self):
        numbers = [int(number) for number in re.findall(r'^\| ([0-9]+) \|', section(8), re.M)]
        self.assertEqual(numbers, [*range(1, 20), 22, 100])
        self.assertEqual(sorted(REFUSALS), numbers)

    def test_each_is_a_sentence_that_says_what_to_do(self):
        for number in REFUSALS:
            said = refusal(number, some(3), 'linear', None)
            self.assertTrue(said.startswith(f'Refused ({number}). ') and said.endswith('.'), said)
            self.assertRegex(said, r'(Choose|choose|Give|give|Look|look|Fill|Measure|Keep|Correct|Ask|Write|build|Name)', number)

    def test_limits_are_those_of_the_reference(self):
        found = re.search(r'\| 9 \| n > (\d+) \(in `wellmap` n > (\d+)\), p > (\d+) or m > (\d+) \|', section(8)).groups()
        for limit in found:
            self.assertIn(limit, refusal(9))
        self.assertEqual(tuple(map(int, found)), (WELLS, PROGRAM_WELLS, DRIFT, NODES))

    def test_how_many_wells_are_taken(self):
        self.assertTrue(refusal(9, some(96)).endswith(' This list has 96 wells.'))
        self.assertIn(' This list has 97 wells. --near X,Y takes the 96 nearest to a place: ', refusal(9, some(97)))
        self.assertIn(' This list has 60 wells. Without --sheets and --listing all of them are taken. --near X,Y takes the 48 nearest to a place: ',
                      refusal(9, some(60), most=48))
        self.assertIn(' This list has 97 wells. --near X,Y takes the 48 nearest to a place: ', refusal(9, some(97), most=48))

    def test_how_many_wells_a_trend_needs(self):
        self.assertIn('The quadratic trend needs 6 wells; this list has 5.', refusal(7, some(5), 'quadratic'))
        self.assertIn('The linear trend with ground needs 4 wells; this list has 2.', refusal(7, some(2), 'linear', 'ground'))
        self.assertIn('constant needs 1, linear 3, quadratic 6', refusal(7))

    def test_wells_that_share_a_spot(self):
        wells = [Well('A', 1, 1, 0), Well('B', 2, 1, 0), Well('C', 1, 1, 0), Well('D', 2, 1, 0)]
        self.assertIn('These wells share a spot: A and C; B and D.', refusal(19, wells))
        self.assertIn('No two wells share a spot; look for all wells on one line', refusal(19, some(3), 'linear'))
        self.assertIn('ground that is the same at every well', refusal(19, some(3), 'constant', 'ground'))

    def test_number_that_nobody_knows(self):
        self.assertIn('not known', refusal(77))
