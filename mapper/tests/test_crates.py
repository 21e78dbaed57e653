"""Which crates are proved, how long they take, and the line that says so; the numbers are worked out here."""
import io
import re
import unittest
from unittest import mock

from mapper.progress import Bar, some_time
from mapper.runs import building, crates
from mapper.tests.support import ROOT, Folder

NEEDS = {'low': [], 'high': ['low'], 'map': ['low'], 'wellmap': ['map']}


class Terminal(io.StringIO):
    def isatty(self):
        return True


class Crates(Folder):
    def test_what_the_repository_needs(self):
        """The list of crates has comments, says which are static libraries, and names libraries that are none of the repository's."""
        path = self.folder / 'crates.txt'
        path.write_text('# numbers: none of these\nlow:\n\nhigh: low io libc  # more\ncalls staticlib: high low\n')
        self.assertEqual(crates.dependencies(path), {'low': [], 'high': ['low'], 'calls': ['high', 'low']})
        self.assertEqual(crates.dependencies(self.folder / 'none'), {})

    def test_those_first_that_others_need(self):
        self.assertEqual(crates.reached(['wellmap', 'high'], NEEDS), ['low', 'map', 'wellmap', 'high'])
        self.assertEqual(crates.reached(['unknown'], NEEDS), ['unknown'])

    def test_the_real_ones(self):
        """The table has every crate that the program and the archive need, and no other."""
        step, names = building.step_of(True, True)
        self.assertEqual(step.command, ['tools/build', 'wellmap', 'nakwemol'])
        self.assertEqual(set(re.findall(r'^(\w+) \d+$', crates.SECONDS.read_text(), re.M)), set(names))
        self.assertTrue({'wellmap', 'nakwemol', 'report', 'interpolator'}.issubset(names))


class Times(unittest.TestCase):
    """Crates of 60, 120, 30 and 90 seconds, 300 in all, two at once."""

    def count(self, done=()):
        with mock.patch.object(crates, 'seconds_of', lambda names: {'low': 60.0, 'high': 120.0, 'map': 30.0, 'wellmap': 90.0}):
            return crates.Count(['low', 'high', 'map', 'wellmap'], 2, done)

    def test_before_anything_is_known(self):
        self.assertEqual(self.count().words(0.0), '0 of 4 crates, low, 0:00, some 2 min left')
        self.assertEqual(self.count(['low', 'high']).ahead, 60)

    def test_counts_down_in_between(self):
        count = self.count()
        count.now([], 30.0)
        self.assertEqual(count.words(75.0), '0 of 4 crates, low, 1:15, some 80 s left')

    def test_pace(self):
        """After 90 s two crates are done, for which the table has (60 + 30) / 2 = 45: with 60 s in favour of the table the pace is 150 / 105."""
        count = self.count()
        count.now(['low', 'map'], 90.0)
        self.assertAlmostEqual(count.ahead, 150 / 105 * 210 / 2)
        self.assertEqual(count.words(190.0), '2 of 4 crates, high, 3:10, some 50 s left')

    def test_goes_on_after_a_stop(self):
        """What was done before does not count as this run's pace."""
        count = self.count(['low', 'high'])
        count.now(['low', 'high', 'map'], 15.0)
        self.assertEqual((count.pace, count.ahead), (1.0, 45.0))

    def test_never_below_nothing(self):
        self.assertIn('some 10 s left', self.count(['low', 'high', 'map', 'wellmap']).words(500.0))

    def test_line(self):
        """Once a second, on a terminal or where it is asked for, and wiped. After half a second of 30 the pace is 60.5 / 90, and 120 s are 80.7."""
        for stream, wanted, shown in ((Terminal(), False, True), (io.StringIO(), True, True), (io.StringIO(), False, False)):
            times = iter([100.0, 100.0, 100.5, 101.0])
            with crates.CrateLine(self.count(), wanted, stream, lambda: next(times)) as line:
                for done in ([], ['low'], ['low']):
                    line.show(done)
            lines = [each.strip() for each in stream.getvalue().split('\r')]
            self.assertEqual(lines, ['', '0 of 4 crates, low, 0:00, some 2 min left', '1 of 4 crates, high, 0:01, some 90 s left', '', ''] if shown else [''])


class Left(unittest.TestCase):
    def test_words(self):
        for seconds, words in ((-5, 'some 10 s'), (3, 'some 10 s'), (41, 'some 50 s'), (89, 'some 90 s'), (91, 'some 2 min'), (200, 'some 3 min')):
            self.assertEqual(some_time(seconds), words)

    def test_bar(self):
        """A quarter in four seconds leaves twelve. Before three seconds, and at the end, nothing is told."""
        stream, times = Terminal(), iter([0.0, 1.0, 4.0, 4.1, 8.0, 20.0])
        with Bar('run', 400, False, stream, lambda: next(times)) as bar:
            for nodes in (50, 50, 10, 90, 200):
                bar.step(nodes)
        found = [line.split(' %  ')[1].rstrip() for line in stream.getvalue().split('\r') if '%' in line]
        self.assertEqual(found, ['50 of 400 nodes', '100 of 400 nodes, some 20 s left', '200 of 400 nodes, some 10 s left', '400 of 400 nodes'])

    def test_a_shorter_line_leaves_nothing_of_a_longer_one(self):
        stream, times = Terminal(), iter([0.0, 4.0, 20.0])
        with Bar('run', 400, False, stream, lambda: next(times)) as bar:
            bar.step(100)
            bar.step(300)
        longer, shorter = [line for line in stream.getvalue().split('\r') if '%' in line]
        self.assertEqual(len(shorter), len(longer))
