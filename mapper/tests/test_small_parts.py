"""The bar, the files, numbers as they are shown, and the lists in samples/."""
import contextlib
import io
import unittest
from unittest import mock

from mapper.developers import sample_lists as samples
from mapper.errors import Stop
from mapper.lists.wells import ListOptions, read_wells
from mapper.numbers import counted, deviation, shown, significant
from mapper.output_files import write_all
from mapper.progress import Bar
from mapper.tests.support import SAMPLES, Folder


class Terminal(io.StringIO):
    def isatty(self):
        return True


class Bars(unittest.TestCase):
    def shown(self, seconds, stream, wanted=False):
        """What a bar of 200 nodes shows with 50 done at each of these seconds."""
        times = iter([0.0] + [s for s in seconds for _ in (0, 1)])
        with Bar('run', 200, wanted, stream, lambda: next(times)) as bar:
            for _ in seconds:
                bar.step(50)
            return stream.getvalue()

    def test_not_in_the_first_second(self):
        self.assertEqual(self.shown([0.1], Terminal()), '')

    def test_after_a_second(self):
        self.assertEqual(self.shown([1.5], Terminal()), '\rrun [##########                              ]  25 %  50 of 200 nodes')

    def test_only_where_it_is_seen(self):
        self.assertEqual(self.shown([1.5], io.StringIO()), '')
        self.assertIn('25 %', self.shown([1.5], io.StringIO(), wanted=True))

    def test_wiped_at_the_end(self):
        stream = Terminal()
        self.shown([1.5], stream)
        self.assertEqual(stream.getvalue().split('\r')[-2].strip(), '')


class Files(Folder):
    def test_all_or_nothing(self):
        def broken():
            yield b'half'
            raise OSError(28, 'No space left on device')
        with self.assertRaises(Stop) as stopped:
            write_all([(self.folder / 'a', [b'whole']), (self.folder / 'b', broken())])
        self.assertIn('No space left', str(stopped.exception))
        self.assertEqual(list(self.folder.iterdir()), [])

    def test_what_was_there_is_replaced(self):
        self.file('old', 'a')
        write_all([(self.folder / 'a', [b'n', b'ew'])])
        self.assertEqual([path.read_bytes() for path in self.folder.iterdir()], [b'new'])


class Numbers(unittest.TestCase):
    def test_shown(self):
        self.assertEqual([shown(x) for x in (4512300.0, -0.5, 0.1, 1e-10, 1e22)], ['4512300', '-0.5', '0.1', '1e-10', '1e+22'])

    def test_significant(self):
        self.assertEqual([significant(x, 4) for x in (1234.5678, 0.000123456, 0.0, 99999)], [1235, 0.0001235, 0, 100000])

    def test_deviation(self):
        self.assertEqual([deviation(x) for x in (6.25, 0.0, -1e-12, -0.01, float('inf'), float('nan'))], [2.5, 0, 0, None, None, None])

    def test_counted(self):
        self.assertEqual([counted(n, 'node') for n in (0, 1, 2000)], ['0 nodes', '1 node', '2,000 nodes'])


class Samples(Folder):
    def test_as_they_are_made(self):
        with contextlib.redirect_stdout(io.StringIO()) as said:
            self.assertEqual(samples.main(['--check']), 0)
        self.assertEqual(said.getvalue().count('same'), len(samples.LISTS))

    def test_a_changed_one_is_told(self):
        with mock.patch.object(samples, 'SAMPLES', self.folder), contextlib.redirect_stdout(io.StringIO()):
            self.assertEqual(samples.main(['--check']), 1)

    def test_what_they_are(self):
        plain, valley = (read_wells(SAMPLES / f'{name}.csv', ListOptions(column)).wells for name, column in (('plain', None), ('valley', 'ground')))
        self.assertEqual((len(plain), len(valley)), (30, 24))
        for wells, reach in ((plain, 3000), (valley, 600)):
            self.assertTrue(all(1e6 <= z < 1e7 for well in wells for z in (well.x, well.y)))
            self.assertLessEqual(max(well.x for well in wells) - min(well.x for well in wells), reach)

    def test_valley_loses_its_digits_and_gets_them_back(self):
        said = self.made(SAMPLES / 'valley.csv', '--trend', 'quadratic', '--out', self.folder)
        self.assertIn('as entered 0 of 768 nodes pass; with the origin moved to (4512300, 5403200) 768 do', said)

    def test_plain_falls_to_the_south_east(self):
        """It was made to: 1.2 m a kilometre to the east and 0.9 m to the south, the hypotenuse of which is 1.5."""
        said = self.made(SAMPLES / 'plain.csv', '--trend', 'linear', '--out', self.folder)
        self.assertIn('\nThe water table falls 1.5 m a kilometre to the south-east: ', said)

    def test_valley_follows_the_ground(self):
        """It was made to: 0.4 of the ground's height, and of the 2.5 m a kilometre that the water falls to the east the ground's 3 m take off 1.2."""
        said = self.made(SAMPLES / 'valley.csv', '--trend', 'linear', '--external', 'ground', '--nodes', SAMPLES / 'valley_nodes.csv', '--out', self.folder)
        self.assertIn('\nThe level rises 0.40 m for each metre of ground; apart from that the water table falls 1.3 m a kilometre to the east: ', said)

    def test_plain_passes_as_entered(self):
        self.assertNotIn('moved', self.made(SAMPLES / 'plain.csv', '--out', self.folder))
