"""The well that stands out most: named where a level is wrong, and none where the list is good."""
import math
import random
import unittest

from mapper.doubts.standing_out import off_by, set_apart, standing_out_doubts, stands_out, usual
from mapper.making import Made
from mapper.options import options
from mapper.records import LeftOut, Well
from mapper.runs.lost_digits import drawn_map
from mapper.tests.support import SAMPLES, Folder

FIRST = 'Look at '


def mapped(*words):
    """The map of these words over four nodes, without a page."""
    return drawn_map(Made(options([*map(str, words), '--grid', '2x2', '--anyway']), lambda sentence: None))[0]


def first(*words):
    """The sentences about a well that stands out."""
    return [doubt.sentence for doubt in mapped(*words).doubts if doubt.sentence.startswith(FIRST)]


class OnSamples(Folder):
    def spoiled(self, name, line, level):
        """A sample with another level in a line, counted from 1 as the header is."""
        lines = (SAMPLES / f'{name}.csv').read_text().splitlines()
        fields = lines[line - 1].split(',')
        lines[line - 1] = ','.join(fields[:3] + [level(float(fields[3]))] + fields[4:])
        return self.file('\n'.join(lines) + '\n'), fields[0]

    def test_good_lists(self):
        for name in ('plain', 'valley'):
            for trend in ('constant', 'linear', 'quadratic'):
                self.assertEqual(first(SAMPLES / f'{name}.csv', '--trend', trend), [], (name, trend))

    def test_a_level_without_its_first_digit(self):
        """47.91 becomes 7.91, and 205.11 becomes 5.11."""
        for name, trend in (('plain', 'constant'), ('plain', 'linear'), ('valley', 'constant'), ('valley', 'quadratic')):
            for line in (2, 17):
                wells, well = self.spoiled(name, line, lambda level: f'{level:.2f}'[1:])
                (said,) = first(wells, '--trend', trend)
                self.assertRegex(said, rf'^Look at {well} \(line {line}\) first: its neighbours say [0-9.]+ m, the list says [0-9.]+ m\. Read or measure')

    def test_a_sentinel(self):
        wells, well = self.spoiled('plain', 12, lambda level: '-9999')
        said = self.made(wells, '--anyway', '--grid', '3x3')
        self.assertRegex(said, rf'\nDoubtful: Look at {well} \(line 12\) first: its neighbours say 4[4-9]\.[0-9]+ m, the list says −9999 m\.')

    def test_ten_standard_deviations(self):
        for name in ('plain', 'valley'):
            m = mapped(SAMPLES / f'{name}.csv')
            for i in (0, 7, 15):
                wells, well = self.spoiled(name, i + 2, lambda level: f'{level + 10 * m.left_out[i].deviation:.2f}')
                self.assertIn(f'{FIRST}{well} (line {i + 2}) first', ' '.join(first(wells)), (name, i))

    def test_two_at_once(self):
        """Each hides the other from a look at all wells; one of them is named."""
        lines = (SAMPLES / 'plain.csv').read_text().splitlines()
        for line in (5, 21):
            lines[line - 1] = lines[line - 1][:-5] + lines[line - 1][-4:]
        self.assertRegex(' '.join(first(self.file('\n'.join(lines) + '\n'))), r'Look at (P4 \(line 5\)|P20 \(line 21\)) first')


class GoodLists(Folder):
    def test_planes_with_noise(self):
        """A plane, and what measuring adds to it: twenty lists, of which at most one may be doubted."""
        doubted = 0
        for seed in range(20):
            draw = random.Random(seed)
            rows = []
            for i in range(draw.choice((6, 12, 25))):
                x, y = draw.uniform(0, 2000), draw.uniform(0, 1500)
                rows.append(f'W{i},{x:.1f},{y:.1f},{100 + 0.002 * x - 0.001 * y + draw.gauss(0, 0.1):.2f}')
            doubted += len(first(self.file('name,x,y,level\n' + '\n'.join(rows) + '\n'), '--trend', draw.choice(('constant', 'linear'))))
        self.assertLessEqual(doubted, 1)

    def test_an_exact_plane(self):
        """Errors of rounding are no errors, however they compare."""
        rows = [f'W{i},{37 * i % 100},{61 * i % 97},{5 + 0.01 * (37 * i % 100):.4f}' for i in range(12)]
        self.assertEqual(first(self.file('name,x,y,level\n' + '\n'.join(rows) + '\n'), '--trend', 'linear'), [])

    def test_the_same_level_everywhere_but_once(self):
        rows = [f'W{i},{37 * i % 100},{61 * i % 97},{4.0 if i == 6 else 5.0}' for i in range(12)]
        (said,) = first(self.file('name,x,y,level\n' + '\n'.join(rows) + '\n'))
        self.assertIn('Look at W6 (line 8) first: its neighbours say 5 m, the list says 4 m.', said)


class Fake:
    """Wells that say of each other what is written here: by name, whoever is left."""

    def __init__(self, said):
        self.said = said

    def left_out(self, wells):
        return [self.said[well.name] for well in wells]

    def say_of(self, well, others):
        return self.said[well.name]


class Rule(unittest.TestCase):
    NAMES = 'ABCDEFGHIJKLMNOPQRSTUVWXY'
    WELLS = [Well(name, i, i * i, 10.0) for i, name in enumerate(NAMES)]

    def test_deviations(self):
        """1.2 m off in a deviation of 0.58 m, to which 2 cm are added."""
        self.assertAlmostEqual(off_by(Well('A', 0, 0, 10), LeftOut(8.8, 0.58)), 2)
        self.assertEqual(off_by(Well('A', 0, 0, 10), LeftOut(None)), 0)

    def test_usual(self):
        """3 and 4 deviations and nothing: the root of 25 / 3."""
        told = [LeftOut(10.3, 0.08), LeftOut(9.6, 0.08), LeftOut(10.0, 0.08), LeftOut(None)]
        self.assertAlmostEqual(usual(self.WELLS[:4], told), math.sqrt(25 / 3))
        self.assertIsNone(usual(self.WELLS[:4], [LeftOut(None)] * 2 + told[:2]))

    def test_one_in_five_and_three_at_most(self):
        said = {name: LeftOut(10.0 + 0.1 * i, 0.08) for i, name in enumerate(self.NAMES)}
        for count, wanted in ((4, 'D'), (9, 'I'), (10, 'JI'), (15, 'ONM'), (25, 'YXW')):
            wells = self.WELLS[:count]
            suspects, rest, told = set_apart(wells, Fake(said).left_out(wells), Fake(said))
            self.assertEqual(''.join(well.name for well in suspects), wanted)
            self.assertEqual([len(rest), len(told)], [count - len(wanted)] * 2)

    def test_wells_that_share_a_spot_are_none(self):
        wells = [Well('A', 1, 1, 10), Well('B', 1, 1, 99), Well('C', 5, 1, 10), Well('D', 1, 8, 10.5)]
        said = {name: LeftOut(10.0, 0.08) for name in 'ABCD'}
        self.assertEqual([well.name for well in set_apart(wells, Fake(said).left_out(wells), Fake(said))[0]], ['D'])

    def test_the_one_that_stands_out_most(self):
        """N is off by 40 deviations and C by 60, the others by a tenth."""
        said = {well.name: LeftOut(10.01, 0.08) for well in self.WELLS}
        said.update(N=LeftOut(14.0, 0.08), C=LeftOut(4.0, 0.08))
        (doubt,) = standing_out_doubts(self.WELLS, Fake(said).left_out(self.WELLS), Fake(said))
        self.assertIn('Look at C first: its neighbours say 4 m, the list says 10 m.', doubt.sentence)
        self.assertEqual(standing_out_doubts(self.WELLS, [LeftOut(None)] * 25, Fake({name: LeftOut(None) for name in said})), [])
        self.assertEqual(standing_out_doubts(self.WELLS, [], Fake(said)), [])

    def test_one_that_all_others_say_nothing_of(self):
        """Without the first suspect they do say something of it."""
        class Later(Fake):
            def left_out(self, wells):
                return [LeftOut(None) if len(wells) == 25 and well.name == 'N' else self.said[well.name] for well in wells]
        said = {well.name: LeftOut(10.01, 0.08) for well in self.WELLS}
        said.update(N=LeftOut(14.0, 0.08), C=LeftOut(11.0, 0.08))
        (doubt,) = standing_out_doubts(self.WELLS, Later(said).left_out(self.WELLS), Later(said))
        self.assertIn('Look at N first: its neighbours say 14 m, the list says 10 m.', doubt.sentence)

    def test_limits(self):
        """Of 16 wells an error is large beyond 2.8 deviations; of 4 beyond 1.4; of 48 beyond 3."""
        off = lambda deviations: LeftOut(10 - deviations, 0.98)
        well = Well('A', 0, 0, 10.0)
        for deviations, count, usual_error, wanted in (
            (2.9, 16, 0.48, True), (2.7, 16, 0.44, False), (2.7, 16, 0.11, False), (2.7, 16, 0.105, True), (1.5, 4, 0.24, True),
            (3.1, 48, 0.5, True), (3.1, 48, 0.6, False), (2.9, 48, 0.4, False),
        ):
            self.assertEqual(stands_out(well, off(deviations), count, usual_error), wanted, (deviations, count, usual_error))

    def test_a_few_centimetres_are_no_matter(self):
        self.assertFalse(stands_out(Well('A', 0, 0, 10.0), LeftOut(9.91, 0.0), 20, 0.01))
        self.assertTrue(stands_out(Well('A', 0, 0, 10.0), LeftOut(9.89, 0.0), 20, 0.01))
