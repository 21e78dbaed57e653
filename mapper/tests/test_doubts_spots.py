"""Wells at one spot: what is said, and that what is advised helps."""
import re

from mapper.doubts.spots import enough, spot_doubts, spots_of
from mapper.records import Variogram, Well
from mapper.runs.survey import Survey
from mapper.tests.support import FOUR, NUMBERS, SAMPLES, Folder


def survey_of(*wells, regularization=1e-10, sill=1.0, model='spherical', nugget=0.0):
    named = [Well(name, x, y, level, line=i + 2) for i, (name, x, y, level) in enumerate(wells)]
    return Survey(named, 'constant', None, Variogram(model, nugget, sill, 100.0, 'given'), regularization, 1e-9)


class Told(Folder):
    def said(self, *wells, **more):
        return [doubt.sentence for doubt in spot_doubts(survey_of(*wells, **more))]

    def test_a_repeated_line(self):
        self.assertEqual(self.said(('A', 0, 0, 5), ('B', 1, 0, 6), ('A', 0, 0, 5)),
                         ['Line 4 repeats line 2 (A): take one out, or give --regularization 1e-6, which tells them apart.'])

    def test_repeated_twice(self):
        self.assertEqual(self.said(('A', 0, 0, 5), ('A', 0, 0, 5), ('B', 1, 0, 6), ('A', 0, 0, 5), regularization=1e-3),
                         ['Lines 3 and 5 repeat line 2 (A): take all but one out.'])

    def test_other_levels(self):
        self.assertEqual(self.said(('Upper', 0, 0, 5), ('Lower', 0, 0, 5.5), ('Mill', 3, 1, 7), sill=20.0),
                         ['Upper (line 2) and Lower (line 3) stand at one spot, with levels of 5 and 5.5 m: keep the one that counts, and take the others '
                          'out, or give --regularization 1e-4, which tells them apart.'])

    def test_another_name_at_the_same_level(self):
        """Two names are two wells, and not a line that was copied."""
        self.assertIn('A (line 2) and B (line 3) stand at one spot, with levels of 5 and 5 m', self.said(('A', 0, 0, 5), ('B', 0, 0, 5))[0])

    def test_none(self):
        self.assertEqual(self.said(('A', 0, 0, 5), ('B', 0, 1, 5), ('C', 1, 0, 5)), [])
        self.assertEqual(spots_of([]), [])

    def test_a_millionth_of_the_top(self):
        for model, nugget, sill, wanted in (('spherical', 0, 1, -6), ('spherical', 0, 2.656, -5), ('gaussian', 0, 0.04, -7),
                                            ('linear', 9.5, 0.5, -5), ('exponential', 0, 265.6, -3)):
            self.assertEqual(enough(survey_of(model=model, nugget=nugget, sill=sill)), wanted)


class Helps(Folder):
    """samples/plain.csv with its first well once more at the end."""

    def doubled(self, factor=1.0):
        lines = (SAMPLES / 'plain.csv').read_text().splitlines()
        lines.append(lines[1])
        rows = (line.rsplit(',', 1) for line in lines[1:])
        return self.file('\n'.join(lines[:1] + [f'{place},{factor * float(level)!r}' for place, level in rows]) + '\n')

    def held(self, *words):
        """How many nodes held, of how many, and the run's lines."""
        lines = self.made(*words).splitlines()
        return re.match(r'The arithmetic held at ([0-9,]+) of ([0-9,]+) nodes; 1 doubt', lines[-1]).groups(), lines

    def test_one_repeated_line_loses_the_map_and_what_is_advised_gives_it_back(self):
        for factor, trend in ((1.0, 'constant'), (1.0, 'linear'), (1.0, 'quadratic'), (10.0, 'constant')):
            wells = self.doubled(factor)
            (held, total), lines = self.held(wells, '--trend', trend)
            self.assertLess(int(held), 0.03 * int(total.replace(',', '')))
            (doubt,) = [line for line in lines if line.startswith('Doubtful: ')]
            self.assertIn('Line 32 repeats line 2 (P1): take one out, or give --regularization ', doubt)
            words = re.search(r'--regularization 1e-[0-9]+', doubt).group().split()
            self.assertIn(f'keep one of the wells that share a spot, or give {" ".join(words)}.', ' '.join(lines))
            (held, total), lines = self.held(wells, '--trend', trend, *words)
            self.assertEqual(held, total)
            self.assertIn('Line 32 repeats line 2 (P1): take one out.', ' '.join(lines))

    def test_the_other_advice_without_one(self):
        text = 'x,y,level\n' + ''.join(f'{37 * i % 100},{61 * i % 97},{i % 7}\n' for i in range(12))
        self.assertIn('a simpler --trend may help', self.made(self.file(text), '--trend', 'quadratic', '--tolerance', '0', '--grid', '5x5'))

    def test_leaving_out_does_not_end_the_run(self):
        told = self.made(self.file(FOUR + 'A,0,0,10\n'), *NUMBERS, '--grid', '3x3')
        self.assertIn('Line 6 repeats line 2 (A)', told)
