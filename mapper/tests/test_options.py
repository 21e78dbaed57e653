"""Every option, by what it leaves in the survey file, as the proved reader reads it, or in the files."""
import os
import subprocess
import sys
import unittest
from unittest import mock

from mapper import progress as bar
from mapper.options import parser
from mapper.runs.building import program
from mapper.tests.support import ENDING, FOUR, NUMBERS, ROOT, Folder, guide, nakwemol

if sys.version_info >= (3, 10):  # which tools/reading asks for
    from tools.reading.wellmap import printed

SIX = FOUR + 'E,40,130,12.2\nF,130,60,11.1\n'
GROUND = 'name,x,y,level,Ground\nA,0,0,10,20\nB,100,0,11,22\nC,0,100,12.5,21\nD,90,80,12,25\n'


class Options(Folder):
    def survey(self, *words, text=SIX):
        """The survey file of a run with these words over one node."""
        nodes = self.file('x,y,ground\n50,50,23\n', 'nodes.csv')
        self.made(self.file(text), '--nodes', nodes, *words, '--survey', self.folder / 'kept.survey')
        return nakwemol.read_survey((self.folder / 'kept.survey').read_bytes())

    def test_plain_choices(self):
        found = self.survey()
        self.assertEqual((found.bases, found.variogram.model, found.regularization, found.tolerance), ([1], 1, 1e-10, 1e-9))
        self.assertEqual((found.values, found.nodes), ([10, 11, 12.5, 12, 12.2, 11.1], [50, 50]))
        self.assertEqual(found.coords, [0, 0, 100, 0, 0, 100, 90, 80, 40, 130, 130, 60])

    def test_trend(self):
        self.assertEqual([self.survey('--trend', trend).bases for trend in ('constant', 'linear', 'quadratic')], [[1], [2], [3]])

    def test_external(self):
        found = self.survey('--trend', 'linear', '--external', 'ground', text=GROUND)
        self.assertEqual((found.bases, found.external, found.node_external), ([2, 4], [20, 22, 21, 25], [23]))

    def test_model_and_its_numbers(self):
        found = self.survey('--model', 'linear', '--nugget', '0.25', '--sill', '1.5', '--range', '333')
        self.assertEqual(found.variogram, (4, 0.25, 1.5, 333, 2.0 ** -52))

    @unittest.skipIf(sys.version_info < (3, 10), 'tools/reading asks for Python 3.10')
    def test_every_model(self):
        """The codes are those of section 12, and the listing is that of the other reading for the file that was kept."""
        for code, model in enumerate(('spherical', 'exponential', 'gaussian', 'linear'), 1):
            said = self.made(self.file(SIX), '--model', model, '--grid', '3x3', '--listing', '--survey', self.folder / 'kept.survey')
            kept = (self.folder / 'kept.survey').read_bytes()
            self.assertEqual(nakwemol.read_survey(kept).variogram.model, code)
            self.assertIn(f'--model {model} ', said)
            self.assertIn(printed(kept).decode(), said)

    def test_one_number_given(self):
        self.assertEqual(self.survey('--nugget', '0.125').variogram.nugget, 0.125)
        self.assertEqual(self.survey('--sill', '7').variogram.sill, 7)
        self.assertEqual(self.survey('--range', '55').variogram.range, 55)

    def test_said_numbers_give_the_same_again(self):
        said = self.made(self.file(SIX), '--grid', '5x5')
        first, words = self.rows(), said.split('Taken: ')[1].split('. ')[0].split()
        again = self.made(self.file(SIX), '--grid', '5x5', *words)
        self.assertNotIn('Taken', again)
        self.assertEqual(self.rows(), first)

    def test_regularization_and_tolerance(self):
        found = self.survey('--regularization', '1e-6', '--tolerance', '0.5')
        self.assertEqual((found.regularization, found.tolerance), (1e-6, 0.5))

    def test_figures_of_the_reference(self):
        """The scope's case B: 4 with variance 1.5 between 2 and 6."""
        wells, nodes = self.file('name,x,y,level\nA,0,0,2\nB,2,0,6\n'), self.file('name,x,y\n"here, there",1,0\n', 'nodes.csv')
        self.made(wells, '--nodes', nodes, '--nugget', '0', '--sill', '1', '--range', '1', '--regularization', '0', '--tolerance', '0')
        line = (self.folder / 'wells.map.csv').read_text().splitlines()[-1]
        self.assertEqual(line, f'"here, there",1,0,4,1.5,0,the arithmetic held,{1.5 ** 0.5!r},among the wells')

    def test_grid(self):
        """Four wells from (0, 0) to (100, 100): 5 by 4 nodes with a cell around them are 50 and 100 apart."""
        self.made(self.file(FOUR), *NUMBERS, '--grid', '5x4')
        places = [(float(row[1]), float(row[2])) for row in self.rows()]
        self.assertEqual(places, [(x, y) for y in (-100, 0, 100, 200) for x in (-50, 0, 50, 100, 150)])

    def test_small_grids(self):
        for grid, places in (('1x1', [(50, 50)]), ('2x1', [(0, 50), (100, 50)]), ('1x3', [(50, 0), (50, 50), (50, 100)])):
            self.made(self.file(FOUR), *NUMBERS, '--grid', grid)
            self.assertEqual([(float(row[1]), float(row[2])) for row in self.rows()], places)

    def test_default_grid(self):
        """100 m in the longer direction: cells of 3 m, the round size at or above 100 / 36, one of them or more around the wells."""
        self.made(self.file(FOUR), *NUMBERS)
        x, y = (sorted({float(row[i]) for row in self.rows()}) for i in (1, 2))
        self.assertEqual((x[0], x[1] - x[0], x[-1], len(x), y), (-3, 3, 105, 37, x))

    def test_wells_on_a_line_have_a_grid(self):
        self.made(self.file('x,y,level\n0,7,1\n36,7,2\n'), *NUMBERS)
        self.assertEqual(sorted({float(row[2]) for row in self.rows()}), [6, 7, 8])

    def test_survey_of_many_nodes_is_numbered(self):
        self.made(self.file(FOUR), *NUMBERS, '--grid', '15x15', '--survey', self.folder / 'kept.survey')
        kept = sorted(path.name for path in self.folder.glob('*.survey'))
        self.assertEqual(kept, ['kept.000001.survey', 'kept.000002.survey', 'kept.000003.survey'])
        nodes = [len(nakwemol.read_survey((self.folder / name).read_bytes()).nodes) // 2 for name in kept]
        self.assertEqual(nodes, [100, 100, 25])

    def test_listing(self):
        said = self.made(self.file(FOUR), *NUMBERS, '--grid', '11x10', '--listing', '--survey', self.folder / 'kept.survey')
        kept = [path.read_bytes() for path in sorted(self.folder.glob('kept*'))]
        printed = b''.join(subprocess.run([program(print)], input=survey, stdout=subprocess.PIPE).stdout for survey in kept)
        self.assertEqual(printed.count(b'\n'), 116)
        self.assertTrue(said.startswith(printed.decode()), said[:200])

    def test_jobs(self):
        tables = []
        for jobs in '1', '3':
            self.made(self.file(FOUR), *NUMBERS, '--grid', '30x30', '--jobs', jobs)
            tables.append((self.folder / 'wells.map.csv').read_bytes())
        self.assertEqual(tables[0], tables[1])

    def test_jobs_are_as_many_as_asked(self):
        """A program that waits, for a while, until two of it run, and notes how many there are."""
        listing = 'nodes 100\n' + ''.join(f'{i + 1} 4010000000000000 0000000000000000 0\n' for i in range(100)) + ENDING
        runs, many, kept = (self.folder / name for name in ('runs', 'many', 'listing'))
        runs.mkdir()
        kept.write_text(listing)
        self.program(f'cat > /dev/null; : > {runs}/$$; i=0; while [ $i -lt 20 ] && [ $(ls {runs} | wc -l) -lt 2 ]; do sleep 0.02; i=$((i+1)); done\n'
                     f'ls {runs} | wc -l >> {many}; sleep 0.05; rm {runs}/$$; cat {kept}')
        for jobs in 1, 2:
            self.made(self.file(FOUR), *NUMBERS, '--grid', '20x10', '--jobs', jobs)
            self.assertEqual(max(map(int, many.read_text().split())), jobs)
            many.unlink()

    def test_progress(self):
        with mock.patch.object(bar, 'WAIT', 0.0), mock.patch.object(bar, 'EVERY', 0.0):
            _, _, shown = self.command(self.file(FOUR), *NUMBERS, '--grid', '20x20', '--progress')
            self.assertIn('[##########                              ]  25 %  100 of 400 nodes', shown)
            self.assertEqual(self.command(self.file(FOUR), *NUMBERS, '--grid', '20x20')[2], '')

    def test_out(self):
        (self.folder / 'maps').mkdir()
        said = self.made(self.file(FOUR), *NUMBERS, '--grid', '3x3', '--out', self.folder / 'maps')
        self.assertEqual(sorted(path.name for path in (self.folder / 'maps').iterdir()), ['wells.html', 'wells.map.csv'])
        self.assertFalse((self.folder / 'wells.html').exists())
        self.assertIn(str(self.folder / 'maps' / 'wells.html'), said)

    def test_last_line(self):
        said = self.made(self.file(FOUR), *NUMBERS, '--grid', '3x3').splitlines()
        self.assertEqual(said[1:], [f'The arithmetic held at 9 of 9 nodes; nothing doubtful was found in the list: {self.folder}/wells.html and '
                                    f'{self.folder}/wells.map.csv'])
        self.assertTrue(said[0].startswith('The trend is a level of '), said[0])

    def test_launcher_from_any_folder(self):
        self.file(FOUR)
        words = [str(ROOT / 'map'), 'wells.csv', *NUMBERS, '--grid', '3x3']
        ended = subprocess.run(words, cwd=self.folder, stdout=subprocess.PIPE, env={**os.environ, 'PYTHONDONTWRITEBYTECODE': '1'})
        self.assertEqual((ended.returncode, ended.stdout.splitlines()[-1]),
                         (0, b'The arithmetic held at 9 of 9 nodes; nothing doubtful was found in the list: wells.html and wells.map.csv'))


class Told(unittest.TestCase):
    def test_every_option_is_in_the_guide(self):
        told = guide()
        for action in parser()._actions:
            for word in action.option_strings:
                self.assertTrue(word in ('-h', '--help') or f'`{word}' in told, word)


class WrongUse(Folder):
    """Status 2, a sentence, and no file."""

    def test_words(self):
        wells = self.file(FOUR)
        for words, said in (
            ((), 'name the list of wells'),
            ((wells, '--grid', '40'), 'such as 40x30'),
            ((wells, '--grid', '0x5'), 'such as 40x30'),
            ((wells, '--grid', '9999x9999'), 'more than 10,000,000 nodes'),
            ((wells, '--trend', 'cubic'), 'invalid choice'),
            ((wells, '--model', 'cubic'), 'invalid choice'),
            ((wells, '--nugget', '-1'), 'not a number at or above 0'),
            ((wells, '--sill', '0'), 'not a number above 0'),
            ((wells, '--range', 'far'), 'not a number above 0'),
            ((wells, '--range', 'nan'), 'not a number above 0'),
            ((wells, '--sill', '1e300'), 'it is too large'),
            ((wells, '--jobs', '0'), 'say 1 or more'),
            ((wells, '--origin', 'here'), 'invalid choice'),
            ((wells, '--nodes', wells, '--grid', '2x2'), 'leave one out'),
            ((wells, '--sheets', 'a', '--listing'), 'leave out --survey, --listing'),
            ((wells, '--sheets', 'a', '--survey', 'b'), 'leave out --survey, --listing'),
            ((wells, '--sheets', 'a', '--out', 'b'), 'leave out --survey, --listing and --out'),
            ((wells, '--collect', 'a'), 'leave out the list of wells'),
            (('--collect', 'a', '--grid', '2x2'), 'leave out --grid'),
            (('--collect', 'a', '--trend', 'linear', '--sill', '2', '--listing'), 'leave out --trend, --sill, --listing'),
            (('--collect', 'a', '--skip-unreadable', '--anyway'), 'leave out --skip-unreadable, --anyway'),
        ):
            self.assertIn(said, self.refused(*words, status=2), words)
