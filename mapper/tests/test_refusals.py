"""What ends without a map: a sentence that says what to do, status 1, and no file."""
from unittest import mock

from mapper.runs.refusals import REFUSALS
from mapper.tests.support import ENDING, FOUR, NUMBERS, SAMPLES, Folder


def many(count):
    return 'name,x,y,level\n' + ''.join(f'W{i},{37 * i % 100},{61 * i % 97},{i % 7}\n' for i in range(count))


class ByTheProgram(Folder):
    def test_5_and_10(self):
        self.assertIn('Refused (5). The regularization is below zero', self.refused(self.file(FOUR), '--regularization', '-1'))
        self.assertIn('Refused (10). The tolerance is below zero', self.refused(self.file(FOUR), '--tolerance', 'nan'))

    def test_19_names_the_wells(self):
        """samples/singular: three wells, two at one spot, and r = 0."""
        wells = self.file('name,x,y,level\nUpper,0,0,5\nLower,0,0,5.5\nMill,3,1,7\n')
        said = self.refused(wells, '--nodes', self.file('x,y\n1,1\n', 'nodes.csv'), '--nugget', '0', '--sill', '1', '--range', '1', '--regularization', '0')
        self.assertEqual((SAMPLES / 'singular.listing').read_text(), 'refused 19\n')
        self.assertIn('Refused (19)', said)
        self.assertIn('These wells share a spot: Upper (line 2) and Lower (line 3).', said)

    def test_19_without_a_shared_spot(self):
        wells = self.file('name,x,y,level\nA,0,0,5\nB,1,0,5.5\nC,2,0,7\nD,3,0,7.5\n')
        said = self.refused(wells, *NUMBERS, '--trend', 'linear')
        self.assertIn('No two wells share a spot; look for all wells on one line', said)

    def test_every_number_has_its_words(self):
        for number in REFUSALS:
            self.program(f'cat > {self.folder}/taken; rm {self.folder}/taken; echo refused {number}')
            self.assertIn(f'Refused ({number}). {REFUSALS[number]}', self.refused(self.file(FOUR), *NUMBERS))

    def test_a_late_sheet(self):
        """Nothing is written when only the last of 30 sheets is refused: 25 nodes, where the others have 100."""
        self.program('size=$(wc -c); if [ "$size" -lt 1000 ]; then echo refused 11; else echo nodes 100; i=1; '
                     'while [ $i -le 100 ]; do echo $i 4010000000000000 0000000000000000 0; i=$((i+1)); done; printf "' + ENDING + '"; fi')
        self.assertIn('Refused (11)', self.refused(self.file(FOUR), *NUMBERS, '--grid', '45x45'))


class BeforeIt(Folder):
    def test_7(self):
        for count, trend, need in ((2, 'linear', 3), (5, 'quadratic', 6)):
            self.assertIn(f'The {trend} trend needs {need} wells; this list has {count}.', self.refused(self.file(many(count)), '--trend', trend))

    def test_9(self):
        said = self.refused(self.file(many(97)))
        self.assertIn('at most 96 wells (48 by the program wellmap, as for --sheets and --listing), 12 columns of the trend and 100 nodes a sheet', said)
        self.assertIn('This list has 97 wells.', said)

    def test_14(self):
        one, nodes = self.file(many(1)), self.file('x,y\n1,1\n', 'nodes.csv')
        self.assertIn('Refused (14)', self.refused(one, '--nodes', nodes))
        self.made(one, '--nodes', nodes, *NUMBERS)

    def test_grid_over_one_spot(self):
        self.assertIn('Name the nodes by --nodes', self.refused(self.file('x,y,level\n1,2,3\n1,2,4\n')))

    def test_external_needs_nodes(self):
        wells = self.file('x,y,level,ground\n1,2,3,4\n2,5,3,5\n4,4,4,4\n')
        self.assertIn('ground is known at the wells and not at the nodes of a grid', self.refused(wells, '--external', 'ground'))
        nodes = self.file('x,y\n1,1\n', 'nodes.csv')
        self.assertIn('nodes.csv has no column ground', self.refused(wells, '--external', 'ground', '--nodes', nodes))

    def test_bad_lists(self):
        said = self.refused(self.file('name,x,y,level\nA,1,2,3\nB,3,4,dry\n'))
        for words in ('wells.csv, line 3: level is not a number: dry;', '--skip-unreadable', '\n    B,3,4,dry'):
            self.assertIn(words, said)
        self.assertIn('decimal comma', self.refused(self.file('name,x,y,level\nA,1,2,"3,5"\n')))
        self.assertIn('line 2: x is missing', self.refused(self.file(FOUR), '--nodes', self.file('x,y\n,1\n', 'nodes.csv')))
        self.assertIn('cannot be read', self.refused(self.folder / 'none.csv'))


class Otherwise(Folder):
    def test_program_that_crashes(self):
        for script, said in (('exit 3', 'status 3'), ('kill -SEGV $$', 'signal SIGSEGV')):
            self.program(f'cat > /dev/null; {script}')
            self.assertIn(f'did not end well ({said})', self.refused(self.file(FOUR), *NUMBERS))

    def test_program_that_prints_no_listing(self):
        self.program('cat > /dev/null; echo hello')
        self.assertIn('printed no listing for sheet 1', self.refused(self.file(FOUR), *NUMBERS))

    def test_program_of_before_the_trend_lines(self):
        listing = 'nodes 9\n' + ''.join(f'{i + 1} 4010000000000000 0000000000000000 0\n' for i in range(9)) + 'coef 0000000000000000\n'
        self.program(f'cat > /dev/null; printf "{listing}"')
        said = self.refused(self.file(FOUR), *NUMBERS, '--grid', '3x3')
        self.assertIn('printed no listing for sheet 1: its coef lines (1) and trend lines (0) are not as many. Remove it, and it is built anew.', said)

    def test_program_whose_trend_goes_by_the_sheet(self):
        """Two sheets, of 100 nodes and of 21, with another level each."""
        self.program('size=$(wc -c); if [ "$size" -lt 1000 ]; then m=21; t=4; else m=100; t=5; fi; echo nodes $m; i=1; '
                     'while [ $i -le $m ]; do echo $i 4010000000000000 0000000000000000 0; i=$((i+1)); done; '
                     'echo coef 0000000000000000; echo trend 401${t}000000000000')
        said = self.refused(self.file(FOUR), *NUMBERS, '--grid', '11x11')
        self.assertIn('printed no listing for sheet 2: its trend is not that of the sheets before it', said)

    def test_program_that_is_none(self):
        self.program('')
        (self.folder / 'program').chmod(0o644)
        self.assertIn('cannot be run', self.refused(self.file(FOUR), *NUMBERS))

    def test_folder_that_is_not_there(self):
        self.assertIn('no folder', self.refused(self.file(FOUR), *NUMBERS, '--out', self.folder / 'none'))
        self.assertIn('cannot be written', self.refused(self.file(FOUR), *NUMBERS, '--survey', self.folder / 'none' / 'a.survey'))

    def test_list_that_the_page_would_write_over(self):
        self.assertIn('would be written over', self.refused(self.file(FOUR, 'wells.html'), *NUMBERS))

    def test_stopped_by_hand(self):
        with mock.patch('mapper.main.drawn_map', side_effect=KeyboardInterrupt):
            self.assertIn('stopped; nothing was written', self.refused(self.file(FOUR), *NUMBERS, status=130))
