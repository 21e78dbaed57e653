"""Listings are held to their surveys: what was copied, changed or made of other wells ends in a sentence, and leaves no map."""
import json
import re
import subprocess
from array import array
from unittest import mock

from mapper import progress
from mapper.lists.nodes import unanswered
from mapper.making import Made
from mapper.options import options
from mapper.records import Doubt, LeftOut, Source
from mapper.runs import reruns
from mapper.runs.building import program
from mapper.runs.by_program import printed
from mapper.runs.collecting import collected
from mapper.runs.kept_map import KeptMap, listed, read_listed
from mapper.runs.sheet_folder import write_sheets
from mapper.tests.support import FOUR, NUMBERS, SAMPLES, Folder, nakwemol

GRID = (*NUMBERS, '--grid', '20x20', '--origin', 'as-entered')  # four sheets of a hundred
SAME = 'name,x,y,level\nA,0,0,7\nB,1,0,7\nC,0,1,7\n'
DEAD = ('--nugget', '1', '--sill', '1', '--range', '1', '--origin', 'as-entered')  # nothing but nugget: every place away from the wells has one answer


class Reruns(Folder):
    def setUp(self):
        super().setUp()
        self.sheets = self.folder / 'sheets'

    def run_all(self, *words, wells=FOUR):
        """Writes sheets and runs each."""
        self.made(self.file(wells), *words, '--sheets', self.sheets)
        for survey in self.sheets.glob('*.survey'):
            survey.with_suffix('.listing').write_bytes(subprocess.run([program(print)], input=survey.read_bytes(), stdout=subprocess.PIPE).stdout)

    def listing(self, sheet):
        return self.sheets / f'{sheet:06}.listing'

    def copy(self, sheet, to):
        self.listing(to).write_bytes(self.listing(sheet).read_bytes())

    def test_what_is_run_again(self):
        """Three at least, one in fifty, the first and the last among them."""
        for sheets, chosen in ((1, [0]), (2, [0, 1]), (3, [0, 1, 2]), (4, [0, 2, 3]), (150, [0, 74, 149]), (151, [0, 50, 100, 150])):
            self.assertEqual(reruns.spread(sheets), chosen)
        found = reruns.spread(10000)
        self.assertEqual((len(set(found)), found[0], found[-1]), (200, 0, 9999))
        self.assertLessEqual(max(b - a for a, b in zip(found, found[1:])), 51)

    def test_right_ones(self):
        self.run_all(*GRID)
        self.assertIn('Held to the program by running sheets again: 3 of 4 listings, and it prints the same.\n', self.made('--collect', self.sheets))

    def test_copied_listing(self):
        """Of a sheet that would not be run again; the other's figures are no damage, and the same trend stands below them."""
        self.run_all(*GRID)
        self.copy(1, to=2)
        said = self.refused('--collect', self.sheets)
        self.assertIn(f'000002.listing in {self.sheets} is not what the program prints for its sheet; 4 of 4 listings were tried. '
                      '000002.listing is that of sheet 1. Run it again with this program, ', said)
        self.assertTrue(said.endswith('; then collect again.\n'))

    def test_listing_in_place_of_one_before_it(self):
        self.run_all(*GRID)
        self.copy(4, to=2)
        self.copy(4, to=3)
        said = self.refused('--collect', self.sheets)
        self.assertIn('000002.listing and 000003.listing in ', said)
        self.assertIn('are not what the program prints for their sheets', said)
        self.assertIn('000002.listing and 000003.listing are that of sheet 4. Run them again', said)

    def test_one_figure_changed(self):
        """A level of sheet 3 that is a metre or so off: its pattern's last digit of the exponent's byte."""
        self.run_all(*GRID)
        lines = self.listing(3).read_text().split('\n')
        number, level, *rest = lines[7].split(' ')
        lines[7] = ' '.join([number, level[:3] + ('0' if level[3] != '0' else '1') + level[4:], *rest])
        self.listing(3).write_text('\n'.join(lines))
        self.assertIn('000003.listing in ', self.refused('--collect', self.sheets))

    def test_same_and_wrong_alike(self):
        """Both are copies of a listing that is none of these sheets'."""
        self.run_all(*GRID)
        text = re.sub('^5 [0-9a-f]{16}', '5 4024000000000000', self.listing(1).read_text(), flags=re.M)
        for sheet in 1, 2:
            self.listing(sheet).write_text(text)
        self.assertIn('000001.listing and 000002.listing are the same byte for byte. Run them again', self.refused('--collect', self.sheets))

    def test_same_and_right(self):
        """Where every place has one answer all listings are the same; each is run again, and the page says so."""
        self.run_all(*DEAD, '--nodes', self.file('x,y\n' + ''.join(f'{50 + i},90\n' for i in range(500)), 'nodes.csv'), wells=SAME)
        said = self.made('--collect', self.sheets)
        self.assertIn('again: 5 of 5 listings, and it prints the same.', said)
        note = '000001.listing, 000002.listing, 000003.listing, 000004.listing and 1 more are the same byte for byte; their sheets were run again, '
        self.assertIn(note + 'and it is right.', said)
        self.assertIn(note, (self.sheets / 'wells.html').read_text(encoding='utf-8'))

    def test_nodes_that_are_listed_twice(self):
        """Six sheets, and the same six again: pairs of listings are alike, of which five are named."""
        once = ''.join(f'{i % 30},{i // 30}\n' for i in range(600))
        self.run_all(*NUMBERS, '--origin', 'as-entered', '--nodes', self.file('x,y\n' + once + once, 'nodes.csv'))
        said = self.made('--collect', self.sheets)
        self.assertIn('000005.listing and 000011.listing are the same byte for byte; their sheets were run again, and it is right.\n', said)
        self.assertIn('The same holds for 1 more set of listings.\n', said)
        self.assertNotIn('000006.listing', said)

    def test_listings_of_other_wells(self):
        """The whole folder's listings are those of another list: nothing in them contradicts itself."""
        self.run_all(*GRID)
        kept = json.loads((self.sheets / 'map.json').read_text())
        kept['wells'][1]['level'] = 14
        (self.sheets / 'map.json').write_text(json.dumps(kept))
        said = self.refused('--collect', self.sheets)
        self.assertIn('000001.listing, 000003.listing and 000004.listing in ', said)
        self.assertIn('000001.survey is not that of map.json either: write the sheets anew, and run them all.', said)

    def test_bar(self):
        self.run_all(*GRID)
        with mock.patch.object(progress, 'WAIT', 0.0), mock.patch.object(progress, 'EVERY', 0.0):
            _, _, shown = self.command('--collect', self.sheets, '--progress', '--jobs', '1')
        self.assertIn('run again [', shown)
        self.assertIn('100 of 300 nodes', shown)


class Kept(Folder):
    """What is made anew is what was written."""

    def same_sheets(self, *words):
        folder = self.folder / 'sheets'
        self.made(*words, '--origin', 'as-entered', '--sheets', folder)
        sheets = KeptMap(folder).sheets()
        self.assertEqual([sheets[k] for k in range(len(sheets))], [path.read_bytes() for path in sorted(folder.glob('*.survey'))])
        return folder

    def test_grid(self):
        self.same_sheets(SAMPLES / 'valley.csv', '--trend', 'quadratic')

    def test_external_column(self):
        folder = self.same_sheets(SAMPLES / 'valley.csv', '--external', 'ground', '--nodes', SAMPLES / 'valley_nodes.csv')
        nodes, outside = read_listed(folder / 'nodes.csv', 'ground')
        self.assertEqual(len(outside), len(nodes))
        self.assertEqual(list(outside[:100]), nakwemol.read_survey((folder / '000001.survey').read_bytes()).node_external)

    def test_names_that_a_reader_of_lists_would_take_for_something_else(self):
        names, numbers = ['# 1', '"a", b', 'dry', '199,5', '', 'x', 'two\nlines'], array('d', [0.1, 1 / 3, -0.0, 1e-300, 4512345.6, 1e15, 7])
        written = self.file(''.join(listed(unanswered(numbers, numbers[::-1], names), numbers)))
        nodes, outside = read_listed(written, 'ground (ft)')
        self.assertEqual((nodes.names, nodes.x, nodes.y, outside), (names, numbers, numbers[::-1], numbers))

    def test_doubts_and_where_it_comes_from(self):
        """A collected map has them as the direct one would."""
        made = Made(options([self.file(FOUR), '--grid', '5x5', '--nugget', '0.5', '--origin', 'as-entered']), lambda sentence: None)
        made.doubts = [Doubt('B (line 3) is far from the others; look at its x.'), Doubt('The levels are depths.', True)]
        made.left_out = [LeftOut(10.25, 0.125), LeftOut(None), LeftOut(1 / 3, 2.0), LeftOut(12.0, 1.0)]
        made.source = Source('wells.csv', '0' * 64, 'f' * 64, '2026-11-17')
        folder = self.folder / 'sheets'
        write_sheets(made, folder)
        (folder / '000001.listing').write_bytes(printed(program(print), (folder / '000001.survey').read_bytes()))
        m = collected(folder, tell=lambda sentence: None)
        self.assertEqual((m.doubts, m.left_out, m.source), (made.doubts, made.left_out, made.source))
        self.assertEqual(m.variogram, made.survey.variogram)
        self.assertEqual((m.variogram.how, m.variogram.given), ('plain', ['nugget']))

    def test_lists_that_are_not_as_they_were_written(self):
        folder = self.same_sheets(self.file(FOUR), *NUMBERS, '--nodes', self.file('x,y\n1,2\n3,4\n', 'nodes.csv'))
        for text in ('', 'x,y\n', 'x;y\n1;2\n3;4\n', 'x,y\n1,2\n3\n', 'x,y\n1,2\n3,4,5\n', 'x,y\n1,2\n3,"4\n', 'x,y\n1,2\n3,four\n',
                     'x,y,external\n1,2,3\n4,5,6\n'):
            (folder / 'nodes.csv').write_text(text)
            said = self.refused('--collect', folder)
            self.assertTrue('nodes.csv is not as --sheets writes it' in said or 'nodes.csv has 0 nodes, and map.json says 2' in said, (text, said))
        (folder / 'nodes.csv').unlink()
        self.assertIn('nodes.csv cannot be read', self.refused('--collect', folder))
