"""Large maps: sheets in a folder, run by another, and collected: the same page and the same table as the direct way."""
import json
import os
import re
import subprocess
from unittest import mock

from mapper.runs.building import program
from mapper.tests.support import FOUR, NUMBERS, SAMPLES, Folder, guide, nakwemol

GRID = (*NUMBERS, '--grid', '15x15')
FAR = 'x,y,level\n7000,7000,10\n7100,7000,11\n7000,7100,12.5\n7090,7080,12\n'


class SheetFolder(Folder):
    def sheets(self, *words, wells=None):
        """Writes sheets, and gives their folder and what was said."""
        said = self.made(wells or self.file(FOUR), *words, '--sheets', self.folder / 'sheets')
        return self.folder / 'sheets', said

    def run_all(self, folder):
        """Every sheet, by the array job of mapper/README.md: its first task."""
        (job,) = re.findall('```sh\n(.*?)```', guide(), re.S)
        script = job.replace('target/bin/wellmap', program(print)).replace('DIR', str(folder))
        subprocess.run(['sh', '-eu', '-c', script], env={**os.environ, 'SLURM_ARRAY_TASK_ID': '0'}, check=True)

    def same_both_ways(self, wells, *words):
        self.made(wells, *words)
        title = wells.rsplit('/', 1)[1][:-4]
        direct = [(self.folder / f'{title}{ending}').read_bytes() for ending in ('.html', '.map.csv')]
        folder, _ = self.sheets(*words, wells=wells)
        self.run_all(folder)
        self.made('--collect', folder)
        self.assertEqual([(folder / f'{title}{ending}').read_bytes() for ending in ('.html', '.map.csv')], direct)

    def test_grid(self):
        self.same_both_ways(self.file(FOUR), *GRID)

    def test_fitted_and_moved(self):
        wells = self.file((SAMPLES / 'valley.csv').read_bytes(), 'valley.csv')
        self.same_both_ways(wells, '--trend', 'quadratic', '--origin', 'moved')

    def test_list_of_nodes(self):
        text = 'name,x,y\n' + ''.join(f'"N, ""{i}"";",{i % 10 * 9.1},{i // 10 * 0.1}\n' for i in range(130))
        self.same_both_ways(self.file(FOUR), *NUMBERS, '--nodes', self.file(text, 'nodes.csv'), '--origin', 'as-entered')

    def test_external(self):
        wells = self.file((SAMPLES / 'valley.csv').read_bytes(), 'valley.csv')
        self.same_both_ways(wells, '--external', 'ground', '--nodes', SAMPLES / 'valley_nodes.csv', '--origin', 'as-entered')

    def test_parallel_as_the_guide_has_it(self):
        """Its line, with a script that puts `{}` and `{.}` in place as GNU parallel does."""
        (line,) = re.findall(r"^    (find DIR .*)$", guide(), re.M)
        script = '#!/bin/sh\nwhile read -r f; do sh -c "$(printf "%s" "$1" | sed "s|{}|$f|; s|{\\.}|${f%.*}|")" || exit; done\n'
        (self.folder / 'parallel').write_text(script)
        (self.folder / 'parallel').chmod(0o755)
        folder, _ = self.sheets(*GRID)
        line = line.replace('target/bin/wellmap', program(print)).replace('DIR', str(folder))
        subprocess.run(['sh', '-eu', '-c', line], env={**os.environ, 'PATH': f'{self.folder}:{os.environ["PATH"]}'}, check=True)
        self.assertIn('The arithmetic held at 225 of 225 nodes', self.made('--collect', folder))

    def test_what_is_in_the_folder(self):
        folder, said = self.sheets(*GRID)
        self.assertEqual(sorted(path.name for path in folder.iterdir()), ['000001.survey', '000002.survey', '000003.survey', 'map.json'])
        self.assertIn('225 nodes on 3 sheets in ', said)
        self.assertEqual(sum(len(nakwemol.read_survey(path.read_bytes()).nodes) for path in folder.glob('*.survey')), 450)
        self.assertFalse((self.folder / 'wells.html').exists())

    def test_origin_is_tried_on_one_sheet(self):
        """The valley loses its digits as entered: 100 of its 768 nodes are asked."""
        wells = self.file((SAMPLES / 'valley.csv').read_bytes(), 'valley.csv')
        folder, said = self.sheets('--trend', 'quadratic', wells=wells)
        self.assertIn('0 of 100 nodes spread over the map pass as entered, 100 with the origin moved to (4512300, 5403200). On the sheets: moved.', said)
        self.assertLess(max(nakwemol.read_survey((folder / '000001.survey').read_bytes()).coords), 1000)
        self.assertEqual(json.loads((folder / 'map.json').read_text())['origin'], [4512300, 5403200])

    def test_origin_as_entered_where_that_passes(self):
        _, said = self.sheets(*GRID, wells=self.file(FAR))
        self.assertIn('100 of 100 nodes spread over the map pass as entered. On the sheets: as entered.', said)

    def test_no_node_is_tried_where_the_origin_is_named(self):
        with mock.patch('mapper.making.run', side_effect=AssertionError):
            self.sheets(*GRID, '--origin', 'moved')

    def test_missing_listings_are_named(self):
        folder, _ = self.sheets(*GRID)
        self.run_all(folder)
        (folder / '000002.listing').unlink()
        self.assertIn('1 listing missing in', said := self.refused('--collect', folder))
        self.assertIn(': 000002.listing. Run their sheets', said)

    def test_many_missing(self):
        folder, _ = self.sheets(*NUMBERS, '--grid', '30x30')
        self.assertIn('9 listings missing', said := self.refused('--collect', folder))
        self.assertIn('000004.listing and 5 more.', said)

    def test_listing_cut_short(self):
        folder, _ = self.sheets(*GRID)
        self.run_all(folder)
        (folder / '000003.listing').write_bytes((folder / '000003.listing').read_bytes()[:300])
        self.assertIn('000003.listing is not whole', self.refused('--collect', folder))

    def test_listing_of_another_sheet(self):
        folder, _ = self.sheets(*GRID)
        self.run_all(folder)
        (folder / '000003.listing').write_bytes((folder / '000001.listing').read_bytes())
        said = self.refused('--collect', folder)
        self.assertIn('000003.listing is not whole: it does not have 25 nodes; it is the same byte for byte as 000001.listing. Run its sheet again.', said)

    def test_listing_with_another_trend(self):
        folder, _ = self.sheets(*GRID)
        self.run_all(folder)
        listing = (folder / '000003.listing').read_text()
        (folder / '000003.listing').write_text(re.sub('trend [0-9a-f]{16}', 'trend 4010000000000000', listing))
        self.assertIn('000003.listing is not whole: its trend is not that of the sheets before it', self.refused('--collect', folder))

    def test_the_trend_is_told(self):
        folder, _ = self.sheets(*GRID)
        self.run_all(folder)
        self.assertIn('The trend is a level of ', self.made('--collect', folder))

    def test_refused_listing(self):
        folder, _ = self.sheets(*GRID)
        self.run_all(folder)
        (folder / '000001.listing').write_text('refused 19\n')
        self.assertIn('000001.listing: Refused (19)', self.refused('--collect', folder))

    def test_folders_that_are_none(self):
        wells = self.file(FOUR)
        self.assertIn('not empty', self.refused(wells, *GRID, '--sheets', self.folder))
        self.assertIn('has no map.json', self.refused('--collect', self.folder))
        self.file('{"version": 7}', 'map.json')
        self.assertIn('not as --sheets writes it', self.refused('--collect', self.folder))

    def test_map_of_another_version(self):
        folder, _ = self.sheets(*GRID)
        self.run_all(folder)
        kept = json.loads((folder / 'map.json').read_text())
        for wrong in ({**kept, 'version': 1}, {**kept, 'version': 3}, {**kept, 'grid': {}}, {**kept, 'wells': 7}, [kept]):
            (folder / 'map.json').write_text(json.dumps(wrong))
            self.assertIn('not as --sheets writes it', self.refused('--collect', folder))

    def test_nothing_is_left_of_a_refusal(self):
        for wells in (self.file(FOUR), self.file(FAR, 'far.csv')):
            self.assertIn('Refused (5)', self.refused(wells, *GRID, '--regularization', '-1', '--sheets', self.folder / 'a'))

    def test_refused_both_ways(self):
        self.program('cat > /dev/null; echo refused 19')
        for wells in (self.file(FOUR), self.file(FAR, 'far.csv')):
            self.assertIn('Refused (19)', self.refused(wells, *GRID, '--sheets', self.folder / 'a'))
