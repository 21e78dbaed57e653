"""--near, and what is said of a list with more wells than are taken: 96, or 48 where the program is to be run."""
import re
import time

from mapper.nearest_wells import middle, nearest_wells
from mapper.records import Well
from mapper.tests.support import FOUR, NUMBERS, Folder

ROW = 'name,x,y,level\n' + ''.join(f'W{i + 1},{100 * i},{50 * (i % 3)},{10 + 0.1 * i:.1f}\n' for i in range(108))  # 10.7 km to the east


class Near(Folder):
    def test_too_many(self):
        said = self.refused(self.file(ROW), *NUMBERS)
        self.assertIn('Refused (9). This is more than is taken: at most 96 wells', said)
        self.assertIn('This list has 108 wells. --near X,Y takes the 96 nearest to a place: --near 5400,50, for example, which is the middle of the list, '
                      'leaves out W1, W2, W3, W4 and 8 more.', said)

    def test_too_many_for_a_place(self):
        said = self.refused(self.file(ROW), *NUMBERS, '--at', '10700,0')
        self.assertIn('--near 10700,0, for example, which is the place asked for, leaves out W1, W2, W3, W4 and 8 more.', said)

    def test_degrees_come_first(self):
        """What ends the run whichever wells are taken is told before their number."""
        rows = ''.join(f'{7 + 0.01234 * i:.5f},{46 + 0.00567 * (i % 9):.5f},{400 + i % 11}\n' for i in range(108))
        self.assertIn('look like degrees', self.refused(self.file('x,y,level\n' + rows)))

    def test_a_long_list_is_refused_at_once(self):
        rows = ''.join(f'{37 * i % 9973},{61 * i % 9967},{i % 7}\n' for i in range(9000))
        began = time.monotonic()
        self.assertIn('This list has 9,000 wells.', self.refused(self.file('x,y,level\n' + rows)))
        self.assertLess(time.monotonic() - began, 5)

    def test_the_nearest_are_taken(self):
        """From the west end to 9.5 km east; the 96th well stands 100 m north of the row."""
        said = self.made(self.file(ROW), *NUMBERS, '--near', '0,0', '--grid', '3x3')
        note = ('Of the 108 wells in the list the 96 nearest to 0,0 are taken, as asked by --near: the farthest of them is 9.5 km away. '
                '12 wells are left out: W97, W98, W99, W100 and 8 more.')
        self.assertIn(note, said)
        page = (self.folder / 'wells.html').read_text()
        self.assertIn('12 wells are left out', page.replace('<span class="option">--near</span>', '--near'))
        self.assertIn('W96', page)
        self.assertNotIn('>W98<', page)

    def test_all_where_there_are_no_more(self):
        said = self.made(self.file(FOUR), *NUMBERS, '--near', '-10,-20', '--grid', '3x3')
        self.assertIn('--near -10,-20 changes nothing: all 4 wells of the list are taken.', said)

    def test_beside_at(self):
        said = self.made(self.file(ROW), *NUMBERS, '--near', '10700,0', '--at', '10550,45')
        self.assertIn('At (10550, 45), among the wells: 19.5', said)

    def test_in_the_order_of_the_list(self):
        wells = [Well(str(i), 37 * i % 100, 61 * i % 97, 0) for i in range(200)]
        away = lambda well: (well.x - 50) ** 2 + (well.y - 50) ** 2
        for most, (taken, left) in ((96, nearest_wells(wells, (50, 50))), (48, nearest_wells(wells, (50, 50), 48))):
            self.assertEqual((len(taken), len(left)), (most, 200 - most))
            self.assertEqual([well.name for well in taken], sorted((well.name for well in taken), key=int))
            self.assertLessEqual(max(map(away, taken)), min(map(away, left)))

    def test_what_is_advised_works(self):
        wells = self.file('x,y,level\n' + ''.join(f'{4512300.25 + 37 * i % 100},{5403200.75 + 61 * i % 97},{i % 7}\n' for i in range(98)))
        words = re.search(r'--near [0-9]+,[0-9]+', self.refused(wells, *NUMBERS)).group().split()
        self.assertIn(f'the 96 nearest to {words[1]} are taken', self.made(wells, *NUMBERS, *words, '--grid', '2x2'))

    def test_the_middle_is_a_round_place(self):
        for wide, high, wanted in ((900.0, 2.0, (4512750, 5403201)), (2.0, 900.0, (4512301, 5403650)), (8.0, 2.0, (4512304.1, 5403201.1))):
            wells = [Well('', 4512300.0625 + wide * part, 5403200.0625 + high * part, 0) for part in (0, 0.5, 1)]
            self.assertEqual(middle(wells), wanted)

    def test_a_place_that_is_none(self):
        self.assertIn('5 is no place; say x and y with a comma', self.refused(self.file(FOUR), '--near', '5', status=2))
