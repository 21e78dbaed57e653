"""Numbers as people write them: decimal commas, thousands, units behind them; and what cannot be told is refused."""
import random

from mapper.errors import Stop
from mapper.lists.nodes import read_nodes
from mapper.tests.list_folder import ListFolder


COUNTRIES = ('.', ''), ('.', ','), ('.', "'"), ('.', ' '), (',', ''), (',', '.'), (',', ' ')  # the decimal mark, and what parts thousands
WAYS = [(separator, *marks) for separator in ',;\t' for marks in COUNTRIES if (separator, marks[0]) != (',', ',')]


class Marks(ListFolder):
    def test_decimal_comma(self):
        for separator in ';\t':
            text = 'name;x;y;level\nA;4512300,5;5403200;31,25\nB;4512400;5403300,75;-,5\n'.replace(';', separator)
            self.assertEqual(self.numbers(text), [(4512300.5, 5403200, 31.25), (4512400, 5403300.75, -0.5)])

    def test_thousands(self):
        for x in ('"4,512,300.5"', "4'512'300.5", '4’512’300.5', '4 512 300.5', '4\u00a0512\u00a0300.5', '4\u2009512\u202f300.5'):
            self.assertEqual(self.numbers(f'name,x,y,level\nA,{x},200,31.25\n'), [(4512300.5, 200, 31.25)], x)
        for x in ('4.512.300,5', '4 512 300,5', '4\u202f512\u202f300,5', "4'512'300,5"):
            self.assertEqual(self.numbers(f'name;x;y;level\nA;{x};5.403.200;31,25\n'), [(4512300.5, 5403200, 31.25)], x)

    def test_several_marks_part_thousands(self):
        self.assertEqual(self.numbers('name;x;y;level\nA;4.512.300;403.200;31\n'), [(4512300, 403200, 31)])
        self.assertEqual(self.numbers('name,x,y,level\nA,"4,512,300","403,200",31\n'), [(4512300, 403200, 31)])

    def test_one_field_decides_for_all(self):
        self.assertEqual(self.numbers('name;x;y;level\nA;4,512;5,403;31\nB;4,600;5,500;31,25\n'), [(4.512, 5.403, 31), (4.6, 5.5, 31.25)])
        self.assertEqual(self.numbers('name;x;y;level\nA;4,512;5,403;31\nB;4,600;5,500;31.25\n'), [(4512, 5403, 31), (4600, 5500, 31.25)])
        self.assertEqual(self.numbers('name;x;y;level\nA;4.512;5.403;31,25\n'), [(4512, 5403, 31.25)])
        self.assertEqual(self.numbers('name;x;y;level\nA;0,512;5,403;31\n'), [(0.512, 5.403, 31)])
        self.assertEqual(self.numbers('name,x,y,level\nA,"4,512","5,403",31.25\n'), [(4512, 5403, 31.25)])

    def test_what_cannot_be_told(self):
        self.ends('name;x;y;level\nA;4,512;5,403;31\n', 'line 2: x is 4,512: 4.512 with a decimal comma, or 4512 with a comma between thousands',
                  'Write 4.512 or 4512', '    A;4,512;5,403;31')
        self.stops('name,x,y,level\nA,"4,512",2,3\n', '4.512 with a decimal comma, or 4512')

    def test_both_marks(self):
        self.ends('name;x;y;level\nA;4512,5;5403;31\nB;4512;5403.25;31\n', 'line 3: the list has a decimal comma in line 2 (4512,5) and a decimal point in '
                  'line 3 (5403.25)')

    def test_decimal_comma_beside_commas(self):
        self.ends('name,x,y,level\nA,100,200,"31,25"\n', 'line 2: level has a decimal comma, 31,25; write it with a decimal point, 31.25')
        self.ends('name,x,y,level\nA,4512300,5,2,3\n', 'line 2', '5 fields, where the header has 4', 'decimal comma')

    def test_points_that_may_part_thousands(self):
        self.doubt('name;x;y;level\nA;512.300;403.200;31\n', 'x in line 2, 512.300, is taken as 512.3', 'such as 512300')
        self.assertEqual(self.numbers('name;x;y;level\nA;512.300;403.200;31.5\n'), [(512.3, 403.2, 31.5)])
        self.assertEqual(self.numbers('name,x,y,level\nA,512.300,403.200,31\n'), [(512.3, 403.2, 31)])
        self.assertEqual(self.numbers('name;x;y;level\nA;512;403;1.250\nB;514;401;31.250\n'), [(512, 403, 1.25), (514, 401, 31.25)])
        self.doubt('name;x;y;level\nA;512;403;1.250\n', 'level in line 2, 1.250, is taken as 1.25', 'such as 1250')

    def test_no_number(self):
        for cell in ('4,51,300.5', '1.2.3', '12 34', '4 51 300', '1,2,3', '3..5', '~31', '<31', '31*'):
            self.stops(f'name;x;y;level\nA;1.5;2;{cell}\n', f'level is not a number: {cell}')

    def test_true_minus(self):
        self.assertEqual(self.numbers('name,x,y,level\nA,−100.5,200,–3.5\n'), [(-100.5, 200, -3.5)])

    def test_further_columns(self):
        self.assertEqual(self.wells('name;x;y;level;casing\nA;1;2;3,5;0,75\nB;3;4;3,5;12.5\n')[0].more, {'casing': 0.75})
        self.assertEqual(self.wells('name;x;y;level;casing\nA;1;2;3,5;0,75\nB;3;4;3,5;12.5\n')[1].more, {})

    def test_nodes(self):
        nodes, outside = read_nodes(self.file('x;y;ground\n4.512.300,5;5403200;208,5\n'), 'ground')
        self.assertEqual((list(nodes.x), list(nodes.y), list(outside)), ([4512300.5], [5403200], [208.5]))
        self.nodes_stop('x;y\n4,512;5,403\n', 'x is 4,512')

    def test_rounded_by_a_spreadsheet(self):
        text = 'name,x,y,level\nA,4.51E+06,5403200,31\nB,4.52E+06,5403300,32\n'
        self.doubt(text, 'x of A (line 2) is written 4.51E+06, rounded to 10,000 m', '1 other place')
        self.doubt('name,x,y,level\nA,4.51E+06,5403200,31\n', 'rounded to 10,000 m. Show the column with all its figures')
        self.assertEqual(self.numbers('name,x,y,level\nA,4.5123005E+06,5403200,31\n'), [(4512300.5, 5403200, 31)])


def put(number, decimals, decimal, thousands):
    """A number as a spreadsheet of some country writes it."""
    return f'{number:,.{decimals}f}'.translate({ord(','): thousands, ord('.'): decimal})


class ReadBack(ListFolder):
    def test_never_another_number(self):
        """Numbers of any size, written in every way: each is read as it was, or the list is refused or doubted."""
        rng, read = random.Random(29), 0
        for turn in range(600):
            (separator, decimal, thousands), decimals, size = WAYS[turn % len(WAYS)], rng.randint(0, 3), rng.choice((1e2, 1e4, 1e6))
            wells = [tuple(round(rng.uniform(1, most), decimals) for most in (size, size, 1500)) for _ in range(rng.randint(1, 4))]
            text = ''.join(separator.join(f'"{put(number, decimals, decimal, thousands)}"' for number in well) + '\n' for well in wells)
            try:
                found = self.list(f'x{separator}y{separator}level\n{text}')
            except Stop as stop:
                self.assertIn('no other number of the list tells which', str(stop), text)
                continue
            if found.doubts:
                self.assertIn('nothing in the list tells whether its points part thousands', found.doubts[0].sentence, text)
                continue
            read += 1
            self.assertEqual([(well.x, well.y, well.level) for well in found.wells], wells, text)
        self.assertGreater(read, 480)


class UnitsInFields(ListFolder):
    def test_metres(self):
        self.assertEqual(self.numbers('name,x,y,level\nA,100 m,200m,199.3 m\n'), [(100, 200, 199.3)])
        self.assertEqual(self.numbers('name,x,y,level [m]\nA,100,200,199.3 m NN\n'), [(100, 200, 199.3)])

    def test_the_header_has_to_say_feet(self):
        self.ends('name,x,y,level\nA,100,200,655 ft\n', 'line 2: level is in feet here, 655 ft, and its header says no unit', 'such as [ft]')
        self.assertEqual(self.numbers('name,x [m],y [m],level [ft]\nA,100,200,1000 ft\n'), [(100, 200, 304.8)])

    def test_contradiction(self):
        self.ends('name,x [m],y [m],level [ft]\nA,100,200,199.3 m\n', 'line 2: level [ft] is in metres here, 199.3 m, and the header says feet')
        self.stops('name,x,y,level [m]\nA,100,200,"31\'"\n', "level [m] is in feet here, 31', and the header says metres")

    def test_no_unit(self):
        for cell in ('0x10', '31 bar', '31 below', '3.4 m bgl', '31 m/s'):
            self.stops(f'name,x,y,level\nA,1,2,{cell}\n', f'level is not a number: {cell}')
