"""Lists of wells and nodes as spreadsheets write them, and each wrong line with its sentence."""
import codecs

from mapper.errors import Stop
from mapper.lists.nodes import read_nodes
from mapper.lists.wells import ListOptions, read_wells
from mapper.records import Well
from mapper.tests.support import Folder

TWO = [Well('A', 4512300.5, 5403200.0, 31.25), Well('B', 4512400.0, 5403300.0, 30.0)]


class Lists(Folder):
    def wells(self, text, external=None):
        return read_wells(self.file(text), ListOptions(external)).wells

    def test_separators(self):
        for separator in ',;\t':
            text = 'name,x,y,level\nA,4512300.5,5403200,31.25\nB,4512400,5403300,30\n'.replace(',', separator)
            self.assertEqual(self.wells(text), TWO)

    def test_marks_and_line_ends(self):
        text = 'name,x,y,level\r\nA,4512300.5,5403200,31.25\r\nB,4512400,5403300,30'
        self.assertEqual(self.wells(codecs.BOM_UTF8 + text.encode()), TWO)
        self.assertEqual(read_wells(self.file(codecs.BOM_UTF8 + b'ground,x,y,level\n1,2,3,4\n'), ListOptions('ground')).external, 'ground')
        self.assertEqual(self.wells(codecs.BOM_UTF16_LE + text.encode('utf-16-le')), TWO)
        self.assertEqual(self.wells(text.replace('\r\n', '\r')), TWO)

    def test_windows_letters(self):
        self.assertEqual(self.wells('name,x,y,level\nMühle,1,2,3\n'.encode('cp1252'))[0].name, 'Mühle')

    def test_any_order_and_other_names(self):
        self.assertEqual(self.wells('Head [m];Northing;ID;EASTING\n31.25;5403200;A;4512300.5\n30;5403300;B;4512400\n'), TWO)
        self.assertEqual(self.wells('Water level (m),Well,East,North\n31.25,A,4512300.5,5403200\n30,B,4512400,5403300\n'), TWO)

    def test_level_goes_before_head(self):
        self.assertEqual(self.wells('x,y,head,level\n1,2,3,4\n'), [Well('1', 1, 2, 4, {'head': 3.0})])

    def test_quotes_blank_lines_and_spaces(self):
        text = '\n"name", x ,y,level\n"Mill, the old ""one""", 1 ,2,3\n\n,,,\n  \nB,+4.5,-.5,1e2\n'
        self.assertEqual(self.wells(text), [Well('Mill, the old "one"', 1, 2, 3), Well('B', 4.5, -0.5, 100)])

    def test_wells_without_names_are_counted(self):
        self.assertEqual([well.name for well in self.wells('x,y,level\n1,2,3\n4,5,6\n')], ['1', '2'])
        self.assertEqual([well.name for well in self.wells('name,x,y,level\n,1,2,3\nB,4,5,6\n')], ['1', 'B'])

    def test_further_columns(self):
        text = 'name,x,y,level,Ground height,casing\nA,1,2,3,207.5,PVC\nB,4,5,6,208,12\n'
        self.assertEqual([well.more for well in self.wells(text)], [{'Ground height': 207.5}, {'Ground height': 208.0, 'casing': 12.0}])
        self.assertEqual(read_wells(self.file(text), ListOptions('ground_height')).external, 'Ground height')

    def test_nodes(self):
        nodes, outside = read_nodes(self.file('ground,x,y\n7,1,2\n8,3,4\n'), 'Ground')
        self.assertEqual((list(nodes.x), list(nodes.y), list(outside), nodes.names), ([1, 3], [2, 4], [7, 8], None))
        nodes, outside = read_nodes(self.file('name,x,y\nN1,1,2\n'))
        self.assertEqual((nodes.names, len(outside), list(nodes.verdict)), (['N1'], 0, [0]))


class WrongLists(Folder):
    def says(self, text, *words, external=None, read=read_wells):
        with self.assertRaises(Stop) as stopped:
            read(self.file(text), ListOptions(external) if read is read_wells else external)
        for word in words:
            self.assertIn(word, str(stopped.exception))

    def test_bad_line_is_shown_with_its_number(self):
        self.says('name,x,y,level\nA,1,2,3\n\nB,4,five,6\n', 'wells.csv, line 4:', 'y is not a number: five', '\n    B,4,five,6')
        for cell in ('nan', 'inf', '0x10', '1_000', '--', '1 2'):
            self.says(f'name;x;y;level\nA;1;2;{cell}\n', 'line 2', f'level is not a number: {cell}')

    def test_missing_and_too_large(self):
        self.says('name,x,y,level\nA,1,2,\n', 'line 2', 'level is missing')
        self.says('name,x,y,level\nA,1\n', 'line 2', 'y is missing')
        for cell in ('1e999', '-1e16'):
            self.says(f'name,x,y,level\nA,1,2,{cell}\n', 'line 2', f'level is too large: {cell}')

    def test_line_number_after_a_name_of_two_lines(self):
        self.says('name,x,y,level\n"A\nB",1,2,3\nC,x,2,3\n', 'line 4:', '    C,x,2,3')
        self.says('name,x,y,level\n"A\nB",q,2,3\n', 'line 2:', '    "A\nB",q,2,3')

    def test_quotation_mark_without_its_half(self):
        self.says('name,x,y,level\n"A,1,2,3\nB,4,5,6\n', 'line 2', 'quotation mark')

    def test_headers(self):
        self.says('', 'is empty', 'x, y, level')
        self.says('name,x,y,level\n', 'no well')
        self.says('x,y\n', 'no node', read=read_nodes)
        self.says('name,x,y\nA,1,2\n', 'line 1', 'no column for level (or head')
        self.says('A,1,2,3\nB,4,5,6\n', 'line 1', 'has to name the columns')
        self.says('name,lat,lon,level\nA,1,2,3\n', 'line 1', 'not degrees')
        self.says('name,x,X,y,level\nA,1,2,3,4\n', 'line 1', 'two columns are called x')

    def test_workbook(self):
        self.says(b'PK\x03\x04\x14\0\x06\0', 'is a workbook', 'Save its sheet as CSV')
        self.says(b'\xd0\xcf\x11\xe0\xa1\xb1', 'is a workbook')

    def test_what_cannot_be_shown(self):
        self.says('x,y,level\n1,\x1b[2J,' + '7' * 300 + '\n', 'line 2', '    1,?[2J,777', '7 …')

    def test_external_column(self):
        self.says('x,y,level,Ground\n1,2,3,4\n', 'no column depth', 'further columns: Ground', external='depth')
        self.says('x,y,level\n1,2,3\n', 'further columns: none', external='depth')
        self.says('x,y,level\n1,2,3\n', 'no column level', external='level')
        self.says('x,y,level,ground\n1,2,3,4\n5,6,7,\n', 'line 3', 'ground is missing', external='ground')
        self.says('x,y\n1,2\n', 'no column ground', external='ground', read=read_nodes)

    def test_no_file(self):
        with self.assertRaises(Stop) as stopped:
            read_wells(self.folder / 'none.csv')
        self.assertIn('none.csv cannot be read: No such file', str(stopped.exception))
