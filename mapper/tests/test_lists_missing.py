"""Lines without a number: words such as dry, and numbers such as -9999 that stand for none. They are refused, or left out and listed."""
from mapper.lists.nodes import read_nodes
from mapper.tests.list_folder import TWO_LINES, ListFolder

WORDS = ('dry', 'DRY', 'n/a', 'NA', 'N.A.', '-', '--', '?', 'trocken', 'sec', 'seco', 'nan', '#N/A', 'no data')
SENTINELS = ('-9999', '-999', '-99999', '-999.9', '-999.99', '-9999.0', '9999', '99999', '-32768', '99999.9', '-99', '-99.9', '999')
TOO_LARGE = ('1e30', '-1e30', '1.70141e38', '-3.4e38', '-3.40282347e+38')


class Words(ListFolder):
    def test_refused_with_the_option(self):
        for word in WORDS:
            self.ends(f'name,x,y,level\n{TWO_LINES}C,150,220,{word}\n', f'line 4: level is not a number: {word}', '--skip-unreadable', f'    C,150,220,{word}')
        self.ends(f'name,x,y,level\n{TWO_LINES}C,150,220,\n', 'line 4: level is missing', '--skip-unreadable')

    def test_left_out_and_listed(self):
        text = f'name,x,y,level\n{TWO_LINES}C,150,220,dry\nD,,220,31\n,160,north,31\nE,1,2,3\n'
        found = self.list(text, skip_unreadable=True)
        self.assertEqual([(well.name, well.line) for well in found.wells], [('A', 2), ('B', 3), ('E', 7)])
        self.assertEqual(found.notes, ['3 lines of 6 left out by --skip-unreadable: C (line 4): level is not a number: dry; D (line 5): x is missing; '
                                       '5 (line 6): y is not a number: north.'])

    def test_each_word_is_left_out(self):
        for word in WORDS:
            found = self.list(f'name,x,y,level\n{TWO_LINES}C,150,220,{word}\n', skip_unreadable=True)
            self.assertEqual((len(found.wells), found.doubts), (2, []))
            self.has(found.notes[0], '1 line of 3', f'C (line 4): level is not a number: {word}')

    def test_in_the_order_of_lines(self):
        text = f'name,x,y,level\n{TWO_LINES}C,150,220,-9999\nD,1,2,dry\n'
        self.has(self.list(text, skip_unreadable=True).notes[0], '2 lines of 4', 'C (line 4): level is -9999, which stands for a missing value; D (line 5)')
        lines = ''.join(f'W{i},{i},{i},dry\n' for i in range(1, 54))
        found = self.list(f'name,x,y,level\n{TWO_LINES}{lines}', skip_unreadable=True)
        self.has(found.notes[0], '53 lines of 55', 'W50 (line 53): level is not a number: dry; and 3 more.')

    def test_nothing_is_left(self):
        self.ends('name,x,y,level\nA,1,2,dry\n', 'no well that can be read', 'A (line 2): level is not a number: dry', options=('--skip-unreadable',))

    def test_nothing_to_leave_out(self):
        self.assertEqual(self.list('name,x,y,level\n' + TWO_LINES, skip_unreadable=True).notes, [])

    def test_a_spreadsheets_error_at_the_start_of_a_line(self):
        self.ends('level,x,y\n30,100,200\n#N/A,300,250\n', 'line 3: level is not a number: #N/A')

    def test_the_run_says_so(self):
        wells = self.file('name,x,y,level\nA,0,0,10\nB,100,0,11\nC,0,100,12.5\nD,90,80,12\nE,50,50,dry\n')
        self.has(self.made(wells, '--skip-unreadable', '--grid', '3x3', '--nugget', '0', '--sill', '1', '--range', '150'), '1 line of 5 left out', 'E (line 6)')

    def test_lines_of_too_many_fields_are_never_left_out(self):
        self.ends('name,x,y,level\nA,1,2,31,5\n', '5 fields, where the header has 4', options=('--skip-unreadable',))


class Sentinels(ListFolder):
    def test_levels(self):
        for number in SENTINELS:
            text = f'name,x,y,level\n{TWO_LINES}BH-99,150,220,{number}\n'
            self.doubt(text, 'BH-99 (line 4): level is', 'stands for a missing value', '--skip-unreadable', grave=True)
            self.ends(text, 'BH-99 (line 4)', 'stands for a missing value')
            found = self.list(text, skip_unreadable=True)
            self.assertEqual((len(found.wells), found.doubts), (2, []))
            self.has(found.notes[0], '1 line of 3 left out', 'BH-99 (line 4): level is', 'stands for a missing value')

    def test_too_large_for_any_map(self):
        for number in TOO_LARGE:
            text = f'name,x,y,level\n{TWO_LINES}C,150,220,{number}\n'
            self.ends(text, f'line 4: level is too large: {number}', 'stands for a missing one', '--skip-unreadable')
            self.assertEqual(len(self.wells(text, skip_unreadable=True)), 2)

    def test_several_wells_in_one_sentence(self):
        lines = ''.join(f'W{i},{i},{i},-9999\n' for i in range(1, 8))
        said = 'W1 (line 4), W2 (line 5), W3 (line 6), W4 (line 7) and 3 more: level is -9999'
        self.doubt(f'name,x,y,level\n{TWO_LINES}{lines}', said, grave=True)

    def test_a_true_level_of_999(self):
        self.assertEqual(len(self.numbers('name,x,y,level\nA,1,2,999\nB,3,4,985\nC,5,6,1004\n')), 3)
        self.doubt('name,x,y,level\nA,1,2,999\nB,3,4,31\nC,5,6,32\n', 'A (line 2): level is 999,', grave=True)
        self.assertEqual(len(self.numbers('name,x [m],y [m],level [ft]\nA,1,2,9999\nB,3,4,9985\nC,5,6,10004\n')), 3)

    def test_places(self):
        self.assertEqual(len(self.numbers('name,x,y,level\nA,9990,9990,31\nB,9999,9980,30\nC,10020,9999,32\n')), 3)
        self.assertEqual(len(self.numbers('name,x,y,level\nA,-9999,100,31\nB,-8000,90,30\nC,4000,120,32\n')), 3)
        self.doubt('name,x,y,level\nA,100,100,31\nB,9999,95,30\nC,120,90,32\n', 'B (line 3): x is 9999', grave=True)
        self.doubt('name,x,y,level\nA,0,100,31\nB,3000,-9999,30\nC,9000,9000,32\n', 'B (line 3): y is -9999', grave=True)
        self.doubt('name,x,y,level\nA,0,100,31\nB,-999,90,30\nC,9000,9000,32\n', 'B (line 3): x is -999,', grave=True)

    def test_how_far_apart(self):
        """Three times as far as the others reach, and 100 m."""
        self.assertEqual(len(self.numbers('name,x,y,level\nA,8000,1,31\nB,8500,2,30\nC,9999,3,32\n')), 3)
        self.doubt('name,x,y,level\nA,8000,1,31\nB,8499,2,30\nC,9999,3,32\n', 'C (line 4): x is 9999', grave=True)
        self.assertEqual(len(self.numbers('name,x,y,level\nA,1,1,898\nB,2,2,899\nC,3,3,999\n')), 3)
        self.doubt('name,x,y,level\nA,1,1,897\nB,2,2,898.5\nC,3,3,999\n', 'C (line 4): level is 999', grave=True)

    def test_ground_and_external(self):
        self.doubt('name,x,y,depth,ground\nA,1,2,3,-9999\nB,3,4,2,207\n', 'A (line 2): ground is -9999', grave=True)
        self.doubt('name,x,y,depth,ground\nA,1,2,9999,208\nB,3,4,2,207\n', 'A (line 2): depth is 9999', grave=True)
        self.doubt('name,x,y,level,clay\nA,1,2,3,-9999\nB,3,4,2,7\n', 'A (line 2): clay is -9999', grave=True, external='clay')
        self.assertEqual(len(self.numbers('name,x,y,level,clay\nA,1,2,3,-9999\nB,3,4,2,7\n')), 2)

    def test_ground_of_a_node(self):
        for number in ('-9999', '-999'):
            self.nodes_stop(f'x,y,ground\n1,2,{number}\n', f'line 2: ground is {number}, which stands for a missing value', external='ground')
        nodes, outside = read_nodes(self.file('x,y,ground\n1,2,999\n3,4,-1000\n'), 'ground')
        self.assertEqual(list(outside), [999, -1000])
