"""Headers as people write them: their words in four languages, columns that are chosen, titles and comments before them, and two that could be the same."""
from mapper.lists.nodes import read_nodes
from mapper.tests.list_folder import TWO_LINES, ListFolder

HEADERS = (
    'Well,Easting,Northing,Level', 'BOREHOLE,POINT_X,POINT_Y,HEAD_M', 'id,X_COORD,Y_COORD,GWL', 'ID,XCOORD,YCOORD,WL', 'id,COORD_X,COORD_Y,Hydraulic head',
    'Label,x,y,Piezometric level', 'Label,E,N,Groundwater elevation (m)', 'Brunnen,Rechtswert,Hochwert,Wasserstand',
    'Messstelle,Ostwert,Nordwert,Grundwasserstand', 'Bezeichnung,X,Y,GW-Stand', 'Nom,X,Y,Niveau',
    "Forage,x,y,Niveau d'eau", 'Puits,X (m),Y (m),Cote piézométrique', 'PIÉZOMÈTRE,est,nord,cote piezometrique',
    'Nombre,X,Y,Nivel', 'Pozo,Este,Norte,Nivel freático', 'Sondeo,este,norte,NIVEL FREATICO', 'Name,UTM_E,UTM_N,Water level elevation',
    'Piezometre,X UTM 33N,Y UTM 33N,Niveau (m NGF)', 'name,X ETRS89,Y ETRS89,level')


class Words(ListFolder):
    def test_every_language(self):
        for header in HEADERS:
            found = self.list(f'{header}\n' + TWO_LINES)
            self.assertEqual([(well.name, well.x, well.y, well.level) for well in found.wells], [('A', 100, 200, 31.5), ('B', 300, 250, 30.5)], header)
            self.assertEqual((found.doubts, found.notes), ([], []), header)

    def test_accents_composed_or_not(self):
        for piezometer in ('Piézomètre', 'Pie\u0301zome\u0300tre'):
            self.assertEqual(self.wells(f'{piezometer},x,y,level\n' + TWO_LINES)[0].name, 'A')

    def test_windows_letters(self):
        self.assertEqual(self.list('Messstelle;X;Y;Flurabstand;Gelände\nA;1;2;3;8\n'.encode('cp1252')).ground, 'Gelände')

    def test_elevation(self):
        self.doubt('id,x,y,Elevation\nA,1,2,3\n', 'Elevation is taken as the water level', 'height of the ground', '--level Elevation')
        self.doubt('id,x,y,Cota (m)\nA,1,2,3\n', 'Cota (m) is taken as the water level', '--level "Cota (m)"')
        self.assertEqual(self.numbers('id,x,y,Elevation\nA,1,2,3\n', columns={'level': 'elevation'}), [(1, 2, 3)])
        found = self.list('id,x,y,level,Elevation\nA,1,2,3,5\n')
        self.assertEqual((found.wells[0].level, found.ground, found.doubts), (3, 'Elevation', []))
        self.assertEqual(self.numbers('id,x,y,Elevation (water level),Elevation (ground)\nA,1,2,3,5\n'), [(1, 2, 3)])

    def test_brackets_that_say_which(self):
        self.assertEqual(self.numbers('id,X (Hochwert),Y (Rechtswert),level\nA,1,2,3\n'), [(2, 1, 3)])
        self.assertEqual(self.numbers('id,X (Easting),Y (Northing),level (head)\nA,1,2,3\n'), [(1, 2, 3)])

    def test_degrees_are_refused(self):
        self.ends('name,lat,lon,level\nA,48.1,11.5,3\n', 'line 1', 'not degrees')

    def test_further_columns_twice(self):
        self.assertEqual(len(self.numbers('id,x,y,level,date,date,ground,ground\nA,1,2,3,4,5,6,7\n')), 1)


class Chosen(ListFolder):
    TEXT = 'a,b b,c [ft],d,e2\nA,100,1000,31.5,7\n'

    def test_by_their_headers(self):
        columns = {'name': 'A', 'x': 'B_B', 'y': 'c', 'level': 'd'}
        found = self.list(self.TEXT, columns=columns)
        self.assertEqual([(well.name, well.x, well.y, well.level) for well in found.wells], [('A', 100, 304.8, 31.5)])
        self.stops(self.TEXT, 'there is no column zz for --x. The columns are: a, b b, c [ft], d, e2', columns={**columns, 'x': 'zz'})

    def test_by_the_command(self):
        text = 'p,q,r,s\nA,0,0,10\nB,100,0,11\nC,0,100,12.5\nD,90,80,12\n'
        options = ('--name', 'p', '--x', 'q', '--y', 'R', '--level', 's', '--grid', '3x3', '--nugget', '0', '--sill', '1', '--range', '150')
        self.made(self.file(text), *options)
        self.assertTrue((self.folder / 'wells.html').is_file())
        self.ends('p,q,r,s\nA,0,0,10\n', 'there is no column u for --y. The columns are: p, q, r, s', options=('--x', 'q', '--y', 'u', '--level', 's'))

    def test_one_column_twice(self):
        self.stops(self.TEXT, '--x and --ground name the same column, b b', columns={'x': 'b b', 'y': 'c', 'level': 'd', 'ground': 'b b'})
        self.assertEqual(self.numbers('name,z,y,level\nA,1,2,3\n', columns={'x': 'z', 'y': 'y'}), [(1, 2, 3)])
        self.stops('name,x,y,depth\nA,1,2,3\n', 'the column y would be y and ground at once', columns={'ground': 'y'})
        self.assertEqual(self.numbers('name,x,y,depth\n8,1,2,3\n', columns={'ground': 'name'}), [(1, 2, 5)])

    def test_none_is_there(self):
        self.stops(self.TEXT, 'no column for x (or easting', '--x COLUMN')

    def test_one_of_two_units(self):
        text = 'name,x [m],y [m],Level [m],Level [ft]\nA,1,2,31,100\n'
        self.stops(text, 'two columns could be the level, Level [m] and Level [ft]; choose one by --level')
        self.assertEqual(self.numbers(text, columns={'level': 'level [ft]'}), [(1, 2, 30.48)])
        self.stops('name,x,X,y,level\nA,1,2,3,4\n', 'two columns are called x', columns={'x': 'x'})


class Rivals(ListFolder):
    def test_level_beside_head(self):
        self.doubt('x,y,head,level\n1,2,3,4\n', 'level and head', 'level is taken', '--level')
        self.assertEqual(self.numbers('x,y,head,level\n1,2,4,4.00\n5,6,7,7\n'), [(1, 2, 4), (5, 6, 7)])
        self.assertEqual(self.numbers('x,y,head,level\n1,2,3,4\n', columns={'level': 'head'}), [(1, 2, 3)])
        self.doubt('x,y,head,level\n1,2,4,4\n1,3,,5\n', 'level and head')
        self.assertEqual(self.list('x [m],y [m],head [ft],level [m]\n1,2,100,30.48\n').doubts, [])

    def test_two_grids(self):
        found = self.doubt('name,x,northing,y,easting,level\nA,1,2,3,4,5\n', 'x and y are taken, and not easting and northing', '--x and --y')
        self.assertEqual((found.wells[0].x, found.wells[0].y), (1, 3))
        self.assertEqual(self.numbers('name,x,y,easting,northing,level\nA,1,2,1,2,5\n'), [(1, 2, 5)])
        for places in ('1,7', '7,2'):
            self.doubt(f'name,x,y,easting,northing,level\nA,1,2,{places},5\n', 'x and y are taken, and not easting and northing')
        self.assertEqual(self.numbers('name,x,easting,northing,level\nA,1,2,3,5\n'), [(2, 3, 5)])

    def test_one_of_two_is_asked_for(self):
        text = 'name,x,y,easting,northing,level\nA,1,2,3,4,5\n'
        self.assertEqual(self.numbers(text, columns={'x': 'easting'}), [(3, 4, 5)])
        self.assertEqual(self.numbers(text, columns={'y': 'northing'}), [(3, 4, 5)])
        self.assertEqual(self.numbers(text, columns={'x': 'northing', 'y': 'easting'}), [(4, 3, 5)])

    def test_two_that_do_not_go_together(self):
        self.doubt('name,x,northing,level\nA,1,2,3\n', 'x is taken as x and northing as y', 'do not go together')
        self.assertEqual(self.numbers('name,x,northing,level\nA,1,2,3\n', columns={'x': 'x', 'y': 'northing'}), [(1, 2, 3)])


class BeforeTheHeader(ListFolder):
    def test_titles_and_comments(self):
        for before in ('Survey of May 2024\n', '# x, y, level\n', '// "unfinished\n', '; a comment; with; more; fields; than; the; header\n',
                       'Survey, of May\n\nby us\n', 'Survey of May 2024,,,\n,,,\n', '#\n' * 29):
            found = self.list(before + 'name,x,y,level\n' + TWO_LINES)
            line = before.count('\n') + 2
            self.assertEqual([(well.name, well.line) for well in found.wells], [('A', line), ('B', line + 1)], before)

    def test_other_separators_in_a_title(self):
        self.assertEqual(len(self.numbers('Wells, levels, and places, of May, 2024\nname;x;y;level\nA;1;2;3\n')), 1)

    def test_any_column_of_levels_makes_a_header(self):
        self.assertEqual(self.numbers('x and y of May, as read\nname,x,y,depth,ground\nA,1,2,3,8\n'), [(1, 2, 5)])

    def test_wells_that_are_called_as_columns_are(self):
        self.stops('A,1,2,3\nx,4,5,6\ny,7,8,9\n', 'line 1: the first line has to name the columns')

    def test_no_header_at_all(self):
        self.stops('Wells\n; a; b\na,b,c\nA,1,2\n', 'line 3: the header has no column for x', '    a,b,c')

    def test_too_far_down(self):
        self.stops('title\n' * 30 + 'name,x,y,level\nA,1,2,3\n', 'line 1', 'one field')

    def test_a_well_before_the_header(self):
        self.ends('A,1,2,3\nname,x,y,level\nB,4,5,6\n', 'line 1: the line stands before the header, which is line 2')
        self.stops(',1,2,3\nname,x,y,level\nB,4,5,6\n', 'line 1: the line stands before the header')
        self.stops(';1,5;2;3\nname;x;y;level\nB;4;5;6\n', 'line 1: the line stands before the header')

    def test_comments_after_it(self):
        found = self.list('name,x,y,level\nA,1,2,3\n# looked at again\nB,4,5,6\n#C,7,8,9\n"#D",7,8,9\n')
        self.assertEqual([(well.name, well.line) for well in found.wells], [('A', 2), ('B', 4), ('#D', 6)])
        self.assertEqual(found.notes, ['Line 5 begins with # and was passed over, with a well in it.'])
        found = self.list('#1,2,3,4\nname,x,y,level\nA,1,2,3\n# a, b, c, d\n#B,4,5,6\n#C,7,8,9\n')
        self.assertEqual(found.notes, ['Lines 5, 6 begin with # and were passed over, with a well in each.'])
        self.stops('name,x,y,level\n#1,2,3,4\n', 'no well', 'begin with #')

    def test_one_field(self):
        for header in ('name x y level', 'name|x|y|level'):
            self.ends(f'{header}\nA 1 2 3\n', 'line 1: the header is one field; a comma, a semicolon or a tab was looked for', 'Save the list as CSV')

    def test_nodes(self):
        nodes, _ = read_nodes(self.file('Nodes of May\n# by us\nEste;Norte\n1;2\n#3;4\n'))
        self.assertEqual((list(nodes.x), list(nodes.y)), ([1], [2]))
