"""Units in headers: metres in any wording, what is converted, and what is not known."""
from mapper.lists.nodes import read_nodes
from mapper.lists.units import phrase
from mapper.tests.list_folder import TWO_LINES, ListFolder

METRES = ('m', 'M', 'metres', 'meter', 'Meter', 'mètre', 'mètres', 'metros', 'masl', 'm asl', 'm a.s.l.', 'mASL', 'm amsl', 'm NN', 'm ü. NN', 'm über NN',
          'mNN', 'm NHN', 'm ü. NHN', 'mNAP', 'm+NAP', 'm AHD', 'mAHD', 'm above sea level', 'm above mean sea level', 'm ü. M.', 'm ü.d.M.', 'm.s.n.m.',
          'm NGF', 'mAOD', 'in m', 'm, 2024', 'm RL')
NO_UNIT = ('2024', 'May 2024', '31.5.2024', '31/5/2024', '2024-05-31', 'EPSG:25832', 'EPSG 25832', 'UTM 33N', 'UTM', 'GK4', 'MTM zone 8', 'Gauß-Krüger', 'mean',
           'average', 'Mittelwert', 'ETRS89', 'NAD83')
UNKNOWN = ('bar', 'psi', 'in', 'inches', 'yd', 'm²', 'm3/h', 'm/s', 'mH2O', '°C', 'm above sensor', 'm above ground', 'm ü. GOK', 'm u. NN', 'm -NAP',
           'ftUS', 'fathoms', 'm ft')


class Phrases(ListFolder):
    def test_metres(self):
        for words in METRES:
            said = phrase(words)
            self.assertEqual((said.name, said.below, said.unknown), ('m', None, None), words)

    def test_no_unit(self):
        for words in NO_UNIT:
            said = phrase(words)
            self.assertEqual((said.name, said.below, said.unknown), (None, None, None), words)

    def test_unknown(self):
        for words in UNKNOWN:
            self.assertEqual(phrase(words).unknown, words)

    def test_factors(self):
        for words, factor in (('ft', 0.3048), ('feet', 0.3048), ('foot', 0.3048), ("'", 0.3048), ('ft amsl', 0.3048), ('ft NAVD88', 0.3048), ('cm', 0.01),
                              ('mm', 0.001), ('km', 1000.0), ('Kilometer', 1000.0)):
            self.assertEqual((phrase(words).factor, phrase(words).unknown), (factor, None), words)

    def test_downwards(self):
        for words, below in (('m below ground', 'ground'), ('mbgl', 'ground'), ('m b.g.l.', 'ground'), ('m bgs', 'ground'), ('below surface', 'ground'),
                             ('m u. GOK', 'ground'), ('m unter Gelände', 'ground'), ('depth', 'ground'), ('depth to water, m', 'ground'), ('m below', 'ground'),
                             ('m sous le sol', 'ground'), ('m bajo el suelo', 'ground'), ('ft bgs', 'ground'), ('m btoc', 'casing'),
                             ('m below top of casing', 'casing'), ('m below sea level', 'sea'), ('m bsl', 'sea'), ('m unter NN', 'sea')):
            self.assertEqual((phrase(words).below, phrase(words).unknown), (below, None), words)


class Headers(ListFolder):
    def test_metres_in_brackets_and_behind_a_name(self):
        for level in ('Level (m)', 'Level [m a.s.l.]', 'HEAD_M', 'level_m', 'Head m', 'Level in m', 'Water level, m', 'GWL_masl', 'Wasserstand m ü. NN',
                      'level (2024)'):
            found = self.list(f'name,x [m],y (UTM 33N),"{level}"\n' + TWO_LINES)
            self.assertEqual((found.wells[0].level, found.notes, found.doubts), (31.5, [], []), level)

    def test_feet_everywhere(self):
        found = self.list('name,x [ft],y_ft,Level (feet)\nA,1000,2000,100\n')
        self.assertEqual([(well.x, well.y, well.level) for well in found.wells], [(304.8, 609.6, 30.48)])
        self.assertEqual(found.notes, ['3 columns in feet are converted to metres, 1 ft = 0.3048 m: x [ft], y_ft and Level (feet).'])
        self.assertEqual(found.doubts, [])

    def test_each_unit(self):
        for unit, level, note in (('cm', 31.5, '1 cm = 0.01 m'), ('mm', 3.15, '1 mm = 0.001 m'), ('km', 3150000.0, '1 km = 1000 m')):
            found = self.list(f'name,x,y,level [{unit}]\nA,1,2,3150\n')
            self.assertEqual((found.wells[0].level, len(found.notes)), (level, 1))
            self.has(found.notes[0], '1 column in', 'is converted to metres', note, f'level [{unit}]')

    def test_unknown_units_are_refused(self):
        for unit in ('bar', 'psi', 'm above ground', 'in'):
            self.doubt(f'name,x,y,level [{unit}]\n' + TWO_LINES, f'level [{unit}]', f'not known here: {unit}.', 'write [m]', grave=True)
        self.ends('name,x,y,level [bar]\n' + TWO_LINES, 'level [bar] has a unit that is not known here: bar')
        found = self.doubt('name,x [yd],y [yd],level\n' + TWO_LINES, 'The columns x [yd] and y [yd] have a unit that is not known here: yd', grave=True)
        self.assertEqual(found.wells[0].x, 100)

    def test_two_units(self):
        self.doubt('name,x,y,level [m] (ft)\n' + TWO_LINES, 'not known here: m and ft', grave=True)

    def test_degrees(self):
        self.ends('name,x [°],y,level\n' + TWO_LINES, 'The column x [°] is in degrees', 'converted, to UTM')
        self.ends('name,x (deg),y (deg),level\n' + TWO_LINES, 'The columns x (deg) and y (deg) are in degrees')

    def test_feet_beside_no_unit(self):
        self.doubt('name,x,y,level [ft]\nA,1,2,100\n', 'level [ft] is in feet, and x and y say no unit and are taken as metres')
        self.doubt('name,x [ft],y [ft],level\nA,1,2,100\n', 'x [ft] is in feet, and level says no unit and is taken as metres')
        self.assertEqual(self.list('name,x [m],y [m],level [ft]\nA,1,2,100\n').doubts, [])

    def test_a_line_break_in_a_header(self):
        self.assertEqual(self.wells('name,x [m],y [m],"Level\n[ft]"\nA,1,2,100\n')[0].level, 30.48)

    def test_a_line_of_units(self):
        text = 'name,x,y,level\n,m,m,ft\n' + TWO_LINES
        self.ends(text, 'line 2: the line has units in place of numbers; write them into the header')
        self.stops(text, 'units in place of numbers', skip_unreadable=True)

    def test_ground_and_external(self):
        found = self.list('name,x,y,level,ground [cm]\nA,1,2,3,500\n', external='ground')
        self.assertEqual((found.wells[0].more, found.external, found.ground), ({'ground [cm]': 5.0}, 'ground [cm]', 'ground [cm]'))
        self.has(found.notes[0], '1 cm = 0.01 m: ground [cm]')
        found = self.list('name,x,y,level,ground [?!]\nA,1,2,3,500\n')
        self.assertEqual((found.doubts, found.ground), ([], None))
        found = self.list('name,x,y,level,clay_cm\nA,1,2,3,500\n', external='clay_cm')
        self.assertEqual(found.wells[0].more, {'clay_cm': 5.0})

    def test_columns_of_any_name(self):
        text = 'name,a_ft,b km,Stand cm,top_ft\nA,1000,2,300,100\n'
        columns = {'x': 'a_ft', 'y': 'b km', 'level': 'stand cm', 'ground': 'top_ft'}
        found = self.list(text, columns=columns)
        self.assertEqual([(well.x, well.y, well.level, well.more) for well in found.wells], [(304.8, 2000, 3, {'top_ft': 30.48})])

    def test_nodes(self):
        nodes, outside = read_nodes(self.file('x [ft],y [km],ground (cm)\n1000,2,500\n'), 'ground')
        self.assertEqual((list(nodes.x), list(nodes.y), list(outside)), ([304.8], [2000], [5]))
        self.nodes_stop('x [yd],y [yd]\n1,2\n', 'line 1: x [yd] has a unit that is not known here, yd')
