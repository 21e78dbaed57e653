"""Depths below the ground are no levels: they are worked out where the ground is known, and refused elsewhere."""
from mapper.tests.list_folder import ListFolder

DEPTHS = ('Level (m below ground)', 'Level below ground', 'Water level [m bgl]', 'Level b.g.l.', 'WL_mbgl', 'depth', 'Depth to water', 'DTW (m)', 'DTW_m',
          'Flurabstand', 'Grundwasserstand (m u. GOK)', 'Profondeur (m)', 'Profundidad', 'Water level (depth)', 'head [m below surface]',
          'Niveau (profondeur, m)')
GROUNDS = ('ground', 'Ground level (m)', 'GOK [m NHN]', 'Gelände', 'sol', 'Terreno', 'Gelaendehoehe', 'Cote sol', 'Cota terreno',
           'Elevation', 'Altitude (m)', 'surface_elevation', 'Z')


class Depths(ListFolder):
    def test_refused_without_the_ground(self):
        for depth in DEPTHS:
            text = f'name,x,y,"{depth}"\nA,100,200,3.4\nB,300,250,4.1\n'
            self.doubt(text, depth, 'depths below the ground, not levels: level = ground - depth', '--ground', 'enter levels', grave=True)
            self.ends(text, 'level = ground - depth')

    def test_worked_out_with_the_ground(self):
        for depth in DEPTHS:
            found = self.list(f'name,x,y,"{depth}",ground\nA,100,200,3.4,208.6\nB,300,250,4.1,209\n')
            self.assertEqual([well.level for well in found.wells], [205.2, 204.9], depth)
            self.assertEqual((found.notes, found.doubts), ([f'Levels are worked out from depths: level = ground - {depth}.'], []))
            self.assertEqual((found.ground, found.wells[0].more), ('ground', {'ground': 208.6}))

    def test_what_the_ground_is_called(self):
        for ground in GROUNDS:
            found = self.list(f'name,x,y,depth,{ground}\nA,100,200,3.4,208.6\n')
            self.assertEqual((found.wells[0].level, found.ground, found.doubts), (205.2, ground, []), ground)

    def test_units_of_both(self):
        found = self.list('name,x,y,depth [cm],ground [m]\nA,1,2,340,208.6\n')
        self.assertEqual((found.wells[0].level, len(found.notes)), (205.2, 2))
        found = self.list('name,x [m],y [m],depth [ft],ground [ft]\nA,1,2,10,1010\n')
        self.assertEqual(found.wells[0].level, 304.8)
        self.doubt('name,x,y,depth,ground [yd]\nA,1,2,3,208\n', 'ground [yd]', 'not known here: yd', grave=True)

    def test_ground_is_missing_somewhere(self):
        text = 'name,x,y,depth,ground\nA,1,2,3,208\nB,4,5,6,\n'
        self.ends(text, 'line 3: ground is missing', '--skip-unreadable')
        self.has(self.list(text, skip_unreadable=True).notes[-1], 'B (line 3): ground is missing')

    def test_a_level_goes_before_a_depth(self):
        self.assertEqual(self.numbers('name,x,y,level,depth,ground\nA,1,2,205,30,208\n'), [(1, 2, 205)])
        self.assertEqual(self.numbers('name,x,y,Level (m bgl),head,ground\nA,1,2,3,205,208\n'), [(1, 2, 205)])
        self.assertEqual(self.numbers('name,x,y,Level (m bgl),Level (m asl)\nA,1,2,3,205\n'), [(1, 2, 205)])

    def test_asked_for(self):
        text = 'name,x,y,level,gap,top\nA,1,2,205,30,208\n'
        self.assertEqual(self.numbers(text, columns={'depth': 'gap', 'ground': 'top'}), [(1, 2, 178)])
        self.stops(text, '--depth needs the height of the ground', '--ground COLUMN', columns={'depth': 'gap'})
        self.stops(text, '--level and --depth both say', columns={'depth': 'gap', 'level': 'level'})
        self.ends(text, '--depth needs the height of the ground', options=('--depth', 'gap'))

    def test_a_depth_that_is_asked_for_as_a_level(self):
        for depth in ('Depth to water', 'depth_cm', 'Ruhe unter GOK', 'Stand (m bgl)', 'stand below ground'):
            text = f'name,x,y,{depth}\nA,1,2,3\n'
            self.doubt(text, depth, 'depths below the ground, not levels', grave=True, columns={'level': depth})
        self.assertEqual(self.numbers('name,x,y,stand bgl,ground\nA,1,2,3,208\n', columns={'level': 'stand bgl'}), [(1, 2, 205)])

    def test_below_the_casing(self):
        for depth in ('DTW (m btoc)', 'Abstich', 'Abstich_m', 'Level [m below top of casing]'):
            text = f'name,x,y,{depth},ground,collar height\nA,1,2,3.5,208,208.75\n'
            self.doubt(text, depth, 'below the top of the casing', "name it by --ground", grave=True)
            self.assertEqual(self.numbers(text, columns={'ground': 'Collar height'}), [(1, 2, 205.25)])

    def test_below_the_sea(self):
        for level in ('Level (m below sea level)', 'head [m bsl]', 'Wasserstand (m unter NN)'):
            text = f'name,x,y,{level},ground\nA,1,2,3,208\n'
            self.doubt(text, level, 'below the sea', 'Turn the sign', grave=True)
            self.ends(text, 'Turn the sign')


class Signs(ListFolder):
    def test_all_below_zero(self):
        found = self.doubt('name,x,y,depth,ground\nA,1,2,-3.4,208.6\nB,3,4,0,205\n', 'All numbers of depth are below zero', 'with a minus sign')
        self.assertEqual([well.level for well in found.wells], [205.2, 205])

    def test_one_below_zero(self):
        found = self.doubt('name,x,y,depth,ground\nA,1,2,-3,208\nB,3,4,2,207\n', 'depth is below zero at A (line 2)', 'above the ground')
        self.assertEqual([well.level for well in found.wells], [211, 205])
        lines = ''.join(f'W{i},{i},{i},-1,208\n' for i in range(1, 8))
        said = 'at W1 (line 3), W2 (line 4), W3 (line 5), W4 (line 6) and 3 more, and not elsewhere'
        self.doubt(f'name,x,y,depth,ground\nA,1,2,3,208\n{lines}', said)

    def test_levels_that_look_like_depths(self):
        for first, second in ((3.4, 5.1), (-3.4, -5.1)):
            self.doubt(f'name,x,y,level,ground\nA,1,2,{first},208.6\nB,3,4,{second},209\n', 'look like depths below the ground', '--depth')
        self.doubt('name,x,y,level,ground\nA,1,2,3,208\nB,3,4,5,215\n', 'The numbers of level lie 205 to 210 m below those of ground at every well')
        self.doubt('name,x,y,level,ground\nA,1,2,3,208\nB,3,4,5,210\n', 'The numbers of level lie 205 m below those of ground')
        self.assertEqual(len(self.numbers('name,x,y,level,ground\nA,1,2,40,190\nB,3,4,3,208\n')), 2)
        self.assertEqual(len(self.numbers('name,x,y,level,ground\nA,1,2,3.4,8.6\nB,3,4,5.1,9\n')), 2)
        self.assertEqual(len(self.numbers('name,x,y,level,ground\nA,1,2,140,205\nB,3,4,141,206\n')), 2)
        self.assertEqual(len(self.numbers('name,x,y,level,ground\nA,1,2,3.4,208.6\nB,3,4,205,209\n')), 2)


class AboveTheGround(ListFolder):
    def test_every_well(self):
        text = 'name,x,y,level,ground\nA,100,200,31.5,30\nB,300,250,32.25,30\n'
        self.doubt(text, 'level is above ground at every well, by 2.25 m at most', 'counted from one height')

    def test_some_wells(self):
        text = 'name,x,y,level,ground\nA,100,200,29,30\nB,300,250,30.51,30\nC,200,250,30.5,30\nD,210,200,40,\n'
        self.doubt(text, 'level is above ground at B (line 3), by 0.51 m at most')

    def test_none(self):
        found = self.list('name,x,y,level,ground\nA,100,200,30.5,30\nB,300,250,29,30\n')
        self.assertEqual(found.doubts, [])
