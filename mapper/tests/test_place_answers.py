"""--at: the level at a place, in the terminal, against figures by hand."""
from mapper.tests.support import FOUR, NUMBERS, SAMPLES, Folder

B = 'name,x,y,level\nA,0,0,2\nB,2,0,6\n'  # the scope's case B: 4 with variance 1.5 between the two
MODEL = ('--nugget', '0', '--sill', '1', '--range', '1', '--regularization', '0')
GROUND = 'name,x,y,level,Ground\nA,0,0,10,20\nB,100,0,11,22\nC,0,100,12.5,21\nD,90,80,12,25\nE,40,70,11,22\n'


class At(Folder):
    def lines(self, *words):
        """What is told; and no file is written."""
        before = sorted(self.folder.rglob('*'))
        said = self.made(*words).splitlines()
        self.assertEqual(sorted(self.folder.rglob('*')), before)
        return said

    def test_by_hand(self):
        """The root of 1.5 is 1.2247."""
        said = self.lines(self.file(B), *MODEL, '--at', '1,0', '--at', '1,5', '--at', '1,0,9.5')
        self.assertEqual(said[:3], ['At (1, 0), among the wells: 4 m ± 1.22 m (standard deviation); the arithmetic held.',
                                    'At (1, 5), outside the wells: 4 m ± 1.22 m (standard deviation); the arithmetic held.',
                                    'At (1, 0), among the wells: 4 m ± 1.22 m (standard deviation), 5.50 m below the ground at 9.5 m; the arithmetic held.'])
        self.assertTrue(said[3].startswith('Doubtful: All wells stand on one line'))
        self.assertRegex(said[-1], r'^The arithmetic held at 3 of 3 nodes; [2-9] doubts about the list, above\.$')

    def test_water_above_the_ground(self):
        self.assertIn(', 1.50 m above the ground at 2.5 m: it would flow out there, or a height is wrong; the arithmetic held.',
                      self.lines(self.file(B), *MODEL, '--at', '1,0,2.5')[0])

    def test_nothing_doubtful(self):
        said = self.lines(self.file(FOUR), *NUMBERS, '--at', '50,50')
        self.assertRegex(said[0], r'^At \(50, 50\), among the wells: 11\.[0-9]{1,2} m ± 0\.[0-9]{2} m \(standard deviation\); the arithmetic held\.$')
        self.assertEqual(said[-1], 'The arithmetic held at 1 of 1 node; nothing doubtful was found in the list.')

    def test_negative_places(self):
        for words in (('--at', '-100,50'), ('--at=-100,50',), ('--at', '-100,-5'), ('--at', '-.5,50')):
            self.assertRegex(self.lines(self.file(FOUR), *NUMBERS, *words)[0], r'^At \(-(100|0\.5), (50|-5)\), outside the wells: ')

    def test_at_a_well_it_is_that_well(self):
        self.assertEqual(self.lines(self.file(FOUR), *NUMBERS, '--regularization', '0', '--at', '0,100')[0],
                         'At (0, 100), among the wells: 12.5 m ± 0.01 m (standard deviation); the arithmetic held.')

    def test_a_failed_place_has_no_level(self):
        said = self.lines(SAMPLES / 'valley.csv', '--trend', 'quadratic', '--origin', 'as-entered', '--at', '4512500,5403400')
        (answer,) = [line for line in said if line.startswith('At (')]
        self.assertRegex(answer, r'^At \(4512500, 5403400\), among the wells: no level, since the weights do not .* within the tolerance\. Count the coord')
        self.assertIn('The arithmetic held at 0 of 1 node; ', said[-1])

    def test_external(self):
        """The third number is the column's; it is the ground's height too where the column is."""
        wells = self.file(GROUND)
        said = self.lines(wells, *NUMBERS, '--external', 'ground', '--at', '50,50,23')
        self.assertNotIn('no level', said[0])
        self.assertIn('has to be known at the place, too: --at X,Y,VALUE', self.refused(wells, '--external', 'ground', '--at', '5,5', status=2))

    def test_external_moves_the_level(self):
        """The level goes with the column alone, half of it."""
        wells = self.file('x,y,level,rain\n0,0,10,20\n100,0,11,22\n0,100,12,24\n90,80,13,26\n40,70,14,28\n')
        for rain, level in ((30, 15), (10, 5)):
            self.assertIn(f': {level} m ± ', self.lines(wells, *NUMBERS, '--external', 'rain', '--at', f'50,50,{rain}')[0])
            self.assertNotIn('below the ground', self.lines(wells, *NUMBERS, '--external', 'rain', '--at', f'50,50,{rain}')[0])

    def test_listing(self):
        self.assertEqual(self.lines(self.file(FOUR), *NUMBERS, '--listing', '--at', '5,5')[0], 'nodes 1')

    def test_wrong_use(self):
        wells = self.file(FOUR)
        for words, said in ((('--grid', '3x3'), 'leave out --grid'), (('--nodes', wells, '--out', '.'), 'leave out --nodes, --out'),
                            (('--sheets', 'a'), 'leave out --sheets'), (('--survey', 'a'), 'leave out --survey')):
            self.assertIn(said, self.refused(wells, '--at', '5,5', *words, status=2))
        self.assertIn('leave out --at', self.refused('--collect', self.folder, '--at', '5,5', status=2))
        for place in ('5', '5,a', '1,2,3,4', '5;5', '1e99,5', 'nan,5'):
            self.assertIn('is no place; say x and y with a comma', self.refused(wells, '--at', place, status=2))
