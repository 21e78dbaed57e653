"""Places that are asked for and have nothing to do with the wells."""
from mapper.tests.support import FOUR, NUMBERS, Folder


class FarNodes(Folder):
    """The four wells of FOUR reach from (0, 0) to (100, 100), 141 m from corner to corner: three times that is 424 m."""

    def doubts(self, text, *words):
        said = self.made(self.file(FOUR), *NUMBERS, '--nodes', self.file(text, 'nodes.csv'), *words)
        return [line for line in said.splitlines() if line.startswith('Doubtful: ')]

    def test_far(self):
        said, = self.doubts('name,x,y\nN1,50,50\nN2,50,9000\n')
        self.assertIn('The node N2 at (50, 9000) stands 8.9 km from the wells, which reach 141 m.', said)
        self.assertIn('wrong figure in its x or y', said)

    def test_several(self):
        said, = self.doubts('x,y\n50,50\n50,9000\n7000,50\n-30000,100\n')
        self.assertIn('The place (-30000, 100) stands 30 km from the wells, and 2 other nodes more than 424 m', said)

    def test_edge(self):
        self.assertEqual(self.doubts('x,y\n524,100\n-424,0\n50,50\n'), [])
        self.assertEqual(len(self.doubts('x,y\n525,50\n')), 1)

    def test_a_place_asked_for(self):
        said = self.made(self.file(FOUR), *NUMBERS, '--at', '-100,5403210')
        self.assertIn('Doubtful: The place (-100, 5403210) stands 5,400 km from the wells', said)
        self.assertIn('1 doubt about the list', said)

    def test_a_grid_has_none(self):
        said = self.made(self.file(FOUR), *NUMBERS, '--grid', '3x3')
        self.assertNotIn('Doubtful', said)

    def test_the_nearest_to_a_far_place(self):
        said = self.made(self.file(FOUR), *NUMBERS, '--grid', '3x3', '--near', '9,600')
        self.assertIn('Doubtful: The place (9, 600) of --near stands 500 m from the wells, which reach 141 m.', said)
        self.assertNotIn('Doubtful', self.made(self.file(FOUR), *NUMBERS, '--grid', '3x3', '--near', '9,500'))
