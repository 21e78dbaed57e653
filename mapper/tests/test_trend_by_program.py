"""The trend in words as the program finds it, on planes whose slope is known."""
import re
import unittest

from mapper.tests.support import Folder
from mapper.tests.test_trend_words import EIGHT, FLOW, NO_AUDIT


class ByTheProgram(Folder):
    """Wells on a plane, through which every trend that has it goes, whatever the model."""

    PLACES = (0, 0), (400, 20), (60, 380), (350, 330), (180, 210), (90, 120), (300, 150)

    def plane(self, east, north, x0=0.0, y0=0.0):
        rows = (f'{x0 + x},{y0 + y},{50 + east * x + north * y!r},{7 * k % 5}\n' for k, (x, y) in enumerate(self.PLACES))
        return self.file('x,y,level,ground\n' + ''.join(rows))

    def told(self, wells, *words):
        """The line of the trend, and that the page has it too."""
        said = self.made(wells, '--nugget', '0.01', '--sill', '1', '--range', '300', *words).splitlines()
        line, = [line for line in said if line.startswith(('The water table ', 'The trend ', 'The level '))]
        self.assertIn(line.replace("'", '&#x27;'), re.sub('</?span[^>]*>', '', (self.folder / 'wells.html').read_text()))
        return line

    def test_eight_ways(self):
        for east, north, fall, way in EIGHT:
            said = self.told(self.plane(east, north), '--trend', 'linear', '--grid', '3x3')
            self.assertEqual(said, f'The water table falls {fall} m a kilometre to the {way}{FLOW}')

    def test_quadratic_and_a_moved_origin(self):
        """A plane has the same slope everywhere; as entered the coordinates of seven figures lose their digits."""
        said = self.told(self.plane(-0.004, 0.003, 4512300.0, 5403200.0), '--trend', 'quadratic', '--grid', '3x3', '--origin', 'moved')
        self.assertEqual(said, f'The water table falls 5.0 m a kilometre to the south-east in the middle of the wells{FLOW}')

    def test_level(self):
        self.assertIn('is level to a centimetre', self.told(self.plane(0, 0), '--trend', 'linear', '--grid', '3x3'))

    def test_constant(self):
        self.assertEqual(self.told(self.plane(0, 0), '--grid', '3x3'), f'The trend is a level of 50.00 m, without a slope{NO_AUDIT}')

    def test_external(self):
        """The column says nothing about the plane."""
        nodes = self.file('x,y,ground\n100,100,2\n200,100,3\n', 'nodes.csv')
        said = self.told(self.plane(0.0012, 0), '--trend', 'linear', '--external', 'ground', '--nodes', nodes)
        self.assertEqual(said, f'The level does not change with ground; apart from that the water table falls 1.2 m a kilometre to the west{FLOW}')

    def test_no_node_passes(self):
        said = self.told(self.plane(-0.004, 0.003, 4512300.0, 5403200.0), '--trend', 'quadratic', '--grid', '3x3', '--origin', 'as-entered')
        self.assertIn('The trend is not shown: no node passed', said)


if __name__ == '__main__':
    unittest.main()
