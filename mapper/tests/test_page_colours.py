"""Colours: neighbouring classes stay apart for people who do not see red, green or blue as others do, and in grey print."""
import re
import unittest

from mapper.drawing.classes import classes
from mapper.drawing.colours import DEVIATIONS, LEVELS, class_colours, lightness, line_colour, linear
from mapper.page.page import beside

# What is seen instead of light (red, green, blue): Machado, Oliveira and Fernandes 2009, whole loss of one kind of cones.
SEEN = {
    'all cones': ((1, 0, 0), (0, 1, 0), (0, 0, 1)),
    'protanopia': ((0.152286, 1.052583, -0.204868), (0.114503, 0.786281, 0.099216), (-0.003882, -0.048116, 1.051998)),
    'deuteranopia': ((0.367322, 0.860646, -0.227968), (0.280085, 0.672501, 0.047413), (-0.011820, 0.042940, 0.968881)),
    'tritanopia': ((1.255528, -0.076749, -0.178779), (-0.078411, 0.930809, 0.147602), (0.004733, 0.691367, 0.303900)),
}
XYZ = ((0.4124564, 0.3575761, 0.1804375), (0.2126729, 0.7151522, 0.0721750), (0.0193339, 0.1191920, 0.9503041))
WHITE = (0.95047, 1.0, 1.08883)


def times(matrix, vector):
    return [sum(a * b for a, b in zip(row, vector)) for row in matrix]


def lab(colour, eyes):
    """L*, a*, b* of a colour as such eyes see it."""
    light = [min(1.0, max(0.0, part)) for part in times(SEEN[eyes], [linear(c) for c in colour])]
    x, y, z = (t ** (1 / 3) if t > 0.008856 else 7.787 * t + 16 / 116 for t in (a / w for a, w in zip(times(XYZ, light), WHITE)))
    return 116 * y - 16, 500 * (x - y), 200 * (y - z)


def apart(a, b, eyes):
    return sum((p - q) ** 2 for p, q in zip(lab(a, eyes), lab(b, eyes))) ** 0.5


class Colours(unittest.TestCase):
    def test_the_measure_itself(self):
        self.assertAlmostEqual(lab((255, 255, 255), 'all cones')[0], 100, places=2)
        red, green = (200, 60, 60), (85, 118, 50)  # told apart by most, hardly by those without the middle cones
        self.assertGreater(apart(red, green, 'all cones'), 60)
        self.assertLess(apart(red, green, 'deuteranopia'), 25)

    def test_neighbours_are_apart(self):
        for name, palette in (('levels', LEVELS), ('deviations', DEVIATIONS)):
            for count in range(2, 12):
                colours = class_colours(palette, count)
                for eyes in SEEN:
                    for a, b in zip(colours, colours[1:]):
                        self.assertGreater(apart(a, b, eyes), 6, (name, count, eyes, a, b))

    def test_all_classes_are_apart_not_only_neighbours(self):
        for palette in (LEVELS, DEVIATIONS):
            colours = class_colours(palette, 11)
            for eyes in SEEN:
                for i, a in enumerate(colours):
                    for b in colours[i + 2:]:
                        self.assertGreater(apart(a, b, eyes), 11, (eyes, a, b))

    def test_lightness_runs_one_way(self):
        for palette, way in ((LEVELS, 1), (DEVIATIONS, -1)):
            colours = class_colours(palette, 11)
            for eyes in SEEN:
                light = [lab(c, eyes)[0] * way for c in colours]
                self.assertEqual(light, sorted(light))
                self.assertGreater(min(b - a for a, b in zip(light, light[1:])), 4.5, eyes)

    def test_lines_are_seen_on_their_ground(self):
        for palette in (LEVELS, DEVIATIONS):
            for colour in class_colours(palette, 11):
                line = tuple(int(line_colour(colour)[k:k + 2], 16) for k in (1, 3, 5))
                self.assertGreater(abs(lightness(line) - lightness(colour)), 38)

    def test_the_trend_s_arrow_is_seen_on_every_ground(self):
        """By its hue to all eyes; in grey print by its white edge, and hollow by its white inside."""
        fill, edge = re.search(r'\.trend { fill: #(\w{6}); stroke: #(\w{3});', beside('style.css')).groups()
        arrow = tuple(bytes.fromhex(fill))
        self.assertEqual(edge, 'fff')
        self.assertGreater(100 - lightness(arrow), 50)
        for count in range(1, 12):
            for colour in class_colours(LEVELS, count):
                for eyes in SEEN:
                    self.assertGreater(apart(arrow, colour, eyes), 40, (eyes, colour))

    def test_never_more_classes_than_colours_that_are_apart(self):
        for k in range(1, 3000):
            self.assertLessEqual(len(classes(0.137, 0.137 + k / 100, LEVELS).colours), 11)


if __name__ == '__main__':
    unittest.main()
