"""Numbers of the frame: none runs into the next at seven figures, on every size of the map."""
import re
import unittest

from mapper.drawing.frame import Ground
from mapper.drawing.labels import text_width
from mapper.drawing.sheet import FONT, SIZES, Sheet, are_apart, frame_numbers

EAST, NORTH = 4512345.6, 5403210.9
EXTENTS = [step * power for power in (1, 10, 100, 1000, 10000) for step in (10, 13, 17, 20, 37, 50, 71, 100)][:36]
SHAPES = 1.0, 0.4, 1.5  # high for broad, as broad and as tall as a map can be
LETTER = 0.5564         # of the font's size: a digit of Arial, Helvetica and Liberation Sans


def numbers(text):
    """The middles and words of the eastings and the northings."""
    east = [(float(x), words) for x, words in re.findall(r'<text x="([\d.]+)" y="[\d.]+" text-anchor="middle">([^<]*)</text>', text)]
    north = [(float(y), words) for y, words in re.findall(r'translate\([-\d.]+ ([\d.]+)\) rotate\(-90\)">([^<]*)</text>', text)]
    return east, north


def value(words):
    return float(words.replace('\u202f', '').replace('\u2212', '-'))


class Ticks(unittest.TestCase):
    def each(self):
        """Every extent, shape and size, with the middle where wells may well be, in metres and decimetres."""
        for extent in EXTENTS:
            for shape in SHAPES:
                high = extent * shape
                land = Ground(EAST - extent / 2, NORTH - high / 2, EAST + extent / 2, NORTH + high / 2)
                for size in SIZES:
                    sheet = Sheet(land, size)
                    yield (extent, shape, size.name), land, sheet, numbers(frame_numbers(land, sheet))

    def test_apart(self):
        for case, _, _, sides in self.each():
            for side in sides:
                marks = sorted((middle, text_width(words, FONT)) for middle, words in side)
                for (a, broad), (b, other) in zip(marks, marks[1:]):
                    self.assertGreater(b - a, (broad + other) / 2 + 5, case)

    def test_there_are_some_and_enough_to_tell_the_scale(self):
        """Two at least, where the side is so long that two of seven figures and a decimal have room at its very ends."""
        for case, _, sheet, sides in self.each():
            for side, length in zip(sides, (sheet.width, sheet.height)):
                self.assertGreaterEqual(len(side), 1 if length < 2 * text_width('5\u202f403\u202f210.5', FONT) else 2, case)

    def test_within_the_sheet(self):
        for case, _, sheet, (east, north) in self.each():
            for middle, words in east:
                half = text_width(words, FONT) / 2
                self.assertTrue(-0.1 <= middle - half and middle + half <= sheet.broad + 0.1, case)
            for middle, words in north:
                half = text_width(words, FONT) / 2
                self.assertTrue(-0.1 <= middle - half and middle + half <= sheet.frame.bottom + 0.1, case)

    def test_round_and_where_they_belong(self):
        """A number stands at its place, unless the sheet's end is nearer than half its width."""
        for case, land, sheet, (east, north) in self.each():
            for middle, words in east:
                there = sheet.place(land.x(value(words)), 0)[0]
                half = text_width(words, FONT) / 2
                self.assertTrue(abs(there - middle) < 0.1 or there < half or there > sheet.broad - half, case)
            for side, extent in ((east, case[0]), (north, case[0] * case[1])):
                for _, words in side:  # no finer than an eighth of the extent, rounded down to 1, 2 or 5
                    self.assertLess(len(words.partition('.')[2]), 2 + (extent < 8), case)

    def test_the_estimated_width_is_no_less_than_the_real_one(self):
        """Of seven digits; the thin spaces between are estimated too broad as well."""
        self.assertGreater(text_width('4512345', 1), 7 * LETTER)

    def test_apart_by_hand(self):
        """Two words need half of each between their middles, and three quarters of a letter's height, 9, besides."""
        need = text_width('12', FONT) / 2 + text_width('34567', FONT) / 2 + 9
        self.assertTrue(are_apart([(12, '12', 100.0), (34567, '34567', 100.01 + need)]))
        self.assertFalse(are_apart([(12, '12', 100.0), (34567, '34567', 99.99 + need)]))
        self.assertFalse(are_apart([(34567, '34567', 99.99 + need), (12, '12', 100.0)]))  # northings run down

    def test_none_where_numbers_are_too_close_to_tell(self):
        land = Ground(1e17, 0.0, 1e17 + 100, 100.0)
        self.assertEqual(numbers(frame_numbers(land, Sheet(land, SIZES[0])))[0], [])


if __name__ == '__main__':
    unittest.main()
