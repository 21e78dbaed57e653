"""Large maps: a picture instead of shapes, few enough bytes, and no failure lost."""
import base64
import json
import re
import struct
import unittest
import zlib

from mapper.drawing.classes import classes
from mapper.drawing.colours import LEVELS
from mapper.drawing.raster import block_point, class_bytes, grid_rows, png
from mapper.page.page import page
from mapper.tests import samples


def unpacked(file):
    """Width, height and rows of a PNG with a palette and no filters."""
    parts, at = {}, 8
    while at < len(file):
        length, = struct.unpack('>I', file[at:at + 4])
        kind, body = file[at + 4:at + 8], file[at + 8:at + 8 + length]
        assert struct.unpack('>I', file[at + 8 + length:at + 12 + length])[0] == zlib.crc32(kind + body)
        parts[kind] = body
        at += 12 + length
    width, height = struct.unpack('>II', parts[b'IHDR'][:8])
    raw = zlib.decompress(parts[b'IDAT'])
    return width, height, [raw[r * (width + 1) + 1:(r + 1) * (width + 1)] for r in range(height)]


def pictures(text):
    return [unpacked(base64.b64decode(found)) for found in re.findall(r'<image href="data:image/png;base64,([^"]*)"', text)]


class Large(unittest.TestCase):
    @classmethod
    def setUpClass(cls):
        cls.map = samples.large_map()
        cls.text = page(cls.map)

    def test_size(self):
        self.assertEqual(len(self.map.nodes), 100000)
        self.assertLess(len(self.text.encode('utf-8')), 2000000)

    def test_the_picture_has_a_point_a_node_and_is_clear_where_one_failed(self):
        for width, height, rows in pictures(self.text):
            self.assertEqual((width, height), (400, 250))
            for r in range(height):
                south_up = rows[height - 1 - r]
                verdicts = self.map.nodes.verdict[r * width:(r + 1) * width]
                self.assertEqual([p == 0 for p in south_up], [v != 0 for v in verdicts])

    def test_it_says_that_hovering_is_thinned(self):
        self.assertIn('the table file has every node', self.text)
        self.assertNotIn('the table file has every node', page(samples.grid_map(5, 5)))

    def test_there_are_contour_lines(self):
        self.assertRegex(self.text, r'class="lines"><path d="M[\d.]')

    def test_a_long_row(self):
        text = page(samples.grid_map(20000, 1, wells=5))
        self.assertLess(len(text.encode('utf-8')), 2000000)
        self.assertEqual(len(pictures(text)), 2)

    def test_a_long_list(self):
        m = samples.list_map(15100)
        m.nodes.verdict[0], m.nodes.verdict[1] = 0, 9  # the second of two that hovering tells as one
        text = page(m)
        self.assertEqual(json.loads(re.search(r'id="told">(.*?)</script>', text).group(1))['level'][0], '!9')
        self.assertLess(len(text.encode('utf-8')), 3000000)
        self.assertEqual(len(pictures(text)), 2)
        self.assertIn('the table file has every node', text)


class Pictures(unittest.TestCase):
    def test_png(self):
        width, height, rows = unpacked(png([b'\0\1\2', b'\2\1\0'], 3, [(1, 2, 3), (4, 5, 6)]))
        self.assertEqual((width, height, rows), (3, 2, [b'\0\1\2', b'\2\1\0']))

    def test_class_bytes(self):
        kinds = classes(0.0, 10.0, LEVELS)
        self.assertEqual(class_bytes([0.0, 9.5, 9.5], b'\1\1\0', kinds), bytes([1, kinds.of(9.5) + 1, 0]))

    def test_a_thinned_point_is_clear_if_any_node_in_it_is(self):
        points = bytearray(b'\3' * 12)
        self.assertEqual(block_point(points, 4, range(0, 3), 0, 4), 3)
        points[5] = 0
        self.assertEqual(block_point(points, 4, range(0, 3), 0, 4), 0)
        self.assertEqual(block_point(points, 4, range(0, 3), 2, 4), 3)

    def test_too_many_columns_for_a_picture(self):
        points = bytearray(b'\1' * 40000)
        points[12345] = 0
        rows = grid_rows(points, 20000, 2)
        self.assertLessEqual(len(rows[0]), 1601)
        self.assertEqual([row.count(0) for row in rows], [0, 1])  # row 0 of the grid, the southern one, comes last


if __name__ == '__main__':
    unittest.main()
