"""The hull of the wells against shapes that are known by hand."""
import random
import unittest

from mapper.hull import hull, inside

SQUARE = [(0, 0), (10, 0), (10, 10), (0, 10)]


class HullTest(unittest.TestCase):
    def test_a_square_with_points_inside_and_on_its_edges(self):
        self.assertEqual(hull([(5, 5), (10, 10), (0, 10), (5, 0), (0, 0), (10, 0), (0, 0), (3, 7)]), SQUARE)

    def test_few_points(self):
        self.assertEqual(hull([]), [])
        self.assertEqual(hull([(3, 4), (3, 4)]), [(3, 4)])
        self.assertEqual(hull([(3, 4), (1, 2)]), [(1, 2), (3, 4)])

    def test_a_line_has_two_corners(self):
        self.assertEqual(hull([(2, 2), (0, 0), (4, 4), (1, 1)]), [(0, 0), (4, 4)])
        self.assertEqual(hull([(5, 1), (5, 9), (5, 3)]), [(5, 1), (5, 9)])

    def test_inside_a_square(self):
        for x, y in SQUARE + [(5, 0), (10, 5), (5, 5), (0.001, 9.999)]:
            self.assertTrue(inside(SQUARE, x, y), (x, y))
        for x, y in ((-0.001, 5), (5, 10.001), (11, 0), (-1, -1), (10.001, 10)):
            self.assertFalse(inside(SQUARE, x, y), (x, y))

    def test_inside_a_line_and_a_spot(self):
        line = [(0, 0), (4, 4)]
        self.assertTrue(inside(line, 1, 1))
        self.assertTrue(inside(line, 4, 4))
        for x, y in ((5, 5), (-1, -1), (1, 1.01), (2, 1.9)):
            self.assertFalse(inside(line, x, y), (x, y))
        self.assertTrue(inside([(3, 4)], 3, 4))
        self.assertFalse(inside([(3, 4)], 3, 4.5))
        self.assertFalse(inside([], 3, 4))

    def test_rounding_leaves_the_edges_inside(self):
        """Places a third and a half along the edges, in coordinates of seven figures."""
        chance = random.Random(6)
        for _ in range(300):
            corners = hull([(4512000 + chance.uniform(0, 900), 5403000 + chance.uniform(0, 700)) for _ in range(3)])
            for (ax, ay), (bx, by) in zip(corners, corners[1:] + corners[:1]):
                for part in (1 / 3, 0.5):
                    self.assertTrue(inside(corners, ax + part * (bx - ax), ay + part * (by - ay)))

    def test_every_point_is_inside_its_hull_and_none_is_inside_that_of_the_others_where_it_is_a_corner(self):
        chance = random.Random(4)
        for _ in range(50):
            points = [(4512000 + chance.uniform(0, 900), 5403000 + chance.uniform(0, 700)) for _ in range(20)]
            corners = hull(points)
            self.assertTrue(all(inside(corners, x, y) for x, y in points))
            for corner in corners:
                self.assertFalse(inside(hull([point for point in points if point != corner]), *corner))

