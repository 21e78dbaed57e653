"""Contour lines and areas, against places worked out by hand."""
import unittest

from mapper.drawing.contours import Field, areas, lines
from mapper.drawing.thinning import block_verdicts, kept, passed_nodes, thinned, whole_squares


def field(rows, failed=()):
    """A field from rows, the southernmost first; `failed` are (column, row)."""
    columns = len(rows[0])
    verdict = bytearray(columns * len(rows))
    for c, r in failed:
        verdict[r * columns + c] = 1
    thin = thinned(columns, len(rows), 10 ** 6)
    return Field([v for row in rows for v in row], columns, len(rows), whole_squares(passed_nodes(verdict), columns, thin))


PLANE = [[c + 10 * r for c in range(5)] for r in range(4)]


def surface(ring):
    """The area of a ring, above 0 if it runs against the clock."""
    return sum(a[0] * b[1] - b[0] * a[1] for a, b in zip(ring, ring[1:] + ring[:1])) / 2


class Lines(unittest.TestCase):
    def test_a_plane_has_one_straight_line(self):
        line, = lines(field(PLANE), 12.5)
        # c + 10 r = 12.5: from r = 1.25 at the western side to r = 0.85 at the eastern.
        self.assertEqual({line[0], line[-1]}, {(0, 1.25), (4, 0.85)})
        for c, r in line:
            self.assertAlmostEqual(c + 10 * r, 12.5, places=12)

    def test_a_line_through_nodes_has_no_place_twice(self):
        line, = lines(field([[c for c in range(4)]] * 3), 2)
        self.assertEqual(sorted(line), [(2, 0), (2, 1), (2, 2)])

    def test_a_hill_has_a_closed_line(self):
        line, = lines(field([[0, 0, 0], [0, 4, 0], [0, 0, 0]]), 1)
        self.assertEqual(line[0], line[-1])
        self.assertEqual(set(line), {(0.25, 1), (1, 0.25), (1.75, 1), (1, 1.75)})

    def test_no_line_crosses_a_square_with_a_failed_corner(self):
        found = lines(field(PLANE, failed=[(2, 1)]), 12.5)
        self.assertEqual(len(found), 2)
        for line in found:
            for (ac, ar), (bc, br) in zip(line, line[1:]):
                middle = (ac + bc) / 2, (ar + br) / 2
                self.assertFalse(1 < middle[0] < 3 and 0 < middle[1] < 2, line)

    def test_a_saddle_goes_by_its_middle(self):
        high = lines(field([[3, 0], [0, 3]]), 1)      # the middle, 1.5, is above: the two lows are cut off
        self.assertEqual({frozenset(line) for line in high}, {frozenset([(2 / 3, 0), (1, 1 / 3)]), frozenset([(0, 2 / 3), (1 / 3, 1)])})
        low = lines(field([[3, 0], [0, 3]]), 2)       # below: the two highs are
        self.assertEqual({frozenset(line) for line in low}, {frozenset([(1 / 3, 0), (0, 1 / 3)]), frozenset([(1, 2 / 3), (2 / 3, 1)])})

    def test_no_line_past_the_figures(self):
        self.assertEqual(lines(field(PLANE), 99), [])
        self.assertEqual(lines(field(PLANE), -1), [])

    def test_figures_at_the_ends_of_all_numbers(self):
        line, = lines(field([[-1.7e308, 1.7e308], [-1.7e308, 1.7e308]]), 0.0)
        self.assertEqual(sorted(line), [(0.5, 0), (0.5, 1)])


class Areas(unittest.TestCase):
    def total(self, found):
        return sum(map(surface, found))

    def test_all_of_a_field_is_one_rectangle(self):
        ring, = areas(field(PLANE), None)
        self.assertEqual(set(ring), {(0, 0), (4, 0), (4, 3), (0, 3)})

    def test_above_a_plane(self):
        # Above the straight line from (0, 1.25) to (4, 0.85) up to row 3: 4 * (3 - 1.05).
        self.assertAlmostEqual(self.total(areas(field(PLANE), 12.5)), 7.8)

    def test_above_and_below_a_hill(self):
        hill = [[0, 0, 0], [0, 4, 0], [0, 0, 0]]
        self.assertAlmostEqual(self.total(areas(field(hill), 1)), 1.125)  # a square on its corner, 1.5 from corner to corner
        hole = [[-v for v in row] for row in hill]
        self.assertAlmostEqual(self.total(areas(field(hole), -1)), 4 - 1.125)

    def test_saddles(self):
        # Cut off from the whole square, two corners with sides of 1/3: 1 - 1/9. Alone, two such corners: 1/9.
        self.assertAlmostEqual(self.total(areas(field([[3, 0], [0, 3]]), 1)), 8 / 9)
        self.assertAlmostEqual(self.total(areas(field([[3, 0], [0, 3]]), 2)), 1 / 9)

    def test_without_squares_that_failed(self):
        self.assertAlmostEqual(self.total(areas(field(PLANE, failed=[(2, 1)]), None)), 12 - 4)


class Thinning(unittest.TestCase):
    def test_kept_has_the_ends(self):
        self.assertEqual(kept(10, 3), [0, 3, 6, 9])
        self.assertEqual(kept(9, 3), [0, 3, 6, 8])
        self.assertEqual(kept(1, 3), [0])

    def test_a_failure_between_kept_nodes_is_not_lost(self):
        verdict = bytearray(100)
        verdict[4 * 10 + 7] = 3  # column 7, row 4: between kept columns 6 and 9, rows 3 and 6
        thin = thinned(10, 10, 16)
        self.assertEqual((thin.columns, thin.rows), ([0, 3, 6, 9], [0, 3, 6, 9]))
        whole = whole_squares(passed_nodes(verdict), 10, thin)
        self.assertEqual([k for k in range(9) if not whole[k]], [1 * 3 + 2])
        verdicts = block_verdicts(verdict, 10, 10, thin)
        self.assertEqual([(k, v) for k, v in enumerate(verdicts) if v], [(1 * 4 + 2, 3)])

    def test_as_few_as_asked(self):
        for columns, rows in ((400, 250), (1000, 1000), (10000, 100), (20000, 3)):
            thin = thinned(columns, rows)
            self.assertLessEqual(len(thin.columns) * len(thin.rows), 15000)


if __name__ == '__main__':
    unittest.main()
