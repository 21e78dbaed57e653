"""Paper: two sheets at most, the map on the first, and wells with their places in any case."""
import re
import unittest

from mapper.page.page import page
from mapper.page.print_layout import GOOD, LEAST, LINE, MOST, SHEET, head, layout, lines, refused, side, wells
from mapper.records import Doubt, Run
from mapper.runs.survey_file import WELLS
from mapper.tests import samples


def worst():
    """Much to say: all verdicts, many notes, doubts, many wells with long names."""
    m = samples.crowded()
    for well in m.wells:
        well.name = 'Observation well of the lower meadow'
    m.notes = ['A sentence that goes on about what was left out, and why. ' * 4] * 6
    m.doubts = [Doubt('A doubt that names a well, its line, and what to do about it. ' * 3, True)] * 8
    m.runs = [Run((0.0, 0.0), {0: 2000, 1: 300, 2: 200, 3: 200, 4: 200, 5: 50, 255: 50})]
    m.drawn = 0
    return m


def on_first(m):
    """How many of the parts after the map have room on the first sheet."""
    found, parts = layout(m), (side(m), refused(m), wells(m))
    return max(stay for stay in range(4) if head(m) + found.map_height + sum(parts[:stay]) <= SHEET / found.shrinking + 1e-9)


class Paper(unittest.TestCase):
    def test_few_wells_on_one_sheet_many_on_a_second(self):
        self.assertEqual([on_first(samples.grid_map(4, 4, wells=n)) for n in (3, 6, 48, 96)], [3, 3, 2, 2])

    def test_as_many_wells_as_are_taken(self):
        """96 on the second sheet, in letters of the usual size."""
        m = samples.grid_map(4, 4, wells=WELLS)
        self.assertEqual(layout(m), layout(samples.grid_map(4, 4, wells=48)))
        self.assertLess(wells(m), SHEET)
        self.assertEqual(len(re.findall(r'<td class="x n">', page(m))), WELLS)

    def test_wells_are_printed_with_their_places_however_many(self):
        """No part of the table is hidden on paper, and nothing stands in place of it."""
        style = re.search(r'@media print {(.*)', page(samples.grid_map(4, 4, wells=48)), re.S).group(1).split('</style>')[0]
        for rule in re.findall(r'([^{}]*){[^{}]*display: none', style):
            self.assertNotIn('wells', rule)
            self.assertNotRegex(rule, r'\.(x|y|level|off|others|spread)\b')
        text = page(worst())
        self.assertEqual(len(re.findall(r'<td class="x n">', text)), 48)

    def test_no_sheet_is_overfull(self):
        for name, make in samples.SAMPLES.items():
            m = make()
            found, parts = layout(m), (side(m), refused(m), wells(m))
            self.assertLessEqual(sum(parts[on_first(m):]), SHEET / found.shrinking + 1e-9, name)
            self.assertTrue(GOOD <= found.map_height <= MOST, name)

    def test_the_more_there_is_to_say_the_lower_the_map(self):
        little, more = samples.grid_map(4, 4, wells=48), samples.grid_map(4, 4, wells=48)
        more.notes = ['A sentence.'] * 12
        more.doubts = [Doubt('A doubt.')] * 3
        self.assertAlmostEqual(head(more) - head(little), 15 * LINE)
        self.assertGreater(layout(little).map_height, layout(more).map_height)

    def test_more_goes_to_the_second_sheet_where_there_is_much_to_say(self):
        m, found = samples.grid_map(4, 4, wells=30), []
        for notes in range(0, 60):
            m.notes = ['A sentence.'] * notes
            found.append(on_first(m))
        self.assertEqual(found, sorted(found, reverse=True))
        self.assertEqual((found[0], found[-1]), (2, 0))

    def test_the_map_has_its_least_height_in_the_worst_case(self):
        m = worst()
        found = layout(m)
        self.assertEqual(found.map_height, LEAST)
        self.assertIn('<body style="--shrinking:%.2f">' % found.shrinking, page(m))

    def test_letters_are_smaller_only_where_they_have_to_be(self):
        for make in samples.SAMPLES.values():
            self.assertEqual(layout(make()).shrinking, 1.0)
        m = worst()
        m.notes *= 3
        self.assertTrue(0.4 < layout(m).shrinking < 0.95)

    def test_lines_by_hand(self):
        """A line has room for 125 letters: 126 take two."""
        self.assertEqual([lines('a' * n) for n in (0, 125, 126, 251)], [1, 1, 2, 3])


if __name__ == '__main__':
    unittest.main()
