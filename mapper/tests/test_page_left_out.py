"""What the other wells say of each well: columns of the table, the chart, the sentence; and which wells are marked."""
import math
import re
import unittest
import xml.etree.ElementTree as ElementTree

from mapper.drawing.doubted_wells import doubted_wells, named_lines
from mapper.drawing.leave_one_out_chart import BELOW, LEFT, RIGHT, TOP, leave_one_out_chart
from mapper.page.leave_one_out import TOO_FEW, left_out_words, ratio_words
from mapper.page.page import page
from mapper.page.well_table import others_cells, place_letters, signed, well_table
from mapper.records import Doubt, LeftOut, Well
from mapper.tests import samples
from mapper.tests.test_page import SVG, sample_page, words


def small(levels, said, deviations, doubts=()):
    """A map of wells with these levels, of which the others say that."""
    m = samples.grid_map(3, 3, wells=len(levels), doubts=list(doubts))
    for well, level in zip(m.wells, levels):
        well.level = level
    m.left_out = [LeftOut(*each) for each in zip(said, deviations)]
    return m


class Cells(unittest.TestCase):
    def test_off_in_metres_and_in_deviations(self):
        """A level of 48.20 where the others say 47.70 with 0.25: half a metre, two deviations."""
        self.assertEqual(others_cells(Well('A', 0, 0, 48.2), LeftOut(47.7, 0.25)), ['47.70', '+0.50', '+2.0'])
        self.assertEqual(others_cells(Well('A', 0, 0, -9999.0), LeftOut(199.6, 0.4)), ['199.60', '\u221210\u202f199', '\u221225\u202f496'])
        self.assertEqual(others_cells(Well('A', 0, 0, 47.701), LeftOut(47.7, 0.25)), ['47.70', '0.00', '0.0'])

    def test_where_the_others_say_nothing(self):
        self.assertEqual(others_cells(Well('A', 0, 0, 48.2), LeftOut(None)), ['–'] * 3)
        self.assertEqual(others_cells(Well('A', 0, 0, 48.2), LeftOut(47.7, 0.0)), ['47.70', '+0.50', '–'])
        self.assertEqual(others_cells(Well('A', 0, 0, 48.2), LeftOut(47.7)), ['47.70', '+0.50', '–'])

    def test_large_ones_have_fewer_figures(self):
        for off, words in ((99.5, '+99.50'), (-123.45, '\u2212123.5'), (1234.5, '+1234'), (2.5e6, '+2.5e6')):
            self.assertEqual(signed(off, 2), words)

    def test_numbers_past_all_reason(self):
        self.assertEqual(others_cells(Well('A', 0, 0, 1.7e308), LeftOut(-1.7e308, 1e-300))[1:], ['–', '–'])

    def test_the_table(self):
        text = well_table(small([48.2, 47.0, 46.0, 46.5, 47.2], [47.7, 47.3, None, 46.5, 47.0], [0.25, 0.3, None, 0.2, 0.1]))
        self.assertEqual(re.findall('<th [^>]*>([^<]*)</th>', text), ['No.', 'Well', 'x, m', 'y, m', 'Level, m', 'Others say, m', 'Off by, m', 'Off by, ±'])
        rows = [re.findall('<td [^>]*>([^<]*)</td>', row)[4:] for row in text.split('<tbody>')[1].split('</tr>')[:5]]
        self.assertEqual(rows, [['48.2', '47.70', '+0.50', '+2.0'], ['47.0', '47.30', '\u22120.30', '\u22121.0'], ['46.0', '–', '–', '–'],
                                ['46.5', '46.50', '0.00', '0.0'], ['47.2', '47.00', '+0.20', '+2.0']])

    def test_columns_are_as_broad_as_the_coordinates(self):
        """Seven digits with two thin spaces, then two more with their point."""
        m = samples.grid_map(3, 3, wells=5)
        for well in m.wells:
            well.x, well.y = 4512345.0, 5403210.0
        self.assertEqual(place_letters(m), 8)
        m.wells[3].y = 5403210.25
        self.assertEqual(place_letters(m), 10.5)
        self.assertIn('style="--place:10.5"', well_table(m))

    def test_too_few_wells(self):
        text = page(samples.grid_map(4, 4, wells=3))
        self.assertNotIn('Others say', text)
        self.assertIn(TOO_FEW, words(text))
        self.assertNotIn('id="t-left-out"', text)


class Marked(unittest.TestCase):
    def test_lines_that_doubts_name(self):
        for sentence, lines in (('look at BH-99 (line 32) first: its neighbours say 199.6, the list says −9999', {32}),
                                ('Line 32 repeats line 2: take one out', {32, 2}), ('lines 3, 14 and 27 have no level', {3, 14, 27}),
                                ('48 wells within 30 m of a line', set()), ('the outline 5 of it', set())):
            self.assertEqual(named_lines([Doubt(sentence)]), lines, sentence)

    def test_by_line_and_not_by_name(self):
        """Wells without names are counted: '7' is a name then, and stands in many a sentence."""
        m = samples.grid_map(3, 3, wells=6, doubts=[Doubt('7 m between W-02 (line 3) and the others.')])
        m.wells[4].name = '7'
        self.assertEqual(doubted_wells(m), [False, True, False, False, False, False])

    def test_in_table_map_chart_and_legend(self):
        text = sample_page('doubted')
        self.assertEqual(re.findall(r'<tr class="doubted"><td class="no n">#(\d+)</td><td class="name"><b class="named" [^>]*>!</b> ([^<]*)', text),
                         [('7', 'W-07'), ('12', 'W-12')])
        self.assertEqual(text.count('class="ring"/><circle cx="13"'), 2)  # of both legends
        for one in re.findall(r'<svg [^>]*class="map.*?</svg>', text, re.S):
            self.assertEqual(one.count('class="ring"'), 2)
        chart = re.search(r'<title id="t-left-out">.*?</svg>', text).group()
        self.assertEqual(chart.count('class="ring"'), 2)
        self.assertIn('>W-07</text>', chart)
        self.assertNotIn('class="ring"', sample_page('plain'))
        self.assertIn('A well marked ! is named by a doubt.', text)


class Sentence(unittest.TestCase):
    def test_by_hand(self):
        """Misses of 0.3, -0.4, 0 and 0.5 m: the mean square is 0.125, its root 0.3536. In deviations of 0.3, 0.4, 0.5 and 0.25: (1 + 1 + 0 + 4) / 4."""
        m = small([10, 20, 30, 40, 50], [10.3, 19.6, 30, 40.5, None], [0.3, 0.4, 0.5, 0.25, None])
        self.assertEqual(left_out_words(m).replace('\u00a0', ' '), 'Each of 4 wells of 5 was left out once and told by the others: they miss its level by '
                         '0.35 m (root of the mean square). Measured in their ± that is a mean squared deviation ratio of 1.5, near 1: the ± of the map is '
                         'about right.')

    def test_what_the_ratio_says(self):
        self.assertEqual(ratio_words(9.0), 'well above 1: the ± of the map is too small, errors are some 3 times as large')
        self.assertEqual(ratio_words(0.25), 'well below 1: the ± of the map is larger than it need be, errors are some 0.5 times it')
        self.assertIn('some 4700 times as large', ratio_words(4655.0 ** 2))
        for near in (0.5, 1.0, 2.0):
            self.assertIn('about right', ratio_words(near))

    def test_doubts_take_the_comfort_out_of_it(self):
        m = small([10, 20, 30, 40, 50], [10.3, 19.6, 30, 40.5, 50], [0.3, 0.4, 0.5, 0.25, 1], [Doubt('Look at W-02 (line 3) first.')])
        self.assertIn('(root of the mean square). Wells that are doubted are counted in. Measured', left_out_words(m))
        m.doubts.append(Doubt('W-01 (line 2) has a level that cannot be true.', True))
        self.assertTrue(left_out_words(m).endswith('means nothing while the list cannot be one of a water table.'))
        self.assertNotIn('about right', left_out_words(m))

    def test_past_all_numbers(self):
        m = small([1e300, 20, 30, 40, 50], [1.0, 19.6, 30, 40.5, 50], [1e-300, 0.4, 0.5, 0.25, 1])
        self.assertEqual(left_out_words(m), 'The other wells say nothing that can be shown of any well.')

    def test_the_others_say_nothing_of_any(self):
        m = small([10, 20, 30, 40, 50], [None] * 5, [None] * 5)
        self.assertEqual(left_out_words(m), 'The other wells say nothing that can be shown of any well.')
        self.assertEqual(leave_one_out_chart(m), '')


class Chart(unittest.TestCase):
    def parsed(self, *given):
        return ElementTree.fromstring(leave_one_out_chart(small(*given)))

    def test_dots_and_bars_by_hand(self):
        """Levels from 11 to 19, so axes from 10 to 20: the list's 12 a fifth of the way to the right, the others' 16 three fifths up, and 1 each way."""
        drawn = self.parsed([12, 11, 19, 15, 11], [16, 11, 19, 15, 11], [1, None, 0.5, 0, 30])
        dots = [dot for dot in drawn.iter(SVG + 'circle') if dot.get('class') == 'dot']
        self.assertEqual(len(dots), 5)
        self.assertAlmostEqual(float(dots[0].get('cx')), LEFT + 0.2 * (RIGHT - LEFT), places=1)
        self.assertAlmostEqual(float(dots[0].get('cy')), BELOW - 0.6 * (BELOW - TOP), places=1)
        bars = [bar.get('d') for bar in drawn.iter(SVG + 'path') if bar.get('class') == 'reach']
        self.assertEqual(bars[0], 'M%.1f %.1fV%.1f' % (LEFT + 0.2 * (RIGHT - LEFT), BELOW - 0.5 * (BELOW - TOP), BELOW - 0.7 * (BELOW - TOP)))
        self.assertEqual(bars[-1], 'M%.1f %.1fV%.1f' % (LEFT + 0.1 * (RIGHT - LEFT), BELOW, TOP))  # cut off at the frame
        line, = [path.get('d') for path in drawn.iter(SVG + 'path') if path.get('class') == 'same']
        self.assertEqual(line, 'M%.1f %.1fL%.1f %.1f' % (LEFT, BELOW, RIGHT, TOP))

    def test_names_where_the_pointer_is(self):
        titles = [title.text for title in self.parsed([12, 10, 20, 15, 11], [16, 10, 20, 15, 11], [1, None, 0.5, 0, 3]).iter(SVG + 'title')]
        self.assertIn('W-01: the list says 12 m, the other wells 16 m ± 1 m', titles)
        self.assertIn('W-02: the list says 10 m, the other wells 10 m', titles)

    def test_levels_at_the_edge(self):
        for level in (0.0, 47.3, -1e300, 1.7e308, 5e-324):
            for said in (level, level / 2, -level, math.nan):
                text = leave_one_out_chart(small([level] * 5, [said] * 5, [0.1] * 5))
                self.assertNotRegex(re.sub('<title.*?</title>', '', text), '(?i)"[^"]*(nan|inf)[^"]*"')


if __name__ == '__main__':
    unittest.main()
