"""The page as text: well formed, needs no network, shows what it has to, and no level of a failed node."""
import re
import unittest
import xml.etree.ElementTree as ElementTree
from functools import lru_cache
from html import unescape
from html.parser import HTMLParser

from mapper.drawing.thinning import MOST_NODES
from mapper.page.page import page
from mapper.tests import samples

LEAST_LARGE = 160, 100  # over MOST_NODES, so a picture and thinned hovering, and no larger than that needs
SVG = '{http://www.w3.org/2000/svg}'
ALONE = {'meta', 'input', 'br', 'link', 'img', 'hr'}  # elements without an end


class Balance(HTMLParser):
    """Whether every element ends where it should."""

    def __init__(self):
        super().__init__()
        self.open, self.wrong = [], []

    def handle_starttag(self, tag, attrs):
        if tag not in ALONE:
            self.open.append(tag)

    def handle_startendtag(self, tag, attrs):
        pass

    def handle_endtag(self, tag):
        if not self.open or self.open.pop() != tag:
            self.wrong.append(tag)


@lru_cache(maxsize=None)
def sample_page(name):
    """The page of a sample that no test changes."""
    return page(samples.large_map(*LEAST_LARGE) if name == 'large' else samples.SAMPLES[name]())


def drawings(text):
    """Every SVG of a page, parsed."""
    return [ElementTree.fromstring(one) for one in re.findall(r'<svg\b.*?</svg>', text, re.S)]


def words(text):
    """What a reader sees, scripts and styles aside."""
    return unescape(re.sub(r'<[^>]*>', ' ', re.sub(r'<(script|style)\b.*?</\1>', ' ', text, flags=re.S)))


class Whole(unittest.TestCase):
    def test_every_sample_is_well_formed(self):
        self.assertGreater(LEAST_LARGE[0] * LEAST_LARGE[1], MOST_NODES)
        for name in samples.SAMPLES:
            with self.subTest(name):
                text = sample_page(name)
                reader = Balance()
                reader.feed(text)
                self.assertEqual((reader.open, reader.wrong), ([], []))
                self.assertGreaterEqual(len(drawings(text)), 6)

    def test_needs_no_network(self):
        for name in ('two_runs', 'large'):
            text = sample_page(name)
            self.assertEqual(set(re.findall(r'https?://[^"\s]*', text)), {'http://www.w3.org/2000/svg'})
            self.assertEqual(re.findall(r'(?:src|href)="(?!#|data:image/png)[^"]*"|url\((?!#)[^)]*\)|@import', text), [])

    def test_ids_are_there_once(self):
        text = sample_page('two_runs')
        ids = re.findall(r'\bid="([^"]*)"', text)
        self.assertEqual(len(ids), len(set(ids)))
        for used in re.findall(r'href="#([^"]*)"|url\(#([^)]*)\)|for="([^"]*)"', text):
            self.assertIn(''.join(used), ids)

    def test_language_and_names_of_pictures(self):
        text = sample_page('two_runs')
        self.assertIn('<html lang="en">', text)
        for drawing in drawings(text):
            if drawing.get('role') == 'img':
                self.assertTrue(drawing.find(SVG + 'title').text)
                self.assertTrue(drawing.find(SVG + 'desc').text)


class Content(unittest.TestCase):
    def test_failed_nodes_have_no_level_anywhere(self):
        for make in (samples.two_runs, samples.list_map, samples.none_passed, lambda: samples.large_map(*LEAST_LARGE)):
            pages = []
            for level, variance in ((7777.25, 5555.5 ** 2), (-3.0, 0.0)):
                m = make()
                for at, verdict in enumerate(m.nodes.verdict):
                    if verdict:
                        m.nodes.level[at], m.nodes.variance[at] = level, variance
                pages.append(page(m))
            self.assertTrue(pages[0] == pages[1], 'what a failed node holds changes the page')
            self.assertEqual(re.findall('7777[.]2|5555[.]5', pages[0].replace('\u202f', '')), [])

    def test_a_passed_node_has_its_level(self):
        m = samples.grid_map(5, 4)
        m.nodes.level[7] = 47.4321
        self.assertIn('"47.432"', page(m))

    def test_every_well_is_named(self):
        m = samples.crowded()
        seen = words(sample_page('crowded'))
        for well in m.wells:
            self.assertIn(well.name, seen)

    def test_names_are_escaped(self):
        m = samples.grid_map(4, 4, wells=3)
        m.wells[0].name = '<script>alert("1")</script>'
        m.title, m.notes, m.refused = '</title><b>&', ['<i>note</i>'], ['</body>']
        m.external = '"><img>'
        m.columns = ['1', 'x', '<u>']
        m.nodes.verdict[0] = 3
        m.runs[0].verdicts = {0: 15, 3: 1}
        text = page(m)
        for wrong in ('<script>alert', '</title><b>', '<i>note', '"><img', '<u>'):
            self.assertNotIn(wrong, text)
        self.assertEqual(text.count('</body>'), 1)
        self.assertEqual(text.count('</script>'), 2)
        self.assertIn('&lt;i&gt;note&lt;/i&gt;', text)

    def test_both_counts_and_which_is_drawn(self):
        text = sample_page('two_runs')
        seen = ' '.join(words(text).split())
        self.assertRegex(seen, r'Coordinates as entered 0 1,200')
        self.assertRegex(seen, r'Origin moved to \(3.425.000, 5.812.000\) \(drawn\) 1,157 43')
        for drawing in drawings(text):
            if drawing.get('class', '').startswith('map'):
                written = ' '.join(one.text for one in drawing.iter(SVG + 'text'))
                self.assertRegex(written, r'Drawn: origin moved to \(3.425.000, 5.812.000\)')

    def test_a_run_that_was_turned_away(self):
        seen = ' '.join(words(sample_page('turned_away')).split())
        self.assertRegex(seen, r'Coordinates as entered refused \(19\) – Origin moved')
        self.assertIn('As entered the map is turned away. Refused (19).', seen)
        self.assertIn('The model was not fitted to hollow ones', seen)

    def test_as_entered_is_written_on_the_map(self):
        self.assertIn('>Drawn: coordinates as entered<', page(samples.grid_map(4, 4)))

    def test_units_in_the_legends(self):
        text = sample_page('plain')
        self.assertIn('<h2>Level, m</h2>', text)
        self.assertIn('<h2>Standard deviation, m</h2>', text)
        self.assertIn('contour line, every 0.5 m', text)

    def test_foot(self):
        """The day, the list and the program, each by the first 16 digits of its checksum; all digits where the pointer is."""
        text = sample_page('plain')
        self.assertIn('Made on 2026-11-17 from lower meadows.csv (SHA-256 0123456789abcdef ) by wellmap (SHA-256 fedcba9876543210 ).',
                      ' '.join(words(text).split()))
        for digits in ('0123456789abcdef', 'fedcba9876543210'):
            self.assertIn('title="%s"' % (digits * 4), text)
        self.assertNotIn('<footer', page(samples.grid_map(3, 3, source=None)))

    def test_notes_and_refusals(self):
        m = samples.crowded()
        seen = words(sample_page('crowded'))
        for sentence in m.notes + m.refused:
            self.assertIn(sentence, seen)

    def test_options_are_in_one_piece(self):
        m = samples.grid_map(4, 4)
        m.notes, m.refused = ['Taken: --sill 2.'], ['Raise --regularization.']
        for option in ('--sill', '--regularization'):
            self.assertIn('<span class="option">%s</span>' % option, page(m))

    def test_hatching_only_where_nodes_failed(self):
        failed = re.search(r'<path id="ground-failed" d="([^"]*)"', sample_page('two_runs')).group(1)
        self.assertTrue(failed)
        self.assertIn('<path id="ground-failed" d=""/>', page(samples.grid_map(5, 5)))

    def test_deviation_has_its_own_picture_and_legend(self):
        text = page(samples.grid_map(10, 8))
        self.assertIn('id="show-deviation"', text)
        self.assertIn('<div class="legend of-deviation">', text)
        level, deviation = (re.search(r'<g id="ground-%s">(.*?)</g>' % n, text).group(1) for n in ('level', 'deviation'))
        self.assertTrue(level and deviation and level != deviation)


if __name__ == '__main__':
    unittest.main()
