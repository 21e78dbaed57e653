"""The two judgements at the head of the page: never one for the other, and no doubt beside a blue banner."""
import re
import unittest

from mapper.drawing.colours import linear
from mapper.page.banner import SIGNS, banner
from mapper.page.page import beside
from mapper.records import Doubt, Run
from mapper.tests import samples
from mapper.tests.test_page import sample_page, words

FAR = Doubt('BH-9 (line 7) stands 4000 km from the others: look at its coordinates.')
SENTINEL = Doubt('BH-99 (line 32) has the level \u22129999.', True)


def judged(doubts=(), failed=0, nodes=9):
    """The banner of a map with these doubts, of whose nodes some failed."""
    m = samples.grid_map(3, 3, wells=4, doubts=list(doubts))
    m.runs = [Run((0.0, 0.0), {0: nodes - failed, 255: failed} if failed else {0: nodes})]
    return banner(m)


def kinds(text):
    """Of the arithmetic and of the list: sound, failed or doubted."""
    return re.findall(r'<div class="judgement \w+(?: grave)? (\w+)">', text)


def seen(text):
    return ' '.join(words(text).split())


class Judgements(unittest.TestCase):
    def test_nothing_is_wrong(self):
        self.assertEqual(seen(judged()), 'The arithmetic held at 9 of 9 nodes. Nothing doubtful was found in the list.')
        self.assertEqual(kinds(judged()), ['sound', 'sound'])
        self.assertIn('held at 1 of 1 node.', seen(judged(nodes=1)))

    def test_nodes_failed(self):
        said = seen(judged(failed=2))
        self.assertEqual(said, 'The arithmetic held at 7 of 9 nodes. 2 did not pass the audit and have no level. Nothing doubtful was found in the list.')
        self.assertEqual(kinds(judged(failed=2)), ['failed', 'sound'])
        self.assertIn(' 1 did not pass the audit and has no level.', seen(judged(failed=1)))

    def test_a_doubt_leaves_nothing_blue(self):
        text = judged([FAR])
        self.assertEqual(kinds(text), ['doubted', 'doubted'])
        self.assertEqual(seen(text), 'The arithmetic held at 9 of 9 nodes. 1 doubt about the list: ' + FAR.sentence)
        self.assertNotIn('Nothing doubtful', text)

    def test_failed_and_doubted(self):
        text = judged([FAR], failed=9)
        self.assertEqual(kinds(text), ['failed', 'doubted'])
        self.assertIn('held at 0 of 9 nodes. 9 did not pass', seen(text))
        self.assertIn(FAR.sentence, seen(text))

    def test_a_grave_doubt_comes_first_and_says_what_it_is(self):
        text = judged([FAR, SENTINEL])
        self.assertEqual(kinds(text), ['doubted', 'doubted'])
        self.assertIn('class="judgement list grave doubted"', text)
        self.assertEqual(seen(text), 'The arithmetic held at 9 of 9 nodes. 2 doubts about the list: This cannot be a water table, and was drawn by --anyway : '
                         + SENTINEL.sentence + ' ' + FAR.sentence)
        self.assertEqual(text.count('--anyway'), 1)

    def test_each_doubt_is_a_line(self):
        self.assertEqual(judged([FAR, SENTINEL, FAR]).count('<li>'), 3)

    def test_names_are_escaped(self):
        self.assertIn('&lt;b&gt;W&lt;/b&gt;', judged([Doubt('<b>W</b> is far off.')]))


class OnThePage(unittest.TestCase):
    def test_every_sample(self):
        expected = {'doubted': ['doubted', 'doubted'], 'grave': ['doubted', 'doubted'], 'failed_and_doubted': ['failed', 'doubted'],
                    'plain': ['sound', 'sound'], 'tall': ['sound', 'sound'], 'none': ['failed', 'sound'], 'two_runs': ['failed', 'sound']}
        for name, kind in expected.items():
            self.assertEqual(kinds(sample_page(name)), kind, name)

    def test_no_page_says_that_all_is_well(self):
        for name in samples.SAMPLES:
            self.assertNotRegex(sample_page(name), '(?i)(all|every)[^.]{0,30} passed the audit', name)

    def test_in_numbers_too(self):
        self.assertIn('Arithmetic held at 1,200 of 1,200 nodes Doubts none found in the list', seen(sample_page('plain')))
        self.assertIn('Doubts 2', seen(sample_page('doubted')))


def light(colour):
    """Relative luminance of #rrggbb or #rgb, by the Web Content Accessibility Guidelines 2."""
    digits = colour.lstrip('#')
    digits = digits if len(digits) == 6 else ''.join(2 * digit for digit in digits)
    return sum(share * linear(part) for share, part in zip((0.2126, 0.7152, 0.0722), bytes.fromhex(digits)))


def contrast(one, other):
    low, high = sorted((light(one), light(other)))
    return (high + 0.05) / (low + 0.05)


class Seen(unittest.TestCase):
    """Not by colour alone, and with enough contrast."""

    STYLE = beside('style.css')

    def colour(self, name):
        return re.search(r'--%s: (#\w+);' % name, self.STYLE).group(1)

    def ground(self, rule):
        return re.search(re.escape(rule) + r' { [^}]*background: (#\w+);', self.STYLE).group(1)

    def test_the_measure_itself(self):
        self.assertAlmostEqual(contrast('#000', '#ffffff'), 21)
        self.assertAlmostEqual(contrast('#767676', '#ffffff'), 4.54, places=2)  # the lightest grey that the guidelines take on white

    def test_letters(self):
        """7 to 1 is the guidelines' best grade; 4.5 the one that large and small letters need."""
        for ink, rule in (('ink', '.sound'), ('warn', '.failed'), ('ink', '.doubted.judgement'), ('ink', '.doubted.grave'), ('warn', '.doubted.grave'),
                          ('ink', '.failed + .sound')):
            self.assertGreater(contrast(self.colour(ink), self.ground(rule)), 7, rule)
        self.assertGreater(contrast('#ffffff', self.colour('doubt')), 4.5)
        self.assertGreater(contrast(self.colour('doubt'), self.ground('.doubted.judgement')), 4.5)

    def test_a_sign_for_each_kind(self):
        self.assertEqual(len(set(SIGNS.values())), 3)
        for doubts, failed, signs in (((), 0, ['sound', 'sound']), ((FAR,), 0, ['doubted', 'doubted']), ((FAR,), 3, ['failed', 'doubted'])):
            text = judged(doubts, failed)
            self.assertEqual(re.findall(r'class="sign"[^>]*>(.*?)</svg>', text), [SIGNS[sign] for sign in signs])


if __name__ == '__main__':
    unittest.main()
