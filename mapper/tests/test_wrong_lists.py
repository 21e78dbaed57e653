"""Every list of wrong_lists.py becomes what it has to become: no wrong list leaves a map that nothing is doubted about."""
import html
import re

from mapper.doubts.judgements import NO_DOUBT
from mapper.tests.support import Folder
from mapper.tests.wrong_lists import ALL, DOUBTED, EAST, GOOD, NORTH, REFUSED, listed

NODES = 'name,x,y\n' + ''.join(f'N{i},{EAST + 700 * i + 300},{NORTH + 2900 - 600 * i}\n' for i in range(4))
FAR = f'name,x,y\nfar,{EAST + 40000},{NORTH + 30000}\n'


class WrongLists(Folder):
    plain = {}

    def test_every_list(self):
        nodes, far = self.file(NODES, 'nodes.csv'), self.file(FAR, 'far.csv')
        for name, case in ALL.items():
            with self.subTest(name):
                words = [far if word == 'FAR' else word for word in case.options]
                where = [] if '--nodes' in words else ['--nodes', nodes]
                getattr(self, case.outcome)(case, [self.file(case.text), *where, *words])

    def told(self, words, sentences):
        """Whether these words stand in sentences, which may begin with one of them."""
        for word in words:
            self.assertIn(word.lower(), sentences.lower())

    def refused(self, case, words):
        self.clear()
        self.told(case.words, super().refused(*words))

    def drawn(self, words):
        """What a run said; what stands before the header of its table; and the page's judgement of the list, with its kinds."""
        self.clear()
        said = self.made(*words)
        table, page = ((self.folder / name).read_text() for name in ('wells.map.csv', 'wells.html'))
        (_, arithmetic, _), (_, kind, judgement) = re.findall(r'<div class="judgement (arithmetic|list|list grave) (\w+)">(.*?)</div></div>', page, re.S)
        before = ''.join(line + '\n' for line in table.splitlines() if line.startswith('# '))
        return (said, before, html.unescape(re.sub('<[^>]*>', '', judgement))), {arithmetic, kind}

    def doubted(self, case, words):
        texts, kinds = self.drawn(words)
        for text in texts:
            self.assertNotIn(NO_DOUBT, text.lower())
            self.told(case.words, text)
        self.assertNotIn('sound', kinds)

    def noted(self, case, words):
        texts, kinds = self.drawn(words)
        self.told(case.words, texts[0])
        for text in texts:
            self.told((NO_DOUBT,), text)
        self.assertEqual(kinds, {'sound'})

    def good(self, case, words):
        self.noted(case, words)
        self.assertEqual(self.levels(), self.plain_levels(words))

    def plain_levels(self, words):
        """The levels of the plain list with the same trend, worked out once."""
        trend = tuple(words[words.index('--trend'):][:2]) if '--trend' in words else ()
        if trend not in self.plain:
            self.made(self.file(listed()), '--nodes', self.folder / 'nodes.csv', *trend)
            self.plain[trend] = self.levels()
        return self.plain[trend]

    def levels(self):
        return [round(float(row[3]), 2) for row in self.rows()]

    def clear(self):
        for name in ('wells.html', 'wells.map.csv'):
            (self.folder / name).unlink(missing_ok=True)


class Enough(Folder):
    def test_outcomes(self):
        """Seventy lists and more, and each outcome often."""
        outcomes = [case.outcome for case in ALL.values()]
        self.assertGreaterEqual(len(outcomes), 70)
        self.assertGreaterEqual(min(map(outcomes.count, (REFUSED, DOUBTED, GOOD))), 15)
