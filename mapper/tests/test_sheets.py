"""The survey's bytes, held to the proved reader and to samples/, whose bytes and listings another reading made."""
import math
from array import array

from mapper.errors import Refused
from mapper.lists.nodes import unanswered
from mapper.records import Variogram, Well
from mapper.runs.building import program
from mapper.runs.answers import Answer, Damaged
from mapper.runs.by_program import printed
from mapper.runs.listing import parsed
from mapper.runs.running import fill, run, tally
from mapper.runs.sheets import Sheets
from mapper.runs.survey import Survey
from mapper.runs.survey_file import MODELS
from mapper.tests.support import SAMPLES, Folder, bits, nakwemol

TRENDS = {1: 'constant', 2: 'linear', 3: 'quadratic'}


def read(name):
    """A sample as the proved reader gives it, and as sheets without a note."""
    s = nakwemol.read_survey((SAMPLES / f'{name}.survey').read_bytes())
    column = 'ground' if 4 in s.bases else None
    more = [{column: value} if column else {} for value in (s.external or s.values)]
    wells = [Well(str(i), *s.coords[2 * i:2 * i + 2], level, more[i]) for i, level in enumerate(s.values)]
    model = {code: word for word, code in MODELS.items()}[s.variogram.model]
    survey = Survey(wells, TRENDS[s.bases[0]], column, Variogram(model, *s.variogram[1:4]), s.regularization, s.tolerance)
    return s, survey, unanswered(array('d', s.nodes[::2]), array('d', s.nodes[1::2])), array('d', s.node_external)


class Bytes(Folder):
    def test_samples_are_written_as_they_are_stored(self):
        for name in ('two_wells', 'plain', 'seven_figures', 'same_spot', 'singular'):
            _, survey, nodes, outside = read(name)
            self.assertEqual(Sheets(survey, nodes, outside, (0.0, 0.0))[0], (SAMPLES / f'{name}.survey').read_bytes(), name)

    def test_external_column(self):
        """The stored file has a note in front, which S counts; ours has none."""
        stored, sheet = (SAMPLES / 'valley.survey').read_bytes(), Sheets(*read('valley')[1:], (0.0, 0.0))[0]
        note = stored.index(b'\n') + 1
        self.assertEqual(sheet[:-14], stored[note:-14])
        self.assertEqual(sheet[-14:], bytes(4) + stored[-10:])

    def test_sheets_of_a_hundred(self):
        s, survey, _, _ = read('valley')
        x, y, ground = (array('d', (start + i for i in range(250))) for start in (0, 1000, 2000))
        sheets = Sheets(survey, unanswered(x, y), ground, (0.0, 0.0))
        found = [nakwemol.read_survey(sheets[k]) for k in range(len(sheets))]
        self.assertEqual([len(each.nodes) // 2 for each in found], [100, 100, 50])
        self.assertEqual([z for each in found for z in each.nodes[::2]], list(x))
        self.assertEqual([z for each in found for z in each.nodes[1::2]], list(y))
        self.assertEqual([z for each in found for z in each.node_external], list(ground))
        self.assertTrue(all(each.values == s.values and each.coords == s.coords and each.external == s.external for each in found))

    def test_moved(self):
        s, survey, nodes, outside = read('seven_figures')
        moved = nakwemol.read_survey(Sheets(survey, nodes, outside, (4512300.0, 5403100.0))[0])
        self.assertEqual(moved.coords, [z - (4512300.0, 5403100.0)[i % 2] for i, z in enumerate(s.coords)])
        self.assertEqual(moved.nodes[:4], [20.0, 20.0, 60.0, 20.0])
        self.assertEqual((moved.values, moved.variogram, moved.bases), (s.values, s.variogram, s.bases))


class Bounded(Folder):
    def test_few_sheets_are_under_way(self):
        """Of 300 sheets at most four for each of two processes are made and not yet taken."""
        nodes = unanswered(*(array('d', bytes(8 * 30000)) for _ in 'xy'))
        made, taken, most = [], [], []

        class Counted:
            """A way that counts the sheets which are under way."""
            def answer(self, sheets, sheet):
                made.append(sheet)
                most.append(len(made) - len(taken))
                return Answer((4.0,) * 100, (1.5,) * 100, bytes(100), (0.5,) * 3, (0.5,) * 3)
        found = run(Counted(), Sheets(read('plain')[1], nodes, array('d'), (0.0, 0.0)), 2, taken.append)
        self.assertEqual((found.verdicts, len(made), sum(taken)), ({0: 30000}, 300, 30000))
        self.assertLessEqual(max(most), 8)
        self.assertEqual((set(nodes.level), set(nodes.variance), found.estimate), ({4.0}, {1.5}, (0.5, 0.5, 0.5)))


ONE = b'nodes 1\n1 4010000000000000 3ff8000000000000 0\n'
B = ONE + b'coef 3fe0000000000000\ntrend 4010000000000000\n'  # the scope's case B, whose trend is a level of 4


class Listings(Folder):
    def test_what_the_reference_shows(self):
        self.assertEqual(parsed(B, 1), ((4.0,), (1.5,), b'\0', (0.5,), (4.0,), B))

    def test_a_sample(self):
        levels, variances, verdicts, multipliers, trend, _ = parsed((SAMPLES / 'plain.listing').read_bytes(), 25)
        self.assertEqual((levels[1], variances[1]), (bits('4047ad1b9da6fb2f'), bits('3fd1c3668bfd78d9')))
        self.assertEqual((verdicts, len(multipliers), len(trend)), (bytes(25), 3, 3))
        self.assertEqual(set(parsed((SAMPLES / 'seven_figures.listing').read_bytes(), 25).verdicts), {1})

    def test_trend_in_the_order_of_the_columns(self):
        coefs, trend = 3 * b'coef 3fe0000000000000\n', b'trend 4048000000000000\ntrend bf50624dd2f1a9fc\ntrend 7ff8000000000000\n'
        found = parsed(ONE + coefs + trend, 1).trend
        self.assertEqual(found[:2], (48.0, -0.001))
        self.assertTrue(math.isnan(found[2]))

    def test_program_prints_what_is_stored(self):
        for name in ('plain', 'valley', 'seven_figures', 'singular'):
            sheet = Sheets(*read(name)[1:], (0.0, 0.0))[0]
            self.assertEqual(printed(program(print), sheet), (SAMPLES / f'{name}.listing').read_bytes(), name)

    def test_refusal(self):
        with self.assertRaises(Refused) as refused:
            parsed((SAMPLES / 'singular.listing').read_bytes(), 1)
        self.assertEqual(refused.exception.number, 19)

    def test_damaged(self):
        whole = (SAMPLES / 'plain.listing').read_bytes()
        cut, lines = whole[:len(whole) // 2], whole.split(b'\n')
        swapped = b'\n'.join([lines[0], lines[2], lines[1], *lines[3:]])
        replaced = whole.replace(b' 0\n', b' \n', 1), whole.replace(b'40', b'4G', 1)
        for listing in (b'', cut, whole[:-1], whole[:-30], swapped, *replaced, b'refused\n', b'refused 19'):
            with self.assertRaises(Damaged):
                parsed(listing, 25)
        with self.assertRaises(Damaged):
            parsed(whole, 24)

    def test_damaged_after_the_nodes(self):
        coef, trend = b'coef 3fe0000000000000\n', b'trend 4010000000000000\n'
        for ending in (trend, trend + coef, coef + trend + coef + trend, coef + trend + b'\n', coef + trend + b'more\n', coef + b'more\n' + trend,
                       coef + b'trend 401000000000000\n', coef + b'trend 40100000000000000\n', coef + b'trend 401000000000000G\n',
                       coef + b'trend 4010000000000000 0\n', coef + b'Trend 4010000000000000\n', b'coef 3fe\n' + trend):
            self.says(ONE + ending, 'it does not end with the multipliers and the trend')
        for ending, counts in ((coef, (1, 0)), (coef + trend + trend, (1, 2)), (2 * coef + trend, (2, 1))):
            self.says(ONE + ending, 'its coef lines (%d) and trend lines (%d) are not as many' % counts)

    def says(self, listing, words):
        with self.assertRaises(Damaged) as damaged:
            parsed(listing, 1)
        self.assertEqual(str(damaged.exception), words, listing)


class OneTrend(Folder):
    """Sheets of one node each, of two wells with a constant trend."""

    def sheets(self):
        two = Survey([Well('A', 0, 0, 2), Well('B', 2, 0, 6)], 'constant', None, Variogram('spherical', 0, 1, 1), 0.0, 0.0)
        sheets = Sheets(two, unanswered(array('d', [1, 1]), array('d', [0, 0])), array('d'), (0.0, 0.0))
        sheets.span = lambda sheet: (sheet, sheet + 1)
        return sheets

    def filled(self, *trends):
        """The run of sheets with these patterns as their trend."""
        sheets = self.sheets()
        for sheet, trend in enumerate(trends):
            fill(sheets, sheet, parsed(B.replace(b'trend 4010000000000000\n', trend), 1))
        return tally(sheets)

    def test_the_same(self):
        self.assertEqual(self.filled(*2 * [b'trend 4010000000000000\n']).estimate, (4.0,))

    def test_a_nan_is_the_same_as_itself(self):
        self.assertTrue(math.isnan(self.filled(*2 * [b'trend 7ff8000000000000\n']).estimate[0]))

    def test_another(self):
        for other in (b'trend 4010000000000001\n', b'trend 7ff8000000000000\n'):
            with self.assertRaises(Damaged) as damaged:
                self.filled(b'trend 4010000000000000\n', other)
            self.assertIn('its trend is not that of the sheets before it', str(damaged.exception))
        with self.assertRaises(Damaged):
            self.filled(b'trend 0000000000000000\n', b'trend 8000000000000000\n')

    def test_of_another_survey(self):
        linear = ONE + 3 * b'coef 3fe0000000000000\n' + 3 * b'trend 3fe0000000000000\n'
        with self.assertRaises(Damaged) as damaged:
            fill(self.sheets(), 0, parsed(linear, 1))
        self.assertEqual(str(damaged.exception), 'its trend has 3 columns, and that of the survey 1')
