"""The two ways to run a sheet, by the program and by the library's call: the same bits wherever both take it, and which of them is asked."""
import hashlib
import math
import os
import subprocess
import unittest
from array import array
from unittest import mock

from mapper.errors import Refused, Stop
from mapper.lists.grid import grid_nodes, grid_of
from mapper.lists.nodes import read_nodes, unanswered
from mapper.lists.wells import ListOptions, read_wells
from mapper.making import Made
from mapper.options import options
from mapper.records import Variogram, Well
from mapper.runs import building
from mapper.runs.by_library import ByLibrary
from mapper.runs.by_program import ByProgram
from mapper.runs.listing import parsed
from mapper.runs.lost_digits import drawn_map
from mapper.runs.origin import AS_ENTERED, corner
from mapper.runs.running import run
from mapper.runs.sheets import Sheets
from mapper.runs.survey import SAME_SPOT, Survey
from mapper.runs.survey_file import packed
from mapper.runs.ways import BY_CALL, NO_DISTANCE, TOO_MANY, way_notes, way_of
from mapper.tests.support import FOUR, NUMBERS, ROOT, SAMPLES, Folder, nakwemol
from mapper.tests.test_sheets import read

TRENDS, MODELS = ('constant', 'linear', 'quadratic'), ('spherical', 'exponential', 'gaussian', 'linear')
ONE = Variogram('spherical', 0.0, 1.0, 1.0)
TWO = [Well('A', 0.0, 0.0, 2.0), Well('B', 2.0, 0.0, 6.0)]
NODE = unanswered(array('d', [1.0]), array('d', [0.0]))


def program():
    return ByProgram(building.program(print))


def library():
    return ByLibrary(building.library(print), nakwemol)


def ended(way, sheets, sheet):
    """An answer by its bits, or the number that a sheet was turned away by."""
    try:
        found = way.answer(sheets, sheet)
    except Refused as refused:
        return refused.number
    return packed(found.levels), packed(found.variances), found.verdicts, packed(found.multipliers), packed(found.trend)


class SameBits(unittest.TestCase):
    def both(self, survey, nodes=NODE, outside=array('d'), origin=AS_ENTERED):
        """What both ways give for every sheet of a survey."""
        sheets, ways = Sheets(survey, nodes, outside, origin), (program(), library())
        found = [[ended(way, sheets, sheet) for sheet in range(len(sheets))] for way in ways]
        self.assertEqual(found[0], found[1], (survey.trend, survey.variogram, origin))
        return found[1]

    def test_every_list_trend_and_model(self):
        for name in ('plain', 'valley', 'yard'):
            wells = read_wells(SAMPLES / f'{name}.csv').wells
            nodes = grid_nodes(grid_of(wells, 4, 3))
            for trend in TRENDS:
                for model in MODELS:
                    survey = Survey(wells, trend, None, Variogram(model, 0.02, 0.6, 250.0), 1e-9, 1e-9)
                    for origin in (AS_ENTERED, corner(wells)):
                        (answer,) = self.both(survey, nodes, origin=origin)
                        self.assertEqual(len(answer[2]), 12)

    def test_an_external_column(self):
        """176 nodes on two sheets, whose trend is the same."""
        found = read_wells(SAMPLES / 'valley.csv', ListOptions('ground'))
        nodes, outside = read_nodes(SAMPLES / 'valley_nodes.csv', 'ground')
        for trend in TRENDS:
            first, second = self.both(Survey(found.wells, trend, 'ground', Variogram('exponential', 0.01, 0.3, 200.0), 1e-10, 1e-9), nodes, outside)
            self.assertEqual((len(first[2]), len(second[2]), first[4]), (100, 76, second[4]))

    def test_stored_listings(self):
        """Which another reading made, so that this holds the call without the program."""
        for name in ('two_wells', 'plain', 'valley', 'limestone', 'basin', 'seven_figures', 'same_spot'):
            _, survey, nodes, outside = read(name)
            stored = parsed((SAMPLES / f'{name}.listing').read_bytes(), len(nodes))
            self.assertEqual(library().answer(Sheets(survey, nodes, outside, AS_ENTERED), 0), stored._replace(printed=b''), name)
        self.assertEqual(self.both(*read('singular')[1:]), [19])

    def test_refused_sheets(self):
        many = [Well(str(i), 37.0 * i % 100, 61.0 * i % 97, 1.0) for i in range(97)]
        for number, survey in ((5, Survey(TWO, 'constant', None, ONE, -1.0, 0.0)), (7, Survey(TWO, 'linear', None, ONE, 0.0, 0.0)),
                               (9, Survey(many, 'constant', None, ONE, 0.0, 0.0)), (10, Survey(TWO, 'constant', None, ONE, 0.0, math.nan)),
                               (11, Survey([Well('A', 0.0, math.inf, 2.0)], 'constant', None, ONE, 0.0, 0.0)),
                               (12, Survey(TWO, 'constant', None, Variogram('exponential', 0.0, 1.0, 0.0), 0.0, 0.0)),
                               (19, Survey(TWO[:1] * 2, 'constant', None, ONE, 0.0, 0.0))):
            self.assertEqual(self.both(survey), [number])

    def test_what_is_no_number(self):
        """Far beyond all reason: x² is past all numbers, and no level comes out. All NaNs are one."""
        wells = [Well(str(i), 1e200 * i, 1e199 * (i * i % 5), float(i)) for i in range(7)]
        (answer,) = self.both(Survey(wells, 'quadratic', None, ONE, 0.0, 1e-9))
        self.assertEqual((answer[2], answer[0]), (b'\xff', packed([math.nan])))


class WhichWay(Folder):
    def survey(self, same_spot, wells=TWO):
        return Survey(wells, 'constant', None, ONE, 0.0, 0.0, same_spot)

    def test_the_program_wherever_it_takes_the_survey(self):
        for same_spot, wells, why in ((None, 2, []), (SAME_SPOT, 2, []), (None, 48, []), (2 * SAME_SPOT, 2, [NO_DISTANCE]), (0.01, 48, [NO_DISTANCE]),
                                      (None, 49, [TOO_MANY]), (None, 96, [TOO_MANY]), (0.01, 49, [TOO_MANY, NO_DISTANCE])):
            survey = self.survey(same_spot, TWO[:1] * wells)
            self.assertIs(type(way_of(survey, print)), ByLibrary if why else ByProgram, (same_spot, wells))
            self.assertEqual(way_notes(survey), [BY_CALL % ', and '.join(why)] if why else [])

    def test_no_file_says_another_survey(self):
        with self.assertRaises(ValueError):
            Sheets(self.survey(0.01), NODE, array('d'), AS_ENTERED)[0]

    def test_library_that_is_none(self):
        """What cannot be loaded, as one that is older than the distance: said in a sentence."""
        words = [str(ROOT / 'map'), self.file(FOUR), *NUMBERS, '--same-spot', '0.01']
        environment = {**os.environ, 'NAKWEMOL_LIBRARY': self.file('no library', 'none.so'), 'PYTHONDONTWRITEBYTECODE': '1'}
        ended = subprocess.run(words, stdout=subprocess.PIPE, stderr=subprocess.PIPE, env=environment)
        self.assertEqual(ended.returncode, 1)
        self.assertRegex(ended.stderr.decode(), r'^map: .*/none\.so: .*\. Remove it, and the archive beside it, and both are built anew by the next run\.\n$')

    def test_answers_that_do_not_go_together(self):
        """Two sheets, the second with another trend."""
        way, nodes = library(), unanswered(*(array('d', bytes(8 * 101)) for _ in 'xy'))
        with mock.patch.object(way, 'answer', lambda sheets, sheet: ByLibrary.answer(way, sheets, sheet)._replace(trend=(4.0 + sheet,))):
            with self.assertRaises(Stop) as stopped:
                run(way, Sheets(self.survey(0.01), nodes, array('d'), AS_ENTERED), 1)
        self.assertIn('gave no answer for sheet 2: its trend is not that of the sheets before it', str(stopped.exception))

    def test_no_compiler(self):
        for folder in ('bin', 'staticlib'):
            (self.folder / 'target' / folder).mkdir(parents=True)
        (self.folder / building.PROGRAM).touch()
        (self.folder / building.ARCHIVE).touch()
        with mock.patch.object(building, 'ROOT', self.folder), mock.patch.dict(os.environ, {'CC': 'no-such-compiler'}):
            os.environ.pop('NAKWEMOL_LIBRARY', None)
            with self.assertRaises(Stop) as stopped:
                way_of(self.survey(0.01), print)
            self.assertIn('There is no C compiler (cc) to link the library of the proved calls with. Install one, or leave --same-spot out.',
                          str(stopped.exception))
            with self.assertRaises(Stop) as stopped:
                way_of(self.survey(None, TWO[:1] * 49), print)
            self.assertIn('Install one, or keep at most 48 wells.', str(stopped.exception))
            self.assertIn('or give --nugget, --sill and --range yourself.', self.refused(self.file(FOUR)))


class OnTheMap(Folder):
    """Valley: no two wells are within a tenth of a millimetre, and no node lies so near to a well, so that the call has to give the program's figures."""

    def rows_of(self, *words):
        self.made(SAMPLES / 'valley.csv', '--out', self.folder, '--grid', '13x9', *words)
        return self.rows('valley.map.csv')

    def test_figures_are_the_same(self):
        for words in (('--trend', 'linear'), ('--trend', 'quadratic', '--model', 'gaussian')):
            self.assertEqual(self.rows_of(*words), self.rows_of(*words, '--same-spot', '0.0001'))

    def test_side_by_side(self):
        self.assertEqual(*(self.rows_of('--same-spot', '0.01', '--jobs', jobs) for jobs in '13'))

    def test_where_the_figures_come_from(self):
        """By checksum and in words: on the page, in the terminal, in the table."""
        words = (self.file(FOUR), *NUMBERS, '--grid', '2x2')
        for more, way, by in (((), program(), 'wellmap'), (('--same-spot', '0.01'), library(), "the library's nakwemol_fit")):
            m, _ = drawn_map(Made(options([*words, *more]), lambda sentence: None))
            with open(way.path, 'rb') as file:
                self.assertEqual((m.source.program, m.source.by), (hashlib.sha256(file.read()).hexdigest(), by))
            said = self.made(*words, *more)
            self.assertEqual(BY_CALL % NO_DISTANCE in said, bool(more))
            self.assertEqual(self.judgements()[-1], f'Worked out by {by}.')
            page = (self.folder / 'wells.html').read_text().replace('&#x27;', "'")
            self.assertIn(f' by {by} (SHA-256 <span class="checksum" title="{m.source.program}">', page)
            self.assertEqual(BY_CALL % NO_DISTANCE in page, bool(more))
