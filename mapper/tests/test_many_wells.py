"""Lists of 49 to 96 wells: their figures are those of the library's call, bit for bit, and the page says so; up to 48 they are the program's."""
from mapper.doubts.well_words import level
from mapper.lists.wells import read_wells
from mapper.making import Made
from mapper.options import options
from mapper.runs import building
from mapper.runs.by_library import ByLibrary
from mapper.runs.by_program import ByProgram, printed
from mapper.runs.lost_digits import drawn_map
from mapper.runs.origin import AS_ENTERED
from mapper.runs.sheets import Sheets
from mapper.runs.survey_file import DRIFT, NODES, WELLS, packed, version
from mapper.runs.ways import BY_CALL, TOO_MANY
from mapper.tests.support import NUMBERS, SAMPLES, Folder, nakwemol
from mapper.tests.test_ways import ended

COUNTIES = SAMPLES / 'two_counties.csv'
ROWS = [f'W{i + 1},{37 * i % 100 + 0.5 * i},{61 * i % 97},{20 + 0.25 * (i % 7)}\n' for i in range(200)]
NOTE = BY_CALL % TOO_MANY


def some(count):
    return 'name,x,y,level\n' + ''.join(ROWS[:count])


def drawn(*words):
    """The map that the tool draws."""
    made = Made(options([str(word) for word in words]), lambda sentence: None)
    return made, drawn_map(made)[0]


def called(wells, places, trend=1):
    """What the library's call gives for wells at places, with the model of NUMBERS and the tool's own r and t."""
    variogram = nakwemol.Variogram(nakwemol.VariogramModel.SPHERICAL, 0.0, 1.0, 150.0)
    asked = nakwemol.UniversalKrigingOptions([trend], variogram, 1e-10)
    return nakwemol.universal_kriging_fit([(well.x, well.y) for well in wells], [well.level for well in wells], asked, places, tolerance=1e-9)


class ByTheCall(Folder):
    def test_every_figure_is_that_of_the_call(self):
        """Three sheets, with a trend: the nodes, the wells held to the others, and the trend's estimate; by their bits."""
        for count in (49, 60, 96):
            made, m = drawn(self.file(some(count)), *NUMBERS, '--grid', '15x14', '--trend', 'linear')
            self.assertIsInstance(made.way(), ByLibrary)
            self.assertEqual((len(m.wells), m.notes[-1:], m.source.by), (count, [NOTE], "the library's nakwemol_fit"))
            places = list(zip(m.nodes.x, m.nodes.y))
            found = [called(m.wells, places[k:k + 100], 2) for k in range(0, len(places), 100)]
            for mine, theirs in ((m.nodes.level, 'predicted'), (m.nodes.variance, 'variance'), (m.nodes.verdict, 'verdicts')):
                self.assertEqual(packed(mine), packed(x for each in found for x in getattr(each, theirs)), (count, theirs))
            self.assertEqual(packed(m.runs[m.drawn].estimate), packed(found[0].trend))
            for i in (0, count // 2, count - 1):
                others = called(m.wells[:i] + m.wells[i + 1:], [(m.wells[i].x, m.wells[i].y)], 2)
                self.assertEqual((m.left_out[i].level, m.left_out[i].deviation), (others.predicted[0], others.variance[0] ** 0.5))

    def test_48_by_the_program(self):
        """The same list, cut: and both ways give its bits."""
        made, m = drawn(self.file(some(48)), *NUMBERS, '--grid', '5x4')
        self.assertIsInstance(made.way(), ByProgram)
        self.assertEqual((m.source.by, NOTE in m.notes), ('wellmap', False))
        sheets = Sheets(made.survey, m.nodes, made.outside, AS_ENTERED)
        self.assertEqual(ended(made.way(), sheets, 0), ended(ByLibrary(building.library(print), nakwemol), sheets, 0))
        self.assertEqual(packed(m.nodes.level), packed(called(m.wells, list(zip(m.nodes.x, m.nodes.y))).predicted))

    def test_the_page_and_the_table_say_so(self):
        said = self.made(self.file(some(60)), *NUMBERS, '--grid', '3x3')
        self.assertIn(NOTE, said)
        self.assertIn("by the library's nakwemol_fit (SHA-256", (self.folder / 'wells.html').read_text().replace('&#x27;', "'"))
        self.assertEqual(self.judgements()[-1], "Worked out by the library's nakwemol_fit.")

    def test_limits_are_those_of_the_calls(self):
        self.assertEqual((WELLS, DRIFT, NODES), (nakwemol.MOST_WELLS, nakwemol.MOST_COLUMNS, nakwemol.MOST_NODES))


class Otherwise(Folder):
    def test_at_a_place(self):
        wells = self.file(some(96))
        (wanted,) = called(read_wells(wells).wells, [(60, 40)]).predicted
        self.assertIn(f'At (60, 40), among the wells: {level(wanted)} m ± ', self.made(wells, *NUMBERS, '--at', '60,40'))

    def test_near_96_of_200(self):
        self.assertIn('This list has 200 wells. --near X,Y takes the 96 nearest', self.refused(self.file(some(200)), *NUMBERS))
        said = self.made(self.file(some(200)), *NUMBERS, '--near', '50,50', '--at', '50,50')
        self.assertIn('Of the 200 wells in the list the 96 nearest to 50,50 are taken, as asked by --near', said)
        self.assertIn(NOTE, said)

    def test_joined_wells(self):
        """60 lines, one of them a second reading: both reasons are said, and the readings are told apart."""
        text = some(59) + 'again,0.003,0,20.01\n'
        said = self.made(self.file(text), *NUMBERS, '--same-spot', '0.01', '--grid', '4x3')
        self.assertIn('and not from the program wellmap: this takes at most 48 wells, and the survey files that this reads do not carry', said)
        self.assertIn('Wells at one spot are told apart by --regularization 1e', said)
        self.assertIn('The arithmetic held at 12 of 12 nodes', said.splitlines()[-1])

    def test_a_kept_survey_file(self):
        """Version 2, the third byte from its end, above 48 wells; the proved reader reads it, and it is what the proved writer writes. The program refuses it
        by 9, as the page says."""
        self.assertEqual([version(count) for count in (1, 48, 49, 96, 97)], [1, 1, 2, 2, 1])
        for count, written in ((48, 1), (60, 2)):
            wells, file = self.file(some(count)), self.folder / 'kept.survey'
            self.made(wells, *NUMBERS, '--grid', '3x3', '--survey', file)
            data = file.read_bytes()
            found = nakwemol.read_survey(data)
            self.assertEqual((data[-3], len(found.values), len(found.nodes)), (written, count, 18))
            self.assertEqual(found.values, [20 + 0.25 * (i % 7) for i in range(count)])
            self.assertEqual(nakwemol.write_survey(found), data)
            self.assertEqual(printed(building.program(print), data) == b'refused 9\n', written == 2)

    def test_what_the_program_is_to_run(self):
        """Sheets for elsewhere and the program's own lines: 48 wells, the nearest to a place where there are more."""
        wells, sheets = self.file(some(60)), self.folder / 'sheets'
        for words in (('--listing',), ('--sheets', sheets)):
            self.assertIn('This list has 60 wells. Without --sheets and --listing all of them are taken. --near X,Y takes the 48 nearest to a place: --near ',
                          self.refused(wells, *NUMBERS, *words))
        self.assertIn('the 48 nearest to 50,50 are taken', self.made(wells, *NUMBERS, '--grid', '3x3', '--listing', '--near', '50,50'))
        said = self.made(wells, *NUMBERS, '--grid', '3x3', '--sheets', sheets, '--near', '50,50')
        self.assertIn('the 48 nearest to 50,50 are taken', said)
        self.assertEqual((sheets / '000001.survey').read_bytes()[-3], 1)


class TwoCounties(Folder):
    """samples/two_counties.csv: 72 wells."""

    def test_as_it_stands(self):
        """The water falls to the south-east, by 1.1 m a kilometre: 0.9 to the east and 0.6 to the south went in."""
        for words, falls in (((), 'without a slope'), (('--trend', 'linear'), 'The water table falls 1.1 m a kilometre to the south-east')):
            said = self.made(COUNTIES, '--out', self.folder, '--grid', '6x4', *words)
            self.assertIn(NOTE, said)
            self.assertIn(falls, said)
            self.assertIn('The arithmetic held at 24 of 24 nodes; nothing doubtful was found in the list', said.splitlines()[-1])
