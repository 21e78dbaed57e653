"""--same-spot: its distances, what it does not go with, what is doubted of it, and the sample with wells that were read twice."""
import re

from mapper.doubts.same_spot import same_spot_doubts
from mapper.doubts.spots import spot_doubts
from mapper.joined_wells import joined_wells
from mapper.making import Made
from mapper.options import options
from mapper.records import Variogram, Well
from mapper.runs.lost_digits import drawn_map
from mapper.runs.survey import Survey
from mapper.tests.support import FOUR, SAMPLES, Folder

YARD = SAMPLES / 'yard.csv'
TWICE = FOUR + 'A,0.004,0.002,10.1\n'
MODEL = ('--nugget', '0', '--sill', '1', '--range', '150')


def made(*words):
    return Made(options([str(word) for word in words]), lambda sentence: None)


def mapped(*words):
    return drawn_map(made(*words))[0]


class Distances(Folder):
    def test_wrong_ones(self):
        """Metres above 0; the least is 2^-52, as the proved call has it."""
        for text in ('0', '-0', '-1', 'nan', 'inf', '-inf', '2.2204460492503128e-16', '1e-300', '5mm', '0,01', '', 'near'):
            said = self.refused(self.file(FOUR), f'--same-spot={text}', status=2)
            self.assertIn(f'{text} is no distance; say how many metres, a number above 0, such as 0.01 for a centimetre', said)

    def test_right_ones(self):
        for text in ('2.220446049250313e-16', '0.01', '1e-3', '.5'):
            self.assertEqual(options(['wells.csv', '--same-spot', text]).same_spot, float(text))

    def test_what_a_file_cannot_carry(self):
        wells, without = self.file(FOUR), 'needs survey files, which do not carry the same-spot distance; '
        for words, said in ((('--survey', 'a'), '--survey needs survey files, which do not carry the same-spot distance; leave out --survey, or --same-spot'),
                            (('--listing',), 'which prints no lines: leave out --listing, or --same-spot'),
                            (('--sheets', 'a'), 'leave out --sheets, and all sheets are run here, --jobs of them side by side; or leave out --same-spot')):
            found = self.refused(wells, '--same-spot', '0.01', *words, status=2)
            self.assertIn(said, found)
            self.assertIn(f'{words[0]} {without}', found)
        self.assertIn('leave out --same-spot', self.refused('--collect', self.folder, '--same-spot', '0.01', status=2))


class Doubted(Folder):
    def sentences(self, places, below):
        wells, joins = joined_wells([Well(str(i), x, y, 0.0, line=i + 2) for i, (x, y) in enumerate(places)], below)
        return [(doubt.sentence, doubt.grave) for doubt in same_spot_doubts(wells, joins, below)]

    def test_short_beside_the_wells(self):
        """Wells 100 m apart: 10 m are a tenth of that, and not doubted; all of them read twice changes nothing."""
        row = [(100.0 * i, 0.0) for i in range(6)]
        self.assertEqual(self.sentences(row, 10.0), [])
        self.assertEqual(self.sentences(row + [(x + 0.003, 0.0) for x, _ in row], 0.01), [])

    def test_long(self):
        row = [(100.0 * i, 0.0) for i in range(6)]
        ((said, grave),) = self.sentences(row, 10.1)
        self.assertFalse(grave)
        self.assertTrue(said.startswith('The same-spot distance of 10.1 m is long for these wells, which mostly stand 100 m apart. Wells may'), said)
        self.assertTrue(said.endswith('Give --same-spot in metres, and as short as what was read twice lies apart: 0.01 is a centimetre.'), said)
        self.assertEqual([grave for _, grave in self.sentences(row, 50.0)], [False])
        ((said, grave),) = self.sentences([*row, (30.0, 0.0)], 60.0)
        self.assertTrue(grave)
        self.assertIn('100 m apart, and joins 1 well: the farthest is 6 (line 8), 30 m from 0 (line 2). Wells may', said)

    def test_far_too_long_ends_the_run(self):
        said = self.refused(SAMPLES / 'valley.csv', '--out', self.folder, '--same-spot', '100')
        self.assertIn('The same-spot distance of 100 m is long for these wells', said)
        self.assertIn('--anyway draws it all the same', said)
        self.made(SAMPLES / 'valley.csv', '--out', self.folder, '--same-spot', '100', '--anyway', '--grid', '2x2')
        self.assertIn('Doubtful: The same-spot distance of 100 m is long', self.judgements('valley.map.csv')[1])

    def test_all_wells_as_one(self):
        self.assertIn('The same-spot distance of 1000 m takes all 24 wells as one spot. Give --same-spot in metres',
                      self.refused(SAMPLES / 'valley.csv', '--out', self.folder, '--same-spot', '1000'))
        self.assertEqual(self.sentences([(5.0, 5.0)] * 3, 0.01), [])  # they stood there before

    def test_levels_that_are_no_readings_of_one_well(self):
        """Half a metre is what two readings may differ by; a line that repeats another is a mistake whatever was asked for."""
        def said(*levels, place=0.003, name='B'):
            wells = [Well('A', 0.0, 0.0, levels[0], line=2), *(Well(name, place, 0.0, level, line=i) for i, level in enumerate(levels[1:], 3)),
                     Well('C', 50.0, 0.0, 7.0, line=9)]
            survey = Survey(joined_wells(wells, 0.01)[0], 'constant', None, Variogram('spherical', 0.0, 1.0, 100.0), 1e-6, 1e-9, 0.01)
            return [doubt.sentence for doubt in spot_doubts(survey)]
        self.assertEqual(said(10.0, 10.5), [])
        self.assertEqual(said(10.0, 10.51), ['A (line 2) and B (line 3) are taken as one spot, with levels of 10 and 10.51 m: keep the one that counts, and '
                                             'take the others out.'])
        self.assertEqual(said(10.0, 10.0, name='A'), [])
        self.assertEqual(said(10.0, 10.0, name='A', place=0.0), ['Line 3 repeats line 2 (A): take one out.'])

    def test_a_regularization_that_is_given(self):
        """It is kept; one too small to tell the two apart is doubted."""
        for given, doubts in (('1e-6', 0), ('0.001', 0), ('1e-9', 1)):
            found = made(self.file(TWICE), *MODEL, '--same-spot', '0.01', '--regularization', given)
            self.assertEqual((found.survey.regularization, len(found.doubts)), (float(given), doubts))
        self.assertEqual(found.doubts[0].sentence, 'The regularization, 1e-09, is too small to tell wells at one spot apart, and digits are lost. Leave '
                                                   '--regularization out beside --same-spot, or give 1e-06 or more.')
        self.assertEqual(made(self.file(FOUR), *MODEL, '--same-spot', '0.01', '--regularization', '0').doubts, [])

    def test_readings_at_the_very_same_place(self):
        """Without it such a list is refused, as nothing says which reading counts; with it both do, as those a few millimetres apart. A choice is kept."""
        wells = self.file(FOUR + 'B,100,0,11.2\nB,100.003,0,11.3\n')
        self.assertIn('Choose by --readings first, last or average', self.refused(wells, *MODEL, '--at', '50,50'))
        said = self.made(wells, *MODEL, '--at', '50,50', '--same-spot', '0.01')
        self.assertIn('B (line 6) at that of B (line 3), at the same place and B (line 7) at that of B (line 3), 0.003 m away.', said)
        chosen = self.made(wells, *MODEL, '--at', '50,50', '--same-spot', '0.01', '--readings', 'last')
        self.assertIn('B stands in the list with 2 readings; the last is taken.\n1 well is taken to be at the spot of another', chosen)

    def test_too_few_spots_for_the_trend(self):
        wells = self.file('name,x,y,level\nA,0,0,10\nB,100,0,11\nC,0.001,0,12.5\n')
        self.assertIn('The linear trend needs wells at 3 spots, and --same-spot leaves 2. Measure more wells, or choose a simpler --trend.',
                      self.refused(wells, *MODEL, '--trend', 'linear', '--same-spot', '0.01'))

    def test_a_name_at_two_places_in_a_yard(self):
        """What is advised joins them."""
        for away, advised in ((0.004, '0.01'), (0.01, '0.1'), (0.5, '1')):
            wells = self.file(FOUR + f'B,{100 + away},0,11.1\n')
            said = self.made(wells, *MODEL, '--grid', '2x2')
            self.assertIn(f'of its own; if it is one well that was read more than once, --same-spot {advised} takes it as one spot.', said)
            self.assertIn('B (line 6) at that of B (line 3), ', self.made(wells, *MODEL, '--grid', '2x2', '--same-spot', advised))
        self.assertNotIn('--same-spot', self.made(self.file(FOUR + 'B,101,0,11.1\n'), *MODEL, '--grid', '2x2'))


class Yard(Folder):
    """samples/yard.csv: 14 wells, three of them read twice."""

    def test_without_it(self):
        said = self.made(YARD, '--out', self.folder, '--grid', '5x4')
        self.assertEqual(re.findall(r'Doubtful: (Y\d+) is the name of 2 wells', said), ['Y3', 'Y7', 'Y12'])
        self.assertEqual(self.judgements('yard.map.csv')[-1], 'Worked out by wellmap.')

    def test_as_one_spot_each(self):
        for trend in ('constant', 'linear', 'quadratic'):
            said = self.made(YARD, '--out', self.folder, '--grid', '12x10', '--same-spot', '0.01', '--trend', trend)
            self.assertIn('3 wells are taken to be at the spot of another, nearer than 0.01 m', said)
            self.assertIn('The arithmetic held at 120 of 120 nodes; nothing doubtful was found in the list', said.splitlines()[-1])
        self.assertIn('with the origin moved to (4512300, 5403200) 120 do; the map is drawn with the origin moved.', said)

    def test_a_place_of_a_second_reading(self):
        """At Y3, which was read as 96.29 and 96.32, wherever in its few millimetres."""
        for place in ('4512466.909,5403420.495', '4512466.907,5403420.493', '4512466.905,5403420.494'):
            said = self.made(YARD, '--same-spot', '0.01', '--at', place)
            self.assertRegex(said, r'At \(4512466\.90\d, 5403420\.49\d\), among the wells: 96\.3(05|1|0)? m ± 0\.01 m')

    def test_near(self):
        said = self.made(YARD, '--same-spot', '0.01', '--near', '4512500,5403400', '--at', '4512500,5403400')
        self.assertIn('--near 4512500,5403400 changes nothing: all 17 wells of the list are taken.', said)
        self.assertIn('3 wells are taken to be at the spot of another', said)

    def test_readings_of_a_well_are_left_out_together(self):
        """What the others say of Y3 is no reading of Y3, and the same for both of them; and the deviations are not swollen by it."""
        m = mapped(YARD, '--same-spot', '0.01', '--trend', 'linear', '--grid', '2x2')
        first, second = (i for i, well in enumerate(m.wells) if well.name == 'Y3')
        self.assertEqual(m.left_out[first], m.left_out[second])
        self.assertGreater(m.left_out[first].deviation, 0.02)
        alone = mapped(YARD, '--trend', 'linear', '--grid', '2x2')
        self.assertLess(alone.left_out[first].deviation, 0.02)

    def test_both_readings_wrong(self):
        """They are one well, which stands out from the others: 95.08 and 95.10 without the first digit."""
        text = re.sub(r'(?m)^(Y7,.*),95\.(08|10)$', r'\1,5.\2', YARD.read_text())
        said = self.made(self.file(text), '--same-spot', '0.01', '--grid', '2x2', '--trend', 'linear')
        self.assertRegex(said, r'Doubtful: Look at Y7 \(line (8|17)\) first: its neighbours say 9[45]\.\d+ m, the list says 5\.(08|1) m\.')

    def test_external_column_of_joined_wells(self):
        """Grounds that differ by a centimetre at one spot would tell how the level goes with the ground, and wrongly."""
        rows = [f'W{i},{37 * i % 100},{61 * i % 97},{10 + 0.5 * (i * i % 7)},{20 + i * i % 7}' for i in range(12)]
        wells = self.file('name,x,y,level,ground\n' + '\n'.join([*rows, 'again,37.002,61,10.55,21.01']) + '\n')
        m = mapped(wells, *MODEL, '--same-spot', '0.01', '--external', 'ground', '--at', '50,50,23')
        self.assertLess(abs(m.runs[0].estimate[1] - 0.5), 0.01)
        self.assertLess(abs(m.nodes.level[0] - 11.5), 0.05)
