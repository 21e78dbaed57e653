"""The regularization that joined wells get: the least that helps, and what is said where it does not."""
from mapper.making import Made
from mapper.options import options
from mapper.records import Variogram, Well
from mapper.runs.lost_digits import drawn_map, what_helps
from mapper.runs.survey import Survey
from mapper.runs.telling_apart import powers
from mapper.runs.trials import spread_over
from mapper.tests.support import SAMPLES, Folder

YARD = SAMPLES / 'yard.csv'


def mapped(*words):
    return drawn_map(Made(options([str(word) for word in words]), lambda sentence: None))[0]


class Regularization(Folder):
    def test_the_least_that_helps(self):
        """With a quadratic trend a millionth of a thousandth is too little in the yard: what is taken has every node pass, and a tenth of it not."""
        words = (YARD, '--same-spot', '0.01', '--trend', 'quadratic', '--origin', 'moved')
        m = mapped(*words)
        self.assertEqual((m.runs[0].failed, m.regularization), (0, 1e-6))
        self.assertGreater(mapped(*words, '--regularization', '1e-7').runs[0].failed, 10)

    def test_never_more_than_the_map_would_doubt(self):
        """A hundredth of what the model rises to."""
        for trend, top, tried in (('constant', 1.0, [-6, -5, -4, -3, -2]), ('linear', 0.5, [-5, -4, -3]), ('quadratic', 0.02, [-5, -4]),
                                  ('constant', 3e-9, [-14, -13, -12, -11])):
            self.assertEqual(list(powers(Survey([], trend, None, Variogram('spherical', 0.0, top, 9.0), 0.0, 0.0))), tried)

    def test_what_helps_where_nodes_fail_all_the_same(self):
        """Not the regularization that is taken already."""
        two = [Well('A', 0.0, 0.0, 1.0), Well('B', 0.0, 0.0, 1.0)]
        for trend, given, helps in (('quadratic', 1e-9, 'give --regularization 1e-4'), ('quadratic', 1e-4, 'take a simpler --trend'),
                                    ('constant', 1e-9, 'give --regularization 1e-6')):
            survey = Survey(two, trend, None, Variogram('spherical', 0.0, 1.0, 9.0), given, 1e-9, 0.01)
            self.assertEqual(what_helps(survey), f'keep one of the wells that share a spot, or {helps}')

    def test_nodes_that_are_tried(self):
        """All of a few; of a grid of 100 by 100, or of 20 columns, nodes in nearly all columns and rows."""
        self.assertEqual(list(spread_over(range(100))), list(range(100)))
        for count, columns in ((10000, 100), (2000, 20), (144, 12)):
            found = spread_over(range(count))
            self.assertLessEqual(len(found), 100)
            self.assertGreater(len({i % columns for i in found}), 0.8 * columns)
            self.assertGreater(len({i // columns for i in found}), 0.8 * count // columns)
