"""Small cases whose answers are written down here, what only the safe calls have to see to, the sentences of the refusals, and the page README.md."""
import array
import doctest
import math
import unittest

from nakwemol import (
    DriftBasis,
    External,
    KrigingInterpolator,
    KrigingType,
    Refused,
    SemivariogramCalculator,
    Survey,
    UniversalKrigingOptions,
    Variogram,
    VariogramModel,
    calls,
    read_survey,
    universal_kriging_fit,
    write_survey,
)
from nakwemol.refused import TOLD
from tests.words import REPOSITORY

SPHERICAL = Variogram(VariogramModel.SPHERICAL, 0.0, 1.0, 1.0)
CONSTANT = UniversalKrigingOptions(regularization=0.0)

# Two wells, (0, 0) with 2 and (2, 0) with 6, and the node (1, 0).
COORDS, VALUES, NODE = [[0, 0], [2, 0]], [2, 6], [[1, 0]]


class Array:
    """What of numpy's arrays is used: `tolist`."""

    def __init__(self, rows):
        self.rows = rows

    def tolist(self):
        return self.rows


def load_tests(loader, tests, pattern):
    tests.addTests(doctest.DocFileSuite(str(REPOSITORY / "bindings/python/README.md"), module_relative=False))
    return tests


class Calls(unittest.TestCase):
    def refused(self, number, call, *arguments, **named):
        with self.assertRaises(Refused) as caught:
            call(*arguments, **named)
        self.assertEqual(caught.exception.number, number)

    def test_fit_between_two_wells(self):
        fit = universal_kriging_fit(COORDS, VALUES, CONSTANT, NODE, tolerance=0.0)
        self.assertEqual(fit, ([4.0], [1.5], [0.5], [4.0], [0.5, 0.5], [0]))

    def test_trend_of_one_well_and_without_a_node(self):
        one = universal_kriging_fit(COORDS[:1], [5], CONSTANT, NODE, tolerance=0.0)
        self.assertEqual((one.multipliers, one.trend), ([1.0], [5.0]))
        without = universal_kriging_fit(COORDS, VALUES, CONSTANT, [], tolerance=0.0)
        self.assertEqual((without.multipliers, without.trend), ([0.0], [4.0]))

    def test_trend_of_a_plain(self):
        """Three wells on the plain 2 + 3 x - y, and the node at the first of them: the multipliers are zeros there, and the trend is the plain."""
        linear = CONSTANT._replace(drift_bases=[DriftBasis.LINEAR])
        fit = universal_kriging_fit([[0, 0], [1, 0], [0, 1]], [2, 5, 1], linear, [[0, 0]], tolerance=1e-9)
        for found, wanted in ((fit.multipliers, [0, 0, 0]), (fit.trend, [2, 3, -1])):
            self.assertEqual(len(found), 3)
            for x, y in zip(found, wanted):
                self.assertAlmostEqual(x, y, places=14)

    def test_area_of_the_trend(self):
        """The exported call, which is lent its areas: one that is too short for the trend is 18, and leaves it; past the columns it is untouched."""
        wells = *map(calls.numbers, ([2, 6], [0, 0, 2, 0])), calls.codes([1]), calls.numbers([])
        nodes = tuple(map(calls.numbers, ([1, 0], [])))

        def fit(model, lent):
            work, predicted, variance, weights, multipliers, trend = (calls.numbers([-1.0] * length) for length in (18, 2, 2, 2, 2, lent))
            areas = work, predicted, variance, calls.codes([99] * 2), weights, multipliers, trend
            number = calls.call("nakwemol_fit", *wells, model, 0.0, 1.0, 1.0, 2.0 ** -52, 0.0, *nodes, 0.0, *areas)
            return number, predicted[0], list(multipliers), list(trend)

        self.assertEqual(fit(1, 2), (0, 4.0, [0.5, -1.0], [4.0, -1.0]))
        self.assertEqual(fit(1, 0), (18, -1.0, [-1.0] * 2, []))
        self.assertEqual(fit(5, 2), (100, -1.0, [-1.0] * 2, [-1.0] * 2))

    def test_models_by_the_exponential(self):
        """The weights are halves by symmetry, so the variance is 2 g(1) - g(2) / 2, with g the variogram. A range of 0 is refused of Exponential alone."""
        for model, far in ((VariogramModel.EXPONENTIAL, math.exp(-2)), (VariogramModel.GAUSSIAN, math.exp(-4))):
            variogram = Variogram(model, 0.0, 1.0, 1.0)
            (figure,), (variance,), *_ = universal_kriging_fit(COORDS, VALUES, CONSTANT._replace(variogram=variogram), NODE, tolerance=1e-9)
            self.assertAlmostEqual(figure, 4.0, places=14)
            self.assertAlmostEqual(variance, 2 * (1 - math.exp(-1)) - (1 - far) / 2, places=14)
            interpolated = KrigingInterpolator(KrigingType.ORDINARY, variogram).interpolate(COORDS, VALUES, NODE)
            self.assertAlmostEqual(interpolated.variances[0], variance, places=14)
        for span in (0.0, -0.0, -1.0):
            exponential, gaussian = (Variogram(model, 0.0, 1.0, span) for model in (VariogramModel.EXPONENTIAL, VariogramModel.GAUSSIAN))
            self.refused(12, universal_kriging_fit, COORDS, VALUES, CONSTANT._replace(variogram=exponential), NODE, tolerance=0.0)
            self.refused(12, KrigingInterpolator(KrigingType.ORDINARY, exponential).interpolate, COORDS, VALUES, NODE)
            universal_kriging_fit(COORDS, VALUES, CONSTANT._replace(variogram=gaussian), NODE, tolerance=0.0)

    def test_lists_rows_and_arrays_are_one(self):
        rows = universal_kriging_fit(COORDS, VALUES, CONSTANT, NODE, tolerance=0.0)
        flat = universal_kriging_fit((0, 0, 2, 0), (2, 6), CONSTANT, array.array("d", [1, 0]), tolerance=0.0)
        arrays = universal_kriging_fit(Array(COORDS), Array(VALUES), CONSTANT, Array(NODE), tolerance=0.0)
        self.assertEqual(rows, flat)
        self.assertEqual(rows, arrays)

    def test_rows_of_another_length(self):
        for coords in ([[0], [0, 2, 0]], [[0, 0, 2, 0]], [[0, 0, 0], [2, 0, 0]]):
            with self.assertRaises(ValueError):
                universal_kriging_fit(coords, VALUES, CONSTANT, NODE, tolerance=0.0)
        with self.assertRaises(ValueError):
            KrigingInterpolator(KrigingType.ORDINARY, SPHERICAL).interpolate(COORDS, VALUES, [[1, 0, 0]])
        with self.assertRaises(ValueError):
            SemivariogramCalculator.calculate([0, 1, 2], [0, 2, 4], 2)

    def test_every_external_column_has_a_number_for_each_well(self):
        def options(one, other, regularization=0.0):
            return UniversalKrigingOptions([External([1] * one), External([2] * other)], SPHERICAL, regularization)

        for number, chosen in ((6, options(1, 3)), (6, options(3, 1)), (19, options(2, 2)), (5, options(1, 3, -1.0))):
            self.refused(number, universal_kriging_fit, COORDS, VALUES, chosen, NODE, [[1, 2]], tolerance=0.0)

    def test_node_externals_are_asked_for(self):
        external = CONSTANT._replace(drift_bases=[External([1, 1])])
        self.refused(8, universal_kriging_fit, COORDS, VALUES, external, NODE, tolerance=0.0)
        self.assertEqual(universal_kriging_fit(COORDS, VALUES, external, NODE, [[1]], tolerance=0.0).predicted, [4.0])

    def test_numbers_that_are_given(self):
        self.refused(9, universal_kriging_fit, [[0, i] for i in range(97)], range(97), CONSTANT, NODE, tolerance=0.0)
        self.refused(9, universal_kriging_fit, COORDS, VALUES, CONSTANT, NODE * 101, tolerance=0.0)
        self.refused(11, universal_kriging_fit, COORDS, [2, math.nan], CONSTANT, NODE, tolerance=0.0)
        for model in (0, 5, -1, 257):
            self.refused(100, universal_kriging_fit, COORDS, VALUES, CONSTANT._replace(variogram=Variogram(model, 0, 1, 1)), NODE, tolerance=0.0)
        for basis in (0, 5, -1, 257):
            self.refused(4, universal_kriging_fit, COORDS, VALUES, CONSTANT._replace(drift_bases=[basis]), NODE, tolerance=0.0)

    def test_interpolation_between_two_points(self):
        interpolator = KrigingInterpolator(KrigingType.ORDINARY, SPHERICAL)
        self.assertEqual(interpolator.interpolate(COORDS, VALUES, NODE), ([4.0], [1.5]))
        self.assertEqual(interpolator.interpolate([0, 0, 2, 0], VALUES, [1, 0], 2), ([4.0], [1.5]))
        self.refused(13, interpolator.interpolate, [0, 0, 2, 0], VALUES, [1, 0], -1)
        self.refused(100, KrigingInterpolator(258, SPHERICAL).interpolate, COORDS, VALUES, NODE)

    def test_semivariogram_of_three_samples(self):
        self.assertEqual(SemivariogramCalculator.calculate([[0], [1], [2]], [0, 2, 4], 2), ([1.5], [4.0], [3]))
        for bins in (0, -1, 65, 2 ** 64 + 2):
            self.refused(15, SemivariogramCalculator.calculate, [[0], [1], [2]], [0, 2, 4], bins)

    def test_survey_file_there_and_back(self):
        variogram = Variogram(VariogramModel.LINEAR, 0.0, 2.0, 3.0)
        survey = Survey([2.0, 6.0], [0.0, 0.0, 2.0, 0.0], [4, 1], [0.25, -0.0], [1.0, 0.0], [7.0], variogram, 1e-10, 1e-6)
        file = write_survey(survey)
        self.assertEqual(read_survey(file), survey)
        self.refused(16, read_survey, file[1:])
        self.refused(16, read_survey, b"")
        self.refused(1, write_survey, survey._replace(coords=[]))

    def test_default_options(self):
        self.assertEqual(UniversalKrigingOptions(), ((DriftBasis.CONSTANT,), SPHERICAL, 1e-10))

    def test_kinds_and_sentences_are_the_reference_s(self):
        """docs/REFERENCE.md, section 8: `| no. | when | kind | what to do |`."""
        lines = (REPOSITORY / "docs/REFERENCE.md").read_text(encoding="utf-8").splitlines()
        rows = [[cell.strip() for cell in line.strip("|").split(" | ")] for line in lines]
        told = {int(row[0]): (row[2], row[3]) for row in rows if len(row) == 4 and row[0].isdecimal()}
        self.assertTrue(set(range(1, 20)) <= set(told))
        self.assertEqual(told, {number: TOLD[number] for number in told})


if __name__ == "__main__":
    unittest.main()
