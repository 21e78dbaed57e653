"""What is no list of numbers, or of another shape, is turned away by a sentence: nothing is taken for the numbers that it happens to hold."""
import array
import fractions
import unittest

from nakwemol import (
    DriftBasis,
    External,
    KrigingInterpolator,
    KrigingType,
    SemivariogramCalculator,
    Survey,
    UniversalKrigingOptions,
    Variogram,
    VariogramModel,
    universal_kriging_fit,
    write_survey,
)

SPHERICAL = Variogram(VariogramModel.SPHERICAL, 0.0, 1.0, 1.0)
CONSTANT = UniversalKrigingOptions(regularization=0.0)

# Two wells, (0, 0) with 2 and (2, 0) with 6, and the node (1, 0) between them, which has 4.
COORDS, VALUES, NODE = [[0, 0], [2, 0]], [2, 6], [[1, 0]]
TWO = Survey([2.0, 6.0], [0.0, 0.0, 2.0, 0.0], [4, 1], [0.25, 0.5], [1.0, 0.0], [7.0], SPHERICAL, 1e-10, 1e-6)


class Array:
    """What of numpy's arrays is used: `tolist`, which gives a number where the array has no axis. Such a one has `__len__`, too, which then raises."""

    def __init__(self, held):
        self.held = held

    def tolist(self):
        return self.held

    def __len__(self):
        return len(self.held)


class Unlisted(unittest.TestCase):
    def fit(self, coords=COORDS, values=VALUES, options=CONSTANT, nodes=NODE, drift=None, tolerance=0.0):
        return universal_kriging_fit(coords, values, options, nodes, drift, tolerance=tolerance).predicted

    def turned_away(self, kind, words, call, *arguments, **named):
        with self.assertRaises(kind) as caught:
            call(*arguments, **named)
        self.assertIn(words, str(caught.exception))

    def test_texts_are_no_rows_of_digits(self):
        """Two texts of two digits would be the wells (0, 0) and (2, 0), and those of one digit their values."""
        self.turned_away(TypeError, "coords[0] is '00', which is text", self.fit, coords=["00", "20"])
        self.turned_away(TypeError, "coords[1][0] is '2', which is text", self.fit, coords=[[0, 0], ["2", "0"]])
        self.turned_away(TypeError, "values[0] is '2', which is text", self.fit, values=["2", "6"])
        self.turned_away(TypeError, "values is '26', which is text", self.fit, values="26")
        self.turned_away(TypeError, "query_points[0] is '10', which is text", self.fit, nodes=["10"])
        self.turned_away(TypeError, "coords[0] is '00', which is text", self.fit, coords=Array(["00", "20"]))
        self.turned_away(TypeError, "values[1] is '6', which is text", self.fit, values=Array([2, "6"]))

    def test_bytes_are_no_numbers(self):
        for data in (b"\2\6", bytearray(b"\2\6"), memoryview(b"\2\6")):
            self.turned_away(TypeError, "which is text or bytes", self.fit, values=data)
            self.turned_away(TypeError, "which is text or bytes", self.fit, options=CONSTANT._replace(drift_bases=[External(data)]), drift=[1])
        for rows in ([b"\0\0", b"\2\0"], [memoryview(b"\0\0"), memoryview(b"\2\0")]):
            self.turned_away(TypeError, "coords[0] is", self.fit, coords=rows)
        self.turned_away(TypeError, "and no list of bases", self.fit, options=CONSTANT._replace(drift_bases=b"\1"))
        self.turned_away(TypeError, "which is text or bytes", write_survey, TWO._replace(values=b"\2\6"))
        self.turned_away(TypeError, "and no list of bases", write_survey, TWO._replace(bases=b"\4\1"))

    def test_values_are_a_list_or_a_column(self):
        """Numpy's shapes (n,) and (n, 1) mean the same: there is one number a well. A row of all values is none of these."""
        for column in ([[2], [6]], [(2,), (6,)], Array([[2.0], [6.0]]), [Array([2]), Array([6])]):
            self.assertEqual(self.fit(values=column), [4.0])
        for row in ([[2, 6]], Array([[2, 6]]), [[2, 6], [2, 6]]):
            self.turned_away(ValueError, "values has rows of 2, and not of 1", self.fit, values=row)
        external = CONSTANT._replace(drift_bases=[External([[1], [1]])])
        self.assertEqual(self.fit(options=external, drift=[1]), [4.0])
        self.turned_away(ValueError, "External has rows of 2, and not of 1", self.fit, options=CONSTANT._replace(drift_bases=[External([[1, 1]])]), drift=[1])

    def test_no_other_shape_is_flattened(self):
        for coords in ([[[0, 0]], [[2, 0]]], [[[0], [0]], [[2], [0]]], Array([[[0], [0]], [[2], [0]]])):
            with self.assertRaises(ValueError):
                self.fit(coords=coords)
        self.turned_away(ValueError, "coords[0][0] is [0], a list where a number has to stand", self.fit, coords=[[[0], [0]], [[2], [0]]])
        self.turned_away(ValueError, "coords has rows of different lengths, or numbers beside rows", self.fit, coords=[0, 0, [2, 0]])
        self.turned_away(ValueError, "coords has rows of different lengths", self.fit, coords=[[0], [0, 2, 0]])
        self.turned_away(ValueError, "values[0][0] is [2], a list", self.fit, values=[[[2]], [[6]]])
        self.turned_away(ValueError, "query_external_drift has rows of 2, and not of 1", self.fit,
                         options=CONSTANT._replace(drift_bases=[External([1, 1])]), drift=[[1, 1]])
        self.turned_away(ValueError, "coords has rows of 4, and not of 2", write_survey, TWO._replace(coords=[TWO.coords]))

    def test_older_calls(self):
        interpolate = KrigingInterpolator(KrigingType.ORDINARY, SPHERICAL).interpolate
        self.assertEqual(interpolate(COORDS, [[2], [6]], NODE).values, [4.0])
        self.turned_away(ValueError, "values has rows of 2, and not of 1", interpolate, COORDS, [[2, 6]], NODE)
        self.turned_away(TypeError, "points[0] is '00', which is text", interpolate, ["00", "20"], VALUES, NODE)
        self.turned_away(TypeError, "targets is b'\\x01\\x00', which is text or bytes", interpolate, COORDS, VALUES, b"\1\0")
        calculate = SemivariogramCalculator.calculate
        self.assertEqual(calculate([[0], [1], [2]], [[0], [2], [4]], 2), ([1.5], [4.0], [3]))
        self.turned_away(ValueError, "values has rows of 3, and not of 1", calculate, [[0], [1], [2]], [[0, 2, 4]], 2)
        self.turned_away(TypeError, "values[0] is '0', which is text", calculate, [[0], [1], [2]], ["0", "2", "4"], 2)

    def test_what_is_no_list(self):
        self.turned_away(TypeError, "values is 2, and no list", self.fit, values=2)
        self.turned_away(TypeError, "values is 2.5, and no list", self.fit, values=Array(2.5))
        self.turned_away(TypeError, "values is None, and no list", self.fit, values=None)
        self.turned_away(TypeError, "coords is a dict, which holds names", self.fit, coords={(0, 0): 2, (2, 0): 6})
        self.turned_away(TypeError, "values is a set, which holds names or has no order", self.fit, values={2, 6})
        self.turned_away(TypeError, "drift_bases is <DriftBasis.LINEAR: 2>, and no list", self.fit, options=CONSTANT._replace(drift_bases=DriftBasis.LINEAR))
        self.turned_away(TypeError, "and no list of bases", self.fit, options=CONSTANT._replace(drift_bases=External([1, 1])))

    def test_what_is_no_number(self):
        self.turned_away(TypeError, "values[1] is None, and no number", self.fit, values=[2, None])
        self.turned_away(ValueError, "values[1] is too large", self.fit, values=[2, 10 ** 400])
        self.turned_away(TypeError, "drift_bases has '1' in it", self.fit, options=CONSTANT._replace(drift_bases=["1"]))
        self.turned_away(TypeError, "drift_bases has 1.9 in it", self.fit, options=CONSTANT._replace(drift_bases=[1.9]))
        self.turned_away(TypeError, "regularization is '0', which is text", self.fit, options=CONSTANT._replace(regularization="0"))
        self.turned_away(TypeError, "sill is '1', which is text", self.fit, options=CONSTANT._replace(variogram=SPHERICAL._replace(sill="1")))
        self.turned_away(TypeError, "tolerance is None, and no number", self.fit, tolerance=None)

    def test_numbers_of_other_kinds(self):
        """Fractions, numbers kept in arrays without an axis, arrays of rows, and memory that holds doubles."""
        half = fractions.Fraction(4, 2)
        self.assertEqual(self.fit(values=[half, Array(6)]), [4.0])
        self.assertEqual(self.fit(coords=[Array([0, 0]), [Array(2), 0]]), [4.0])
        self.assertEqual(self.fit(values=memoryview(array.array("d", [2, 6]))), [4.0])
        self.assertEqual(self.fit(coords=zip((0, 2), (0, 0)), values=iter(VALUES)), [4.0])


if __name__ == "__main__":
    unittest.main()
