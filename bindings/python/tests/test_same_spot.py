"""The same-spot distance: below it the variogram is 0, from it on the model's value; and where it is refused by 22."""
import math
import sys
import unittest

from nakwemol import (
    KrigingInterpolator,
    KrigingType,
    Refused,
    Survey,
    UniversalKrigingOptions,
    Variogram,
    VariogramModel,
    read_survey,
    universal_kriging_fit,
    write_survey,
)

LEAST = 2.0 ** -52
ABOVE, BELOW = LEAST * (1 + 2.0 ** -52), LEAST * (1 - 2.0 ** -53)  # the numbers next to it
HALF, STEP_BELOW_HALF = 0.5, 0.5 - 2.0 ** -54
TAKEN = (LEAST, ABOVE, 1.0, sys.float_info.max)
WRONG = (BELOW, 0.0, -0.0, -1.0, math.inf, -math.inf, math.nan)
LINE = Variogram(VariogramModel.LINEAR, 0.0, 1.0, 1.0)  # rises by a metre, from 0 to 1
CUT = Variogram(VariogramModel.EXPONENTIAL, 0.0, 1.0, 0.0)  # refused by 12
FILED = Survey([2.0], [0.0, 0.0], [1], [], [], [], LINE, 0.0, 0.0)


def fit(variogram, coords=((0, 0),), values=(2,), node=(3, 0), regularization=0.0, tolerance=0.0):
    """One well with one node, unless it is said otherwise: twice the variogram at their distance is the variance."""
    options = UniversalKrigingOptions(variogram=variogram, regularization=regularization)
    return universal_kriging_fit(coords, values, options, [node], tolerance=tolerance)


def interpolate(variogram, node=(3, 0)):
    """The same by the interpolator."""
    return KrigingInterpolator(KrigingType.ORDINARY, variogram).interpolate([[0, 0]], [2], [node])


def write(variogram, **more):
    return write_survey(FILED._replace(variogram=variogram, **more))


class SameSpot(unittest.TestCase):
    def refused(self, number, call, *arguments, **named):
        with self.assertRaises(Refused) as caught:
            call(*arguments, **named)
        self.assertEqual(caught.exception.number, number, (call.__name__, arguments, named))

    def test_left_out_it_is_the_original_s(self):
        self.assertEqual(Variogram(VariogramModel.LINEAR, 0.0, 1.0, 1.0).same_spot, LEAST)
        self.assertEqual(UniversalKrigingOptions().variogram.same_spot, LEAST)
        self.assertEqual(read_survey(write_survey(FILED)).variogram, LINE)

    def test_at_the_distance_it_is_another_spot_and_a_step_below_the_same(self):
        near = LINE._replace(same_spot=HALF)
        for call in (fit, interpolate):
            variance = {node: call(near, node=(node, 0))[1] for node in (HALF, STEP_BELOW_HALF)}
            self.assertEqual(variance, {HALF: [1.0], STEP_BELOW_HALF: [0.0]}, call.__name__)
            self.assertGreater(call(LINE, node=(STEP_BELOW_HALF, 0))[1][0], 0.9)

    def test_two_wells_at_it_are_told_apart_and_a_step_nearer_not(self):
        near = LINE._replace(same_spot=HALF)
        self.assertEqual(fit(near, [[0, 0], [HALF, 0]], [2, 6], (0.25, 3)).predicted, [4.0])
        self.refused(19, fit, near, [[0, 0], [STEP_BELOW_HALF, 0]], [2, 6])

    def test_the_pivot_s_own_limit_stays(self):
        """Two wells at one spot: r is all that tells them apart, and 2^-52 is enough whatever the distance is."""
        near = LINE._replace(same_spot=HALF)
        fit(near, [[0, 0], [0.25, 0]], [2, 6], regularization=LEAST)
        self.refused(19, fit, near, [[0, 0], [0.25, 0]], [2, 6], regularization=LEAST / 2)

    def test_edges_of_22(self):
        for call in (fit, interpolate):
            for distance in TAKEN:
                self.assertEqual(call(LINE._replace(same_spot=distance))[0], [2.0])
            for distance in WRONG:
                self.refused(22, call, LINE._replace(same_spot=distance))

    def test_no_other_is_written(self):
        for distance in (*TAKEN[1:], *WRONG):
            self.refused(22, write, LINE._replace(same_spot=distance))

    def test_eleven_before_it_and_twelve_after(self):
        for call in (fit, interpolate):
            self.refused(11, call, LINE._replace(sill=math.nan, same_spot=math.nan))
            self.refused(22, call, CUT._replace(same_spot=0.0))
            self.refused(12, call, CUT)
        self.refused(10, fit, LINE._replace(same_spot=0.0), tolerance=-1.0)

    def test_order_of_the_writer(self):
        one = LINE._replace(same_spot=1.0)
        self.refused(11, write, one, regularization=math.nan)
        self.refused(22, write, one, bases=[1] * 65536)
        self.refused(16, write, LINE, bases=[1] * 65536)
        self.assertEqual(len(write(CUT)), 79)  # whose range is the fit's to refuse

    def test_no_number(self):
        for wrong, kind, said in (("0.01", TypeError, "same_spot is '0.01', which is text"), (None, TypeError, "same_spot is None, and no number")):
            with self.assertRaises(kind) as caught:
                fit(LINE._replace(same_spot=wrong))
            self.assertIn(said, str(caught.exception))


if __name__ == "__main__":
    unittest.main()
