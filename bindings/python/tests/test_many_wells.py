"""Up to 96 wells: every call answers, 97 are 9 and never 17; and the survey file's two versions."""
import re
import unittest

from nakwemol import (
    MOST_COLUMNS,
    MOST_NODES,
    MOST_WELLS,
    DriftBasis,
    KrigingInterpolator,
    KrigingType,
    Refused,
    SemivariogramCalculator,
    Survey,
    UniversalKrigingOptions,
    Variogram,
    VariogramModel,
    read_survey,
    universal_kriging_fit,
    write_survey,
)
from tests.words import REPOSITORY

COUNTS = 48, 49, 60, MOST_WELLS
AWAY = [[-9, 0]]
# It reaches half a metre, so that wells a metre apart all say as much.
SHORT = Variogram(VariogramModel.SPHERICAL, 0.0, 1.0, 0.5)


def row(n):
    """Wells a metre apart in a row, well i with the level i: their places and their levels."""
    return [[i, 0] for i in range(n)], list(range(n))


def fit(n, *bases):
    return universal_kriging_fit(*row(n), UniversalKrigingOptions(bases, SHORT, 0.0), AWAY, tolerance=1e-9)


def interpolate(n, kriging_type):
    return KrigingInterpolator(kriging_type, SHORT).interpolate(*row(n), AWAY)


def semivariogram(n):
    return SemivariogramCalculator.calculate(*row(n), 1)


def survey(n, same_spot=2.0 ** -52):
    coords, values = row(n)
    variogram = Variogram(VariogramModel.LINEAR, 0.0, 2.0, 3.0, same_spot)
    return Survey([float(x) for x in values], [float(x) for place in coords for x in place], [1], [], [1.0, 0.0], [], variogram, 1e-10, 1e-6)


def as_version(file, version):
    """The file with another version, which is its third byte from the end."""
    return file[:-3] + bytes([version]) + file[-2:]


def number(call, *arguments):
    try:
        call(*arguments)
    except Refused as refused:
        return refused.number
    return 0


class ManyWells(unittest.TestCase):
    def test_fits_of_a_row(self):
        """All weights are 1 / n, the figure is the average of 0 to n - 1, and the variance 1 + 1 / n."""
        for n in COUNTS:
            found = fit(n, DriftBasis.CONSTANT)
            self.assertEqual((len(found.weights), found.verdicts), (n, [0]))
            for is_, wanted in ((found.predicted[0], (n - 1) / 2), (found.trend[0], (n - 1) / 2), (found.variance[0], 1 + 1 / n)):
                self.assertAlmostEqual(is_ / wanted, 1.0, places=12)
            for weight in found.weights:
                self.assertAlmostEqual(weight, 1 / n, places=14)

    def test_interpolations_of_a_row(self):
        for n in COUNTS:
            found = interpolate(n, KrigingType.ORDINARY)
            self.assertAlmostEqual(found.values[0] * 2 / (n - 1), 1.0, places=12)
            self.assertAlmostEqual(found.variances[0], 1 + 1 / n, places=12)

    def test_semivariograms_of_a_row(self):
        """Half the average square of all differences is n (n + 1) / 12."""
        for n in COUNTS:
            self.assertEqual(semivariogram(n), ([(n - 1) / 2], [n * (n + 1) / 12], [n * (n - 1) // 2]))

    def test_never_17(self):
        """With all twelve columns the work area has 2·108·108 numbers, and none is missing: a row settles no slope to the north, so that it is 19."""
        self.assertEqual([number(fit, n, *[DriftBasis.QUADRATIC] * 2) for n in (49, 96, 97)], [19, 19, 9])
        self.assertEqual([number(interpolate, n, KrigingType.UNIVERSAL) for n in (49, 96, 97)], [19, 19, 9])
        self.assertEqual([number(fit, 97, DriftBasis.CONSTANT), number(semivariogram, 97)], [9, 9])

    def test_versions_of_the_survey_file(self):
        for n in COUNTS:
            file, second = write_survey(survey(n)), n > 48
            self.assertEqual(file[-3], 1 + second, n)
            self.assertEqual((read_survey(file), read_survey(as_version(file, 1))), (survey(n), survey(n)))
            self.assertEqual([number(read_survey, as_version(file, version)) for version in (0, 2, 3)], [16, 0 if second else 16, 16], n)
        self.assertEqual((number(write_survey, survey(97)), number(write_survey, survey(97, 1.0))), (16, 22))

    def test_limits_are_those_of_the_header_and_of_the_reference(self):
        header, reference = ((REPOSITORY / name).read_text(encoding="utf-8") for name in ("include/nakwemol.h", "docs/REFERENCE.md"))
        limits = MOST_WELLS, MOST_COLUMNS, MOST_NODES
        self.assertEqual(tuple(int(re.search(f"#define NAKWEMOL_MOST_{what} ([0-9]+)", header).group(1)) for what in ("WELLS", "COLUMNS", "NODES")), limits)
        self.assertIn("| 9 | n > %d (in `wellmap` n > 48), p > %d or m > %d |" % limits, reference)
        self.assertIn(f"{2 * (MOST_WELLS + MOST_COLUMNS) ** 2:,} numbers serve every fit", reference)


if __name__ == "__main__":
    unittest.main()
