"""Universal kriging with an audit, the interpolator, the semivariogram and the survey file: the proved calls of the crate nakwemol.

Lists are sequences of numbers, sequences of rows, or what has `tolist`, as numpy's arrays do; anything else is a TypeError or a ValueError.
docs/REFERENCE.md has the formulas.
"""
from nakwemol.fit import External, DriftBasis, UniversalKrigingOptions, UniversalKrigingResult, universal_kriging_fit
from nakwemol.limits import MOST_COLUMNS, MOST_NODES, MOST_WELLS
from nakwemol.older_calls import KrigingInterpolator, KrigingResult, KrigingType, Semivariogram, SemivariogramCalculator
from nakwemol.refused import Refused
from nakwemol.survey_file import Survey, read_survey, write_survey
from nakwemol.variogram import Variogram, VariogramModel

__all__ = [
    "DriftBasis",
    "External",
    "KrigingInterpolator",
    "KrigingResult",
    "KrigingType",
    "MOST_COLUMNS",
    "MOST_NODES",
    "MOST_WELLS",
    "Refused",
    "Semivariogram",
    "SemivariogramCalculator",
    "Survey",
    "UniversalKrigingOptions",
    "UniversalKrigingResult",
    "Variogram",
    "VariogramModel",
    "read_survey",
    "universal_kriging_fit",
    "write_survey",
]
