"""The second way to run a sheet: the library's proved call `nakwemol_fit`, for what a survey file cannot say, and for more wells than the program takes. It
answers what a listing says.

Calls have no state and leave Python's lock while they run, so that sheets run side by side here too.
"""
import math

from mapper.errors import Refused, Stop
from mapper.runs.answers import Answer
from mapper.runs.survey import SAME_SPOT
from mapper.runs.survey_file import CODES, MODELS


class ByLibrary:
    """Runs sheets by the library at this path, whose calls are `nakwemol` (bindings/python)."""
    called = "the library's nakwemol_fit"

    def __init__(self, path, nakwemol):
        self.path, self.nakwemol = path, nakwemol

    def answer(self, sheets, sheet):
        """A sheet's answer. Raises Refused."""
        try:
            found = self.nakwemol.universal_kriging_fit(sheets.coords, sheets.levels, self.options(sheets), sheets.node_places(sheet),
                                                        sheets.node_drift(sheet), tolerance=sheets.survey.tolerance)
        except self.nakwemol.Refused as refused:
            raise Refused(refused.number)
        return Answer(one_nan(found.predicted), one_nan(found.variance), bytes(found.verdicts), one_nan(found.multipliers), one_nan(found.trend))

    def options(self, sheets):
        """The trend, the model and r, as the call takes them."""
        survey, model = sheets.survey, sheets.survey.variogram
        trend = [CODES[survey.trend]] + ([] if survey.external is None else [self.nakwemol.External(sheets.drift)])
        spot = SAME_SPOT if survey.same_spot is None else survey.same_spot
        variogram = self.nakwemol.Variogram(MODELS[model.model], model.nugget, model.sill, model.range, spot)
        return self.nakwemol.UniversalKrigingOptions(trend, variogram, survey.regularization)

    def damaged(self, of, why):
        """What ends a run where the answer for something is none."""
        return Stop(f'{self.path} gave no answer for {of}: {why}. Remove it, and it is built anew.')


def one_nan(numbers):
    """Numbers as a listing has them: of a NaN the bits say nothing, and all are one."""
    return tuple(math.nan if x != x else x for x in numbers)
