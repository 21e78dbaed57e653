"""The map's sheets: the same wells in each, and at most 100 nodes."""
from functools import cached_property

from mapper.runs.survey_file import NODES, can_say, codes, columns, head, packed, trailer


class Sheets:
    """The sheets of all the nodes, with the origin moved by `origin`: as lists, or as survey files. Each is made when it is asked for, so that none is kept.

    `survey` says what is asked of the wells (runs/survey.py). A node's answer depends on the node alone, so that sheets change nothing in it; the
    trend's estimate depends on no node, and is kept here once a sheet has come with it.
    """

    def __init__(self, survey, nodes, outside, origin):
        self.survey, self.nodes, self.outside, self.origin = survey, nodes, outside, origin
        self.levels = [well.level for well in survey.wells]
        self.coords = [z for well in survey.wells for z in self.moved(well.x, well.y)]
        self.drift = [] if survey.external is None else [well.more[survey.external] for well in survey.wells]
        self.codes, self.columns = codes(survey.trend, survey.external), len(columns(survey.trend, survey.external))
        self.estimate = ()

    def moved(self, x, y):
        return x - self.origin[0], y - self.origin[1]

    def __len__(self):
        return -(-len(self.nodes) // NODES)

    def span(self, sheet):
        """The nodes on a sheet, counted from 0: from the first to before the second."""
        return NODES * sheet, min(NODES * (sheet + 1), len(self.nodes))

    def node_places(self, sheet):
        """x and y of each node on a sheet, one after another."""
        first, end = self.span(sheet)
        return [z for x, y in zip(self.nodes.x[first:end], self.nodes.y[first:end]) for z in self.moved(x, y)]

    def node_drift(self, sheet):
        """The external number of each node on a sheet, none where there is no such column."""
        first, end = self.span(sheet)
        return [] if self.survey.external is None else list(self.outside[first:end])

    @cached_property
    def begins(self):
        """What every survey file begins with: the numbers, and the wells."""
        survey = self.survey
        if not can_say(survey):
            raise ValueError('a survey file cannot say this survey, and another one would be run in its place')
        return head(survey.variogram, survey.regularization, survey.tolerance) + packed(self.levels) + packed(self.coords) + packed(self.drift)

    def __getitem__(self, sheet):
        """A sheet's survey file, in bytes."""
        places = self.node_places(sheet)
        ends = self.codes + trailer(len(self.levels), len(places) // 2, self.codes, self.survey.variogram.model)
        return self.begins + packed(places) + packed(self.node_drift(sheet)) + ends
