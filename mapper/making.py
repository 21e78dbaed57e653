"""From the options to the map."""
from array import array
from pathlib import Path

from mapper.doubts.degrees import degree_doubts
from mapper.doubts.far_places import far_near_doubts
from mapper.doubts.judgements import in_order, stop_where_grave
from mapper.doubts.leave_one_out import Others
from mapper.doubts.levels import slope_doubts
from mapper.doubts.places import place_doubts
from mapper.doubts.same_spot import same_spot_doubts
from mapper.doubts.settings import setting_doubts
from mapper.doubts.spots import spot_doubts
from mapper.doubts.standing_out import standing_out_doubts
from mapper.errors import Refused, Stop
from mapper.joined_wells import join_note, joined_wells
from mapper.lists.grid import default_grid, grid_nodes, grid_of
from mapper.lists.nodes import read_nodes, unanswered
from mapper.lists.wells import ListOptions, read_wells
from mapper.model.fitting import Given
from mapper.model.variogram import variogram_of
from mapper.nearest_wells import near_note, nearest_wells
from mapper.options import ROLES
from mapper.progress import Bar
from mapper.records import Map
from mapper.runs.origin import corner
from mapper.runs.refusals import refusal
from mapper.runs.running import run
from mapper.runs.sheets import Sheets
from mapper.runs.survey import Survey
from mapper.runs.survey_file import DRIFT, columns
from mapper.runs.telling_apart import tell_apart
from mapper.runs.ways import most_wells, way_notes, way_of
from mapper.source import source_of

REGULARIZATION = 1e-10  # where none is given; but joined wells get another (runs/telling_apart.py)


class Made:
    """A map on its way: the survey, its nodes, the doubts, and the sentences said on the way."""

    def __init__(self, options, tell):
        self.options, self.tell, self.notes, self.turned_away = options, tell, [], []
        self.left_out, self.source, self.most = [], None, most_wells(options)
        self.read(options)
        self.judge(options)
        self.grid, self.nodes, self.outside = self.places(options)
        given = Given(options.nugget, options.sill, options.range)
        variogram, self.bins, said = self.refusable(variogram_of, self.wells, options.trend, self.external, options.model, given, tell, options.progress)
        if said:
            self.say(said)
        regularization = REGULARIZATION if options.regularization is None else options.regularization
        self.survey = Survey(self.wells, options.trend, self.external, variogram, regularization, options.tolerance, options.same_spot)
        for note in way_notes(self.survey):
            self.say(note)
        tell_apart(self)
        self.doubts += spot_doubts(self.survey) + setting_doubts(self.survey)

    def read(self, options):
        """Reads the list, and ends the run where what is in it cannot be a water table."""
        named = {role: getattr(options, role) for role in ROLES if getattr(options, role) is not None}
        found = read_wells(options.wells, ListOptions(options.external, named, options.skip_unreadable, options.readings, options.same_spot is not None))
        self.wells, self.external, self.ground = found.wells, found.external, found.ground
        for note in found.notes:
            self.say(note)
        self.doubts = list(found.doubts)
        if options.near is not None:
            self.doubts += far_near_doubts(self.wells, options.near)
            self.wells, left = nearest_wells(self.wells, options.near, self.most)
            self.say(near_note(self.wells, left, options.near))
        # Of a list that is too long only what ends the run is of use: it is refused below.
        few = len(self.wells) <= self.most
        self.corner = corner(self.wells)
        if few and options.same_spot is not None:
            self.join(options.same_spot)
        self.doubts += place_doubts(self.wells) + slope_doubts(self.wells) if few else degree_doubts(self.wells)
        if not options.anyway:
            stop_where_grave(self.doubts)

    def join(self, below):
        """Takes wells nearer to each other than that as one spot."""
        self.wells, joins = joined_wells(self.wells, below, self.corner, self.external)
        self.doubts += same_spot_doubts(self.wells, joins, below)
        self.say(join_note(joins, below))

    def say(self, sentence):
        """Tells a sentence, and keeps it for the page."""
        self.tell(sentence)
        self.notes.append(sentence)

    def refused(self, number):
        asked = self.options.at[0][:2] if self.options.at else None
        return Stop(refusal(number, self.wells, self.options.trend, self.external, asked, self.most))

    def refusable(self, call, *arguments):
        """A call's answer; a refusal becomes its words."""
        try:
            return call(*arguments)
        except Refused as refused:
            raise self.refused(refused.number)

    def judge(self, options):
        """Turns away at once what the proved code would turn away after the bins are made and fitted."""
        rows = len(columns(options.trend, self.external))
        if len(self.wells) < rows:
            raise self.refused(7)
        if len(self.wells) > self.most or rows > DRIFT:
            raise self.refused(9)
        spots, least = len({(well.x, well.y) for well in self.wells}), len(columns(options.trend, None))
        if options.same_spot is not None and spots < least:
            raise Stop(f'The {options.trend} trend needs wells at {least} spots, and --same-spot leaves {spots}. Measure more wells, or choose a simpler '
                       '--trend.')

    def places(self, options):
        """The grid or None, the nodes, and their external numbers."""
        if options.at:
            asked = unanswered(*(array('d', (place[i] for place in options.at)) for i in (0, 1)))
            return None, asked, array('d', (place[2] for place in options.at) if self.external is not None else ())
        if options.nodes is not None:
            return (None, *read_nodes(options.nodes, self.external))
        if self.external is not None:
            raise Stop(f'{self.external} is known at the wells and not at the nodes of a grid. Name a list of nodes that has the column: --nodes nodes.csv.')
        grid = grid_of(self.wells, *options.grid) if options.grid else default_grid(self.wells)
        return grid, grid_nodes(grid), array('d')

    def sheets(self, origin, nodes=None, outside=None):
        return Sheets(self.survey, self.nodes if nodes is None else nodes, self.outside if outside is None else outside, origin)

    def through(self, sheets, what, keep=None):
        """All of some sheets, with a bar. Raises Refused."""
        way = self.way()
        with Bar(what, len(sheets.nodes), self.options.progress) as bar:
            return run(way, sheets, self.options.jobs, bar.step, keep)

    def way(self):
        return way_of(self.survey, self.tell, self.options.progress)

    def leave_out(self, origin):
        """Holds each well to the others, by the way that is run and from the origin that is drawn."""
        way = self.way()
        self.source, others = source_of(self.options.wells, way), Others(way, self.survey, origin, self.options.jobs)
        self.left_out = others.left_out(self.wells)
        self.doubts = in_order(standing_out_doubts(self.wells, self.left_out, others) + self.doubts)

    def map(self, nodes, runs, drawn):
        survey = self.survey
        return Map(Path(self.options.wells).stem, self.wells, nodes, self.grid, survey.variogram, self.bins, survey.trend, self.external,
                   survey.regularization, survey.tolerance, columns(survey.trend, self.external), runs, drawn, self.notes, self.turned_away,
                   self.doubts, self.left_out, self.source, survey.same_spot)
