"""The list of wells."""
from dataclasses import dataclass, field
from typing import Dict, List as Many, Optional

from mapper.errors import Stop
from mapper.lists.columns import List
from mapper.lists.depths import depth_like_levels, levels_above, worked_out
from mapper.lists.level_column import level_column
from mapper.lists.readings import Readings
from mapper.lists.rival_columns import rival_doubts, rival_places
from mapper.lists.sentinels import sentinel_doubts
from mapper.lists.unit_words import conversions, unknown_units
from mapper.lists.well_rows import WellRows
from mapper.lists.written_doubts import feet_beside_none, points_or_thousands, rounded_places
from mapper.records import Doubt, Well


@dataclass
class ListOptions:
    """How a list is to be read."""
    external: Optional[str] = None                         # the header of the external column
    columns: Dict[str, str] = field(default_factory=dict)  # a role, 'name', 'x', 'y', 'level', 'depth', 'ground' or 'date', and the header asked for
    skip_unreadable: bool = False                          # lines that cannot be read are left out, and listed
    readings: Optional[str] = None                         # which of several readings of a well: 'newest', 'first', 'last' or 'average'
    all_stay: bool = False                                 # where nothing chooses among readings all of them stay: --same-spot takes them as one spot


@dataclass
class WellList:
    """A list of wells that was read, and what is to be said of it."""
    wells: Many[Well]
    external: Optional[str] = None  # the header of the external column as the list has it
    ground: Optional[str] = None    # the header of the column with the ground's height; wells that have a number there have it in `more`
    notes: Many[str] = field(default_factory=list)     # sentences: what was converted, worked out, left out
    doubts: Many[Doubt] = field(default_factory=list)


def read_wells(path, options=ListOptions()):
    """The wells of a list."""
    return Reader(path, options).found()


class Reader:
    """Reads a list of wells: first its header, then its rows, then what they have to do with one another."""

    def __init__(self, path, options):
        self.path, self.options, self.notes, self.doubts = path, options, [], []
        self.table = List(path, ('x', 'y', 'level'), options.columns)
        self.level = self.table.checked(level_column, self.table)
        self.table.at['level'] = self.level and self.level.place
        self.table.need([role for role in ('x', 'y', 'level') if self.table.at[role] is None])
        self.apart()
        self.external = None if options.external is None else self.table.column(options.external)
        self.date = self.table.checked(self.table.headers.optional, 'date')
        self.units()
        self.table.settle_marks()

    def apart(self):
        """Ends the run where one column was asked for as two things."""
        seen = {}
        for role, place in (('x', self.table.at['x']), ('y', self.table.at['y']), ('level', self.level.place), ('ground', self.level.ground)):
            other = seen.setdefault(place, role)
            if other != role and place is not None:
                raise self.table.bad(f'the column {self.table.header[place]} would be {other} and {role} at once; choose another by --{other} or --{role}')
        self.table.at['name'] = None if self.table.at['name'] in seen else self.table.at['name']  # it was asked for as another

    def units(self):
        """Takes the units from the headers, and says what is to be said of them."""
        table, level = self.table, self.level
        used = {table.at['x']: 'x', table.at['y']: 'y', level.place: level.role, **({level.ground: level.ground_role} if level.from_depth else {})}
        beside = {**rival_places(table, level), **({level.ground: level.ground_role} if level.ground is not None else {})}
        for place, role in [*used.items(), *beside.items()]:
            table.measure(place, table.headers.all[place].unit(role))
        if self.external is not None and self.external not in table.units:
            table.measure(self.external, table.headers.all[self.external].unit())
        self.notes += conversions([(table.header[place], unit) for place, unit in table.units.items() if place in used or place == self.external])
        self.doubts += unknown_units([(table.header[place], table.units[place]) for place in used]) + level.doubts + feet_beside_none(table, used)
        if level.ground is not None and level.ground not in used and table.units[level.ground].unknown is not None:
            level.ground = None

    def header(self, place):
        return None if place is None else self.table.header[place]

    def found(self):
        """The wells, and what is to be said of them."""
        rows = self.rows()
        wells = self.taken(rows, self.levels([row.well for row in rows.rows]))
        self.notes += [said for said in (rows.sentence(), comment_note(rows.commented())) if said]
        return WellList(wells, self.header(self.external), self.header(self.level.ground), self.notes, self.doubts)

    def rows(self):
        """The rows that can be read; those with numbers that stand for missing ones are left out or doubted."""
        level, at, skip = self.level, self.table.at, self.options.skip_unreadable
        further = [place for place in (level.ground if level.from_depth else None, self.external) if place is not None]
        heights = {level.place, level.ground}
        rows = WellRows(self.table, list(dict.fromkeys([at['x'], at['y'], level.place, *further])), skip)
        rows.all()
        for place in rows.needed:
            if skip:
                rows.leave_missing_out(place, place in heights)
            found = [(rows.rows[i].well, rows.rows[i].read[place]) for i in rows.missing(place, place in heights)]
            self.doubts += sentinel_doubts(self.table.header[place], found)
        if not rows.rows:
            raise Stop(self.none(rows))
        self.doubts += rival_doubts(self.table, level, rows.rows) + points_or_thousands(self.table) + rounded_places(self.table, rows.rows)
        return rows

    def none(self, rows):
        """What to say of a list without a well."""
        said = rows.sentence()
        if said:
            return f'{self.path} has no well that can be read. {said}'
        hidden = ' Lines that begin with # are passed over; write such names without it, or in quotes.' if rows.commented() else ''
        return f'{self.path} has a header and no well. Give each well a line: its name, x, y and level.{hidden}'

    def levels(self, wells):
        """The wells with their levels: those of the column, or worked out from depths."""
        level, ground = self.header(self.level.place), self.header(self.level.ground)
        if self.level.from_depth:
            wells, doubts = worked_out(wells, level, ground)
            self.notes.append(f'Levels are worked out from depths: level = {ground} - {level}.')
        else:
            doubts = [] if any(doubt.grave for doubt in self.level.doubts) else depth_like_levels(wells, level, ground) + levels_above(wells, level, ground)
        self.doubts += doubts
        return wells

    def taken(self, rows, wells):
        """One well for each that was read several times."""
        dates = None if self.date is None else [row.fields[self.date] for row in rows.rows]
        readings = Readings(self.path, wells, dates, self.options.readings, self.options.all_stay)
        if self.options.skip_unreadable and readings.unreadable():
            left = set(readings.unreadable())
            rows.leave_out(sorted(left), lambda row: f'{self.header(self.date)} is no day: {row.fields[self.date]}')
            readings = Readings(self.path, [well for i, well in enumerate(wells) if i not in left],
                                [row.fields[self.date] for row in rows.rows], self.options.readings, self.options.all_stay)
        taken, said = readings.taken()
        self.notes += [said] if said else []
        return taken


def comment_note(lines):
    """What to say of lines that have a well and begin with #."""
    if not lines:
        return None
    many = f'Lines {", ".join(map(str, lines))} begin' if len(lines) > 1 else f'Line {lines[0]} begins'
    return f'{many} with # and {"were" if len(lines) > 1 else "was"} passed over, with a well in {"each" if len(lines) > 1 else "it"}.'
