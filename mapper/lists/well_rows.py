"""The rows of a list of wells, one after the other: what each says, and which of them cannot be read."""
import csv
from dataclasses import dataclass
from typing import Dict, List

from mapper.lists.columns import OPTION, Unreadable
from mapper.lists.sentinels import sentinels
from mapper.lists.units import phrase
from mapper.numbers import counted, shown
from mapper.records import Well

LISTED = 50  # lines that were left out and are named


@dataclass
class Row:
    """A row that was read: its well, whose level is the number of the level's column as yet, and the numbers as they stand in the list, by column."""
    well: Well
    read: Dict[int, float]
    fields: List[str]


class WellRows:
    """Reads the rows. `needed` are the columns that have to have a number: x, y, the level's, and others that are asked for."""

    def __init__(self, table, needed, skip):
        self.table, self.needed, self.skip = table, needed, skip
        self.rows, self.left, self.count = [], [], 0  # what is left out: a name, a line, and why

    def all(self):
        """The rows that can be read."""
        for fields in self.table:
            self.count += 1
            try:
                self.rows.append(self.row(fields))
            except Unreadable as bad:
                self.units_instead(fields)
                if not self.skip:
                    raise self.table.bad(f'{bad}; {bad.advice}; {OPTION} leaves such lines out')
                self.left.append((self.name(fields), self.table.line, str(bad)))
        return self.rows

    def name(self, fields):
        """A well without a name is called by its number."""
        place = self.table.at['name']
        return (fields[place] if place is not None else '') or str(self.count)

    def row(self, fields):
        table = self.table
        read = {place: table.read(fields[place], place) for place in self.needed}
        x, y, level = (table.metres(read[table.at[role]], table.at[role]) for role in ('x', 'y', 'level'))
        return Row(Well(self.name(fields), x, y, level, self.more(fields), table.line), read, fields)

    def more(self, fields):
        """The further columns that have a number."""
        found = {}
        for place in self.table.further():
            try:
                found[self.table.header[place]] = self.table.metres(self.table.read(fields[place], place), place)
            except Unreadable:
                pass
        return found

    def units_instead(self, fields):
        """Ends the run at a row of units, which would be lost if it were left out."""
        cells = [fields[place] for place in self.needed if fields[place]]
        if self.count == 1 and cells and all(phrase(cell).name or phrase(cell).below for cell in cells):
            raise self.table.bad('the line has units in place of numbers; write them into the header, such as level [m], and take the line out')

    def leave_out(self, numbers, why):
        """Takes rows away, by their numbers."""
        for i in numbers:
            well = self.rows[i].well
            self.left.append((well.name, well.line, why(self.rows[i])))
        self.rows = [row for i, row in enumerate(self.rows) if i not in set(numbers)]

    def missing(self, place, height):
        """The rows in which a column's number stands for a missing one. `height` for levels and the ground."""
        return sentinels([(row.read[place], self.table.metres(row.read[place], place)) for row in self.rows], height)

    def leave_missing_out(self, place, height):
        self.leave_out(self.missing(place, height), lambda row: f'{self.table.header[place]} is {shown(row.read[place])}, which stands for a missing value')

    def sentence(self):
        """Which lines were left out; None where none was."""
        if not self.left:
            return None
        left = sorted(self.left, key=lambda each: each[1])
        said = '; '.join(f'{name} (line {line}): {why}' for name, line, why in left[:LISTED])
        more = f'; and {len(left) - LISTED} more' if len(left) > LISTED else ''
        return f'{counted(len(left), "line")} of {self.count:,} left out by {OPTION}: {said}{more}.'

    def commented(self):
        """The lines after the header that begin with # and have a well in them all the same."""
        found = []
        for line, text in self.table.comments:
            if line > self.table.first and self.has_well(text):
                found.append(line)
        return found

    def has_well(self, text):
        """Whether a comment has as many fields as the header, and a place."""
        table = self.table
        try:
            fields = next(csv.reader([text.strip()], delimiter=table.separator))
            if len(fields) == len(table.header):
                for role in ('x', 'y'):
                    table.read(fields[table.at[role]].strip(), table.at[role])
                return True
        except (csv.Error, Unreadable):
            pass
        return False
