"""What is doubtful in the way that a list's numbers are written."""
from mapper.lists.number_marks import written
from mapper.lists.sentinels import HIGHEST
from mapper.lists.unit_words import listed
from mapper.naming import called
from mapper.numbers import counted
from mapper.records import Doubt

FINE = 1.0  # metres that a place may be rounded to


def feet_beside_none(table, used):
    """A doubt where some columns say feet and others nothing. `used` are the columns of places and levels."""
    feet = [table.header[place] for place in used if table.units[place].name == 'ft']
    silent = [table.header[place] for place in used if table.units[place].name is None and table.units[place].unknown is None]
    if not feet or not silent:
        return []
    say = 'says no unit and is' if len(silent) == 1 else 'say no unit and are'
    return [Doubt(f'{feet[0]} is in feet, and {listed(silent)} {say} taken as metres. Write [ft] or [m] in every header.')]


def points_or_thousands(table):
    """A doubt where every point of a list may part thousands; such lists have a semicolon or a tab between their fields. A level of 31.250 is none of 31 km."""
    if table.marks.settled or table.separator == ',':
        return []
    x, y, level = (table.marks.unsure['.'].get(table.header[table.at[role]]) for role in ('x', 'y', 'level'))
    where = x or y or (level if level and abs(written(level.cell).value(',')) < HIGHEST else None)
    if where is None:
        return []
    return [Doubt(f'{where.header} in line {where.line}, {where.cell}, is taken as {written(where.cell).value("."):.10g}, with a decimal point; nothing in the '
                  f'list tells whether its points part thousands. If they do, write the numbers without them, such as {where.cell.replace(".", "")}; '
                  'else save the list with commas between its fields.')]


def rounded_places(table, rows):
    """A doubt where a spreadsheet has rounded places, such as 4.51E+06."""
    found = []
    for row in rows:
        for role in ('x', 'y'):
            cell = written(row.fields[table.at[role]])
            if cell is not None and cell.exponent and step(cell, table, table.at[role]) > FINE:
                found.append((row, role, step(cell, table, table.at[role])))
    if not found:
        return []
    row, role, by = found[0]
    place = table.at[role]
    more = f', and {counted(len(found) - 1, "other place")} too' if len(found) > 1 else ''
    return [Doubt(f'{table.header[place]} of {called(row.well)} is written {row.fields[place]}, rounded to {by:,.0f} m{more}. '
                  'Show the column with all its figures in the spreadsheet, and save the list again.')]


def step(cell, table, place):
    """What the last figure of a number with an exponent counts, in metres."""
    decimals = len(cell.digits.partition(table.marks.decimal)[2])
    return table.metres(10.0 ** (int(cell.exponent[1:]) - decimals), place)
