"""Columns that could be the level, or the places, as well as those that were taken."""
from mapper.lists.columns import Unreadable
from mapper.lists.unit_words import listed
from mapper.records import Doubt

SAME = 0.01  # metres


def rival_places(table, level):
    """The columns that are compared with those that were taken, and their roles."""
    pairs = other_pairs(table)
    return {**{place: 'level' for place in level.rivals}, **{x: 'x' for x, _ in pairs}, **{y: 'y' for _, y in pairs}}


def other_pairs(table):
    """The places of x and y that go together, and were not taken nor left by choice."""
    if {'x', 'y'} & set(table.chosen):
        return []
    return [pair for pair in table.headers.pairs() if pair != (table.at['x'], table.at['y'])]


def same(table, taken, other, rows):
    """Whether two columns have the same numbers in every row."""
    for row in rows:
        try:
            number = table.metres(table.read(row.fields[other], other), other)
        except Unreadable:
            return False
        if abs(number - table.metres(row.read[taken], taken)) > SAME:
            return False
    return True


def rival_doubts(table, level, rows):
    """A doubt where a list has several columns of levels or of places that differ."""
    doubts, x, y = [], table.at['x'], table.at['y']
    levels = [place for place in level.rivals if not same(table, level.place, place, rows)]
    if levels:
        doubts.append(Doubt(f'The list has several columns of levels: {listed([table.header[place] for place in [level.place, *levels]])}. '
                            f'{table.header[level.place]} is taken; choose another by --level.'))
    pairs = [pair for pair in other_pairs(table) if not (same(table, x, pair[0], rows) and same(table, y, pair[1], rows))]
    if pairs:
        others = listed([f'{table.header[a]} and {table.header[b]}' for a, b in pairs])
        doubts.append(Doubt(f'The list has several columns of places: {table.header[x]} and {table.header[y]} are taken, and not {others}. '
                            'Choose others by --x and --y.'))
    if not {'x', 'y'} & set(table.chosen) and not table.headers.pairs():
        doubts.append(Doubt(f'{table.header[x]} is taken as x and {table.header[y]} as y, two headers that do not go together. '
                            'Look whether they are of one grid, and say which to take by --x and --y.'))
    return doubts
