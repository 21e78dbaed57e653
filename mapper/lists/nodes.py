"""The nodes: a list of them."""
from array import array

from mapper.errors import Stop
from mapper.lists.columns import List
from mapper.lists.sentinels import like_none
from mapper.numbers import shown
from mapper.records import Nodes


def unanswered(x, y, names=None):
    """Nodes that have got nothing yet."""
    return Nodes(x, y, array('d', bytes(8 * len(x))), array('d', bytes(8 * len(x))), bytearray(len(x)), names)


def read_nodes(path, external=None):
    """The nodes of a list, and their numbers in the external column, an empty array where none is asked for."""
    table = List(path, ('x', 'y'))
    table.need([role for role in ('x', 'y') if table.at[role] is None])
    drift = None if external is None else table.column(external)
    for place, role in ((table.at['x'], 'x'), (table.at['y'], 'y'), (drift, None)):
        if place is not None:
            table.measure(place, known_unit(table, place, role))
    table.settle_marks()
    x, y, outside, names = array('d'), array('d'), array('d'), []
    for fields in table:
        x.append(table.number(fields, table.at['x']))
        y.append(table.number(fields, table.at['y']))
        if drift is not None:
            outside.append(known(table, table.number(fields, drift), drift))
        if table.at['name'] is not None:
            names.append(fields[table.at['name']] or str(len(x)))
    if not x:
        raise Stop(f'{path} has a header and no node. Give each node a line: its x and y.')
    return unanswered(x, y, names or None), outside


def known(table, number, place):
    """A number of the external column that does not stand for a missing one."""
    if number <= -999 and like_none(number):
        raise table.bad(f'{table.header[place]} is {shown(number)}, which stands for a missing value; fill it in, or take the line out')
    return number


def known_unit(table, place, role):
    """What a header says of its numbers; a unit of x or y that is not known ends the run."""
    unit = table.headers.all[place].unit(role)
    if unit.unknown is not None and role is not None:
        raise table.bad(f'{table.header[place]} has a unit that is not known here, {unit.unknown}; convert the column to metres, and write [m]')
    return unit
